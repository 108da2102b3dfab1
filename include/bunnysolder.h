/*
 * The calls of a paternoster port, for a host that lends it its octets and a memory for frames, and the registers that a node's controller sees of
 * it. The rule of the port and the numbers of its refusals are those of the project's document 01 and of the requests of document 02 up to
 * BUNNYSOLDER_EDITION; each function is proved to meet the definition that was drawn from them.
 *
 * What is lent. `port` is the port: BUNNYSOLDER_PORT_LENGTH octets or more. First comes the record, with queues, streams and bindings, and after
 * it the register block, with what the registers of enum bunnysolder_register show: the flags, the interrupt mask, the choice, the count of frames
 * sent, and two counts for each stream. `memory` holds the waiting frames: BUNNYSOLDER_MEMORY_LENGTH octets or more. Octets past these lengths are
 * neither read nor written. Both may hold anything: a call tests what it is given (18 and 19 below) and never reads or writes outside the two, but
 * for the `address` of Bind and Lookup and the `octets` of Frame, which it reads. A port of zeros is closed, and may be opened; a granted Open makes
 * the whole block zeros, whatever it held.
 *
 * What C has to keep. Each pointer is not null and points to as many octets as its length says; `address` points to
 * BUNNYSOLDER_ADDRESS_LENGTH octets. `port`, `memory`, `address`, `octets`, `*first` and `*second` do not overlap. While a call runs nobody else
 * reads or writes `port`, `memory`, `*first` and `*second`, and nobody writes `address` and `octets`, which the call only reads. A register read
 * only reads `port` and `memory` too, and a Lookup and Stream counts only read `port`, so others may read them meanwhile. C cannot be asked for
 * these, and no call can test them.
 *
 * What comes back. A call returns 0, or the number of its refusal, and leaves its two reply numbers in `*first` and `*second`. Both are always
 * written; a refusal leaves two zeros there, and port and memory as they were. BUNNYSOLDER_DISCARD alone also moves its stream, to place last with
 * nothing left, and raises its flag and its stream's count of discards in the block. Of the refusals that apply the first in the order given at each
 * function is returned.
 *
 * Two sorts. Each call but Lookup and Stream counts is there twice. bunnysolder_NAME tests the whole record and its waiting frames (19) before its
 * own refusals, of which 26 alone comes earlier; that takes the longer the more frames wait and the more streams are bound.
 * bunnysolder_NAME_unscanned scans nothing: of 18 and 19 it asks only the two lengths, and then does the same. On every record that is fit (one that
 * 19 does not refuse) the two are equal in reply, port and memory, and leave it fit; and a granted Open of either sort leaves a fit record. The block
 * makes no record unfit, whatever it holds. So a host that opens its port by a granted Open, lets nothing but these calls write port and memory from
 * then on, and always lends the two together, gets the same from both sorts. On a record that is not fit an unscanned call still ends, and reads and
 * writes nothing but port, memory, the two numbers and what it is given to read, but its reply and what it leaves need not be the rule's.
 * bunnysolder_lookup and bunnysolder_stream_counts are lent no memory and test no record: of 18 and 19 they ask only the length of the port (19), and
 * take what it holds as it is.
 */
#ifndef BUNNYSOLDER_H
#define BUNNYSOLDER_H

#include <stddef.h>
#include <stdint.h>

#ifdef __cplusplus
extern "C" {
#endif

/* The edition of the rule: the number of the last request of document 02 that the rule has; 0 is document 01 alone. */
#define BUNNYSOLDER_EDITION 5

/* The octets of a port, which are its record and its register block, and of the memory for 1,280 frames. */
#define BUNNYSOLDER_PORT_LENGTH 1616
#define BUNNYSOLDER_MEMORY_LENGTH 10240

/* The octets of a destination address. */
#define BUNNYSOLDER_ADDRESS_LENGTH 6

/* The streams of a port: they have the numbers from 0 up to one less than this. */
#define BUNNYSOLDER_STREAMS 64

/* The octets, without check sequence, of the shortest and the longest frame that Frame takes: a driver pads to the one and has room for the other. */
#define BUNNYSOLDER_SHORTEST_FRAME 60
#define BUNNYSOLDER_LONGEST_FRAME 1996

/* The refusals of the calls, with the rule's numbers; 21 to 24 are those of captures, which no call replies. */
enum bunnysolder_refusal {
    BUNNYSOLDER_GRANTED = 0,
    BUNNYSOLDER_CLOSED = 1,              /* the port is closed */
    BUNNYSOLDER_OPEN_ALREADY = 2,        /* the port is open already */
    BUNNYSOLDER_LINK_RANGE = 3,          /* L is outside 2,104 to 23,524 */
    BUNNYSOLDER_DELAY_RANGE = 4,         /* K is outside 1 to 16 */
    BUNNYSOLDER_STREAM_RANGE = 5,        /* the stream is above 63 */
    BUNNYSOLDER_RESERVED_ALREADY = 6,    /* the stream is reserved already */
    BUNNYSOLDER_PERMITTED_RANGE = 7,     /* P is below 84 */
    BUNNYSOLDER_SHARE_EXCEEDED = 8,      /* the sum of P would be above the share */
    BUNNYSOLDER_VID_RANGE = 9,           /* the VID is outside 1 to 4,094 */
    BUNNYSOLDER_BOUND_ALREADY = 10,      /* the stream is bound already */
    BUNNYSOLDER_PAIR_BOUND_ALREADY = 11, /* the pair of address and VID is bound already */
    BUNNYSOLDER_NOT_RESERVED = 12,       /* the stream is not reserved */
    BUNNYSOLDER_CHARGE_RANGE = 13,       /* the charge is outside 84 to 2,020 */
    BUNNYSOLDER_DISCARD = 14,            /* the frame fits neither at its stream's place nor at a later one */
    BUNNYSOLDER_BEST_EFFORT_FULL = 15,   /* 256 best-effort frames are waiting */
    BUNNYSOLDER_LIMIT_EXCEEDED = 16,     /* W, with the charge in it, would be above K x (L - R) */
    BUNNYSOLDER_FRAME_LENGTH = 17,       /* the frame is shorter than BUNNYSOLDER_SHORTEST_FRAME or longer than BUNNYSOLDER_LONGEST_FRAME */
    BUNNYSOLDER_SHORT_MEMORY = 18,       /* the memory is shorter than BUNNYSOLDER_MEMORY_LENGTH */
    BUNNYSOLDER_UNFIT_RECORD = 19,       /* the record is unfit, or the port shorter than BUNNYSOLDER_PORT_LENGTH */
    BUNNYSOLDER_QUEUE_FULL = 20,         /* the chosen queue holds 256 frames; never met from a granted Open on, while nobody else writes */
    BUNNYSOLDER_DRAINING = 25,           /* the stream was withdrawn, and drains */
    BUNNYSOLDER_OFFSET_RANGE = 26        /* the offset is no multiple of 4, or above 60 */
};

/* The first reply number of Arrive, also where a Frame becomes one: the queue that the frame has joined. */
enum bunnysolder_place { BUNNYSOLDER_CURRENT = 1, BUNNYSOLDER_NEXT = 2, BUNNYSOLDER_LAST = 3 };

/* The first reply number of Transmit where no reserved stream's frame is sent; 255 is also that of a Lookup which finds no stream. */
enum bunnysolder_sent { BUNNYSOLDER_NOTHING = 254, BUNNYSOLDER_BEST_EFFORT = 255 };

/*
 * The registers of a port by their offsets in 64 octets: each is a number of 32 bits, whose high octet is the one at its offset. All others of the 64
 * octets read zero. Flags, mask, choice and counts are 0 after a granted Open. Flags and counts follow every call on the port, whichever function makes
 * it; of the refusals BUNNYSOLDER_DISCARD alone sets a flag or a count. A count goes on to 0 after 4,294,967,295. Accepted and discarded frames are
 * counted for each stream by itself, from its latest granted Withdraw or the granted Open on, whichever came later; the registers at 16 and 20 show
 * the counts of the stream whose number stands at 28, and bunnysolder_stream_counts tells those of any stream.
 */
enum bunnysolder_register {
    BUNNYSOLDER_REGISTER_CONTROL = 0,    /* a write ticks and transmits (enum bunnysolder_control); reads zero */
    BUNNYSOLDER_REGISTER_STATUS = 4,     /* whether the port is open and the interrupt line is up (enum bunnysolder_status) */
    BUNNYSOLDER_REGISTER_FLAGS = 8,      /* what has happened (enum bunnysolder_flag); writing a one to a flag clears it */
    BUNNYSOLDER_REGISTER_MASK = 12,      /* the interrupt mask, kept as written; the interrupt line is up exactly when flags and mask share a one */
    BUNNYSOLDER_REGISTER_ACCEPTED = 16,  /* how many frames of the chosen stream were accepted: those of Arrive and of each Frame that became one */
    BUNNYSOLDER_REGISTER_DISCARDED = 20, /* how many frames of the chosen stream were discarded (14) */
    BUNNYSOLDER_REGISTER_SENT = 24,      /* how many frames Transmit has replied: those of all streams and of best effort */
    BUNNYSOLDER_REGISTER_CHOICE = 28     /* the chosen stream, kept as written; with a number above 63 here 16 and 20 both read zero */
};

/* The bits of the control register; the tick comes first. A one in another bit does nothing. */
enum bunnysolder_control { BUNNYSOLDER_CONTROL_TICK = 1, BUNNYSOLDER_CONTROL_TRANSMIT = 2 };

/* The bits of the status register. */
enum bunnysolder_status { BUNNYSOLDER_STATUS_OPEN = 1, BUNNYSOLDER_STATUS_INTERRUPT = 2 };

/* The bits of the flags: a frame was discarded (14), a tick purged at least one frame, a Transmit had nothing to send. */
enum bunnysolder_flag { BUNNYSOLDER_FLAG_DISCARD = 1, BUNNYSOLDER_FLAG_PURGE = 2, BUNNYSOLDER_FLAG_NOTHING = 4 };

/*
 * Open(L, K): empties the queues, drops all reservations and bindings, ends all draining, and makes the register block zeros. `link` is L, the link
 * octets in an epoch; `delay` is K, the best-effort delay bound in epochs. Replies the share, L - 2,020, and 0. Refusals: 18 19 2 3 4.
 */
uint8_t bunnysolder_open(uint8_t *port, size_t port_length, const uint8_t *memory, size_t memory_length,
                         uint32_t link, uint32_t delay, uint32_t *first, uint32_t *second);
uint8_t bunnysolder_open_unscanned(uint8_t *port, size_t port_length, const uint8_t *memory, size_t memory_length,
                                   uint32_t link, uint32_t delay, uint32_t *first, uint32_t *second);

/*
 * Reserve(s, P): `permitted` is P, the stream's permitted octets per epoch. Replies the share still free, with the new P taken from it, and 0.
 * Refusals: 18 19 1 5 25 6 7 8.
 */
uint8_t bunnysolder_reserve(uint8_t *port, size_t port_length, const uint8_t *memory, size_t memory_length,
                            uint8_t stream, uint32_t permitted, uint32_t *first, uint32_t *second);
uint8_t bunnysolder_reserve_unscanned(uint8_t *port, size_t port_length, const uint8_t *memory, size_t memory_length,
                                      uint8_t stream, uint32_t permitted, uint32_t *first, uint32_t *second);

/*
 * Arrive(s, a, tag): a frame arrives on the stream. `charge` is a, the octets that it costs on the wire: its length without check sequence plus
 * 24. `tag` is the host's own number for it. Replies the queue that the frame has joined (enum bunnysolder_place) and the octets left to
 * the stream at its place afterwards. A grant raises the stream's count of accepted frames, 14 its count of discards, and no other stream's.
 * Refusals: 18 19 1 5 25 12 13, then 14 or 20. Of all calls this one, Best effort and Frame alone write the memory.
 */
uint8_t bunnysolder_arrive(uint8_t *port, size_t port_length, uint8_t *memory, size_t memory_length,
                           uint8_t stream, uint32_t charge, uint32_t tag, uint32_t *first, uint32_t *second);
uint8_t bunnysolder_arrive_unscanned(uint8_t *port, size_t port_length, uint8_t *memory, size_t memory_length,
                                     uint8_t stream, uint32_t charge, uint32_t tag, uint32_t *first, uint32_t *second);

/*
 * Tick: an epoch ends. Replies how many frames were purged, and their octets. Frees each stream whose draining ends with it. It raises no count and
 * makes none zero. Refusals: 18 19 1.
 */
uint8_t bunnysolder_tick(uint8_t *port, size_t port_length, const uint8_t *memory, size_t memory_length,
                         uint32_t *first, uint32_t *second);
uint8_t bunnysolder_tick_unscanned(uint8_t *port, size_t port_length, const uint8_t *memory, size_t memory_length,
                                   uint32_t *first, uint32_t *second);

/*
 * Transmit: the link can send a frame. Replies the stream of the frame to send (enum bunnysolder_sent: 255 best effort, 254 nothing) and its
 * tag (0 for nothing). Refusals: 18 19 1.
 */
uint8_t bunnysolder_transmit(uint8_t *port, size_t port_length, const uint8_t *memory, size_t memory_length,
                             uint32_t *first, uint32_t *second);
uint8_t bunnysolder_transmit_unscanned(uint8_t *port, size_t port_length, const uint8_t *memory, size_t memory_length,
                                       uint32_t *first, uint32_t *second);

/*
 * Best effort(a, tag): a frame of no stream arrives. `charge` is a and `tag` the host's own number for it, as in Arrive. It waits until neither
 * prior nor current has a frame. Replies W, the sum of the charges that wait in best effort, with this one in it, and 0. R is the sum of the
 * reserved streams' P, those that drain among them; a later Reserve may leave W above K x (L - R), and that is no fault. No register counts the frame
 * before it is sent. Refusals: 18 19 1 13 15 16.
 */
uint8_t bunnysolder_best_effort(uint8_t *port, size_t port_length, uint8_t *memory, size_t memory_length,
                                uint32_t charge, uint32_t tag, uint32_t *first, uint32_t *second);
uint8_t bunnysolder_best_effort_unscanned(uint8_t *port, size_t port_length, uint8_t *memory, size_t memory_length,
                                          uint32_t charge, uint32_t tag, uint32_t *first, uint32_t *second);

/*
 * Bind(s, address, VID): gives a reserved stream a destination address and a VLAN id, so that a Frame that has both arrives on it. No two streams
 * are bound to one pair; a binding stands until the tick that frees its stream, or the next granted Open. Replies two zeros.
 * Refusals: 18 19 1 5 25 12 9 10 11.
 */
uint8_t bunnysolder_bind(uint8_t *port, size_t port_length, const uint8_t *memory, size_t memory_length,
                         uint8_t stream, const uint8_t address[BUNNYSOLDER_ADDRESS_LENGTH], uint32_t vid, uint32_t *first, uint32_t *second);
uint8_t bunnysolder_bind_unscanned(uint8_t *port, size_t port_length, const uint8_t *memory, size_t memory_length,
                                   uint8_t stream, const uint8_t address[BUNNYSOLDER_ADDRESS_LENGTH], uint32_t vid,
                                   uint32_t *first, uint32_t *second);

/*
 * Frame(octets, tag): a frame arrives, given by its octets from the destination on, without check sequence. `tag` is the host's own number for it.
 * Octets 0 to 5 are the destination; where octets 12 and 13 are 81 00 (hexadecimal), the VID is the low 12 bits of octets 14 and 15, high octet
 * first. A frame whose destination and VID are bound is an Arrive on their stream, every other a Best effort, each with its length plus 24 as its
 * charge, and replies and is counted as that call. A length under BUNNYSOLDER_SHORTEST_FRAME or above BUNNYSOLDER_LONGEST_FRAME is refused (17), 0
 * among them; `octets` is not null even then. Nothing is kept of the octets. Refusals: 18 19 1 17, then of an Arrive 25, then 14 or 20, of a Best
 * effort 15 16.
 */
uint8_t bunnysolder_frame(uint8_t *port, size_t port_length, uint8_t *memory, size_t memory_length,
                          const uint8_t *octets, size_t octets_length, uint32_t tag, uint32_t *first, uint32_t *second);
uint8_t bunnysolder_frame_unscanned(uint8_t *port, size_t port_length, uint8_t *memory, size_t memory_length,
                                    const uint8_t *octets, size_t octets_length, uint32_t tag, uint32_t *first, uint32_t *second);

/*
 * Withdraw(s): takes a reserved stream off the line. Its frames that wait stay in their queues and are sent as before; it takes no more. It drains for
 * as many ticks as the port has queues for reserved traffic, which are four. Meanwhile each Reserve, Arrive, Bind and Withdraw of it is refused with
 * 25, and so is a Frame that becomes an Arrive on it; its P still counts in R and has its part of the share, and its binding stands against others
 * (11). The last of these ticks frees it: its number may be reserved again, its part of the share is free, and its binding is gone. Both its counts
 * are 0 as soon as the withdrawal is granted. Replies two zeros. Refusals: 18 19 1 5 25 12.
 */
uint8_t bunnysolder_withdraw(uint8_t *port, size_t port_length, const uint8_t *memory, size_t memory_length,
                             uint8_t stream, uint32_t *first, uint32_t *second);
uint8_t bunnysolder_withdraw_unscanned(uint8_t *port, size_t port_length, const uint8_t *memory, size_t memory_length,
                                       uint8_t stream, uint32_t *first, uint32_t *second);

/*
 * Register read(offset): replies the register at the offset (enum bunnysolder_register) and 0, on a closed port as on an open one. It writes
 * neither port nor memory. Refusals: 26 18 19.
 */
uint8_t bunnysolder_register_read(const uint8_t *port, size_t port_length, const uint8_t *memory, size_t memory_length,
                                  uint32_t offset, uint32_t *first, uint32_t *second);
uint8_t bunnysolder_register_read_unscanned(const uint8_t *port, size_t port_length, const uint8_t *memory, size_t memory_length,
                                            uint32_t offset, uint32_t *first, uint32_t *second);

/*
 * Register write(offset, value): a write to control is a Tick where the value has BUNNYSOLDER_CONTROL_TICK, then a Transmit where it has
 * BUNNYSOLDER_CONTROL_TRANSMIT, and replies as the last of these calls; with both bits that is the Transmit, and the flags show whether the Tick
 * purged. A write to the flags clears those that are one in the value and leaves the others; one to the mask or the choice is kept. A write to any
 * other offset does nothing. All these writes, and one to control with neither bit, reply two zeros. Refusals: 26 18 19, and then 1 only for a write
 * to control with one of the two bits: the flags, the mask and the choice of a closed port may be written.
 */
uint8_t bunnysolder_register_write(uint8_t *port, size_t port_length, const uint8_t *memory, size_t memory_length,
                                   uint32_t offset, uint32_t value, uint32_t *first, uint32_t *second);
uint8_t bunnysolder_register_write_unscanned(uint8_t *port, size_t port_length, const uint8_t *memory, size_t memory_length,
                                             uint32_t offset, uint32_t value, uint32_t *first, uint32_t *second);

/*
 * Lookup(address, VID): finds the stream of a pair as Bind (11) and a Frame with a VLAN tag do, for those who measure what that costs. It goes
 * through the bindings by rising stream up to the one that matches, those of draining streams among them; it compares the VID and, only where that is
 * equal, the address from its last octet back, up to the first octet that differs. Replies the stream, or BUNNYSOLDER_BEST_EFFORT where none is bound
 * to the pair, as a Frame of it is a Best effort then; and how many address octets were compared: the sum over all bindings gone through, the octets
 * that differ among them, 0 to 384. It writes no port, so no register changes. It takes a closed port, and every VID; one that no binding has finds
 * no stream. Refusals: 19, of a port shorter than BUNNYSOLDER_PORT_LENGTH alone.
 */
uint8_t bunnysolder_lookup(const uint8_t *port, size_t port_length, const uint8_t address[BUNNYSOLDER_ADDRESS_LENGTH], uint32_t vid,
                           uint32_t *first, uint32_t *second);

/*
 * Stream counts(s): tells which machine is talking too much, for support. Replies the stream's counts of accepted and of discarded frames, those that
 * the registers at 16 and 20 show where the stream is the chosen one. It goes by no choice and writes no port, so all streams can be read one after
 * the other and the controller's choice stays. It takes a closed port, and a stream that is not reserved. Refusals: 19, of a port shorter than
 * BUNNYSOLDER_PORT_LENGTH alone, then 5.
 */
uint8_t bunnysolder_stream_counts(const uint8_t *port, size_t port_length, uint8_t stream, uint32_t *first, uint32_t *second);

#ifdef __cplusplus
}
#endif

#endif
