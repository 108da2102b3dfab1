/*
 * Every function that bunnysolder.h declares, called through it: both sorts of call play document 01's sample, by charges and by frames, and a
 * withdrawal, the longest frames, the registers, the lookups and the counts of streams of document 02, and must reply what the documents say. The
 * last line is the total.
 */
#include <stdio.h>
#include <string.h>

#include "bunnysolder.h"

/* One sort of call. Both sorts have the same types, or this does not compile. */
struct sort {
    const char *name;
    uint8_t (*open)(uint8_t *, size_t, const uint8_t *, size_t, uint32_t, uint32_t, uint32_t *, uint32_t *);
    uint8_t (*reserve)(uint8_t *, size_t, const uint8_t *, size_t, uint8_t, uint32_t, uint32_t *, uint32_t *);
    uint8_t (*arrive)(uint8_t *, size_t, uint8_t *, size_t, uint8_t, uint32_t, uint32_t, uint32_t *, uint32_t *);
    uint8_t (*tick)(uint8_t *, size_t, const uint8_t *, size_t, uint32_t *, uint32_t *);
    uint8_t (*transmit)(uint8_t *, size_t, const uint8_t *, size_t, uint32_t *, uint32_t *);
    uint8_t (*best_effort)(uint8_t *, size_t, uint8_t *, size_t, uint32_t, uint32_t, uint32_t *, uint32_t *);
    uint8_t (*bind)(uint8_t *, size_t, const uint8_t *, size_t, uint8_t, const uint8_t *, uint32_t, uint32_t *, uint32_t *);
    uint8_t (*frame)(uint8_t *, size_t, uint8_t *, size_t, const uint8_t *, size_t, uint32_t, uint32_t *, uint32_t *);
    uint8_t (*withdraw)(uint8_t *, size_t, const uint8_t *, size_t, uint8_t, uint32_t *, uint32_t *);
    uint8_t (*register_read)(const uint8_t *, size_t, const uint8_t *, size_t, uint32_t, uint32_t *, uint32_t *);
    uint8_t (*register_write)(uint8_t *, size_t, const uint8_t *, size_t, uint32_t, uint32_t, uint32_t *, uint32_t *);
};

static const struct sort sorts[] = {
    { "the calls", bunnysolder_open, bunnysolder_reserve, bunnysolder_arrive, bunnysolder_tick, bunnysolder_transmit,
      bunnysolder_best_effort, bunnysolder_bind, bunnysolder_frame, bunnysolder_withdraw, bunnysolder_register_read, bunnysolder_register_write },
    { "the unscanned calls", bunnysolder_open_unscanned, bunnysolder_reserve_unscanned, bunnysolder_arrive_unscanned,
      bunnysolder_tick_unscanned, bunnysolder_transmit_unscanned, bunnysolder_best_effort_unscanned, bunnysolder_bind_unscanned,
      bunnysolder_frame_unscanned, bunnysolder_withdraw_unscanned, bunnysolder_register_read_unscanned, bunnysolder_register_write_unscanned },
};

/* What the two reply numbers hold before a call. */
#define UNWRITTEN 0xA5A55A5Au

static uint8_t port[BUNNYSOLDER_PORT_LENGTH];
static uint8_t memory[BUNNYSOLDER_MEMORY_LENGTH];
static uint32_t first, second;
static int wrong;

/* Holds a reply against what it is to be, and makes the two numbers ready to show whether the next call writes them. */
static void replies(const char *call, uint8_t refusal, uint8_t number, uint32_t one, uint32_t two)
{
    if (refusal != number || first != one || second != two) {
        printf("  %s replies %u %u %u, not %u %u %u\n", call, refusal, first, second, number, one, two);
        wrong++;
    }
    first = second = UNWRITTEN;
}

/* Makes the port one that was never opened, and the two numbers ready to show whether the first call writes them. */
static void never_opened(void)
{
    memset(port, 0, sizeof port);
    memset(memory, 0, sizeof memory);
    first = second = UNWRITTEN;
}

/* Document 01's sample with a refusal of each call in between, then its case C12, on a port never opened. */
static void sample(const struct sort *s)
{
    const size_t p = sizeof port, m = sizeof memory;

    never_opened();
    replies("transmit", s->transmit(port, p, memory, m, &first, &second), BUNNYSOLDER_CLOSED, 0, 0);
    replies("open", s->open(port, p, memory, m, 23525, 1, &first, &second), BUNNYSOLDER_LINK_RANGE, 0, 0);
    replies("open", s->open(port, p, memory, m, 2620, 1, &first, &second), BUNNYSOLDER_GRANTED, 600, 0);
    replies("reserve", s->reserve(port, p, memory, m, 5, 200, &first, &second), BUNNYSOLDER_GRANTED, 400, 0);
    replies("reserve", s->reserve(port, p, memory, m, 6, 401, &first, &second), BUNNYSOLDER_SHARE_EXCEEDED, 0, 0);
    replies("arrive", s->arrive(port, p, memory, m, 5, 120, 7, &first, &second), BUNNYSOLDER_GRANTED, BUNNYSOLDER_CURRENT, 80);
    replies("arrive", s->arrive(port, p, memory, m, 5, 100, 8, &first, &second), BUNNYSOLDER_GRANTED, BUNNYSOLDER_NEXT, 100);
    replies("transmit", s->transmit(port, p, memory, m, &first, &second), BUNNYSOLDER_GRANTED, 5, 7);
    replies("transmit", s->transmit(port, p, memory, m, &first, &second), BUNNYSOLDER_GRANTED, BUNNYSOLDER_NOTHING, 0);
    replies("tick", s->tick(port, p, memory, m, &first, &second), BUNNYSOLDER_GRANTED, 0, 0);
    replies("transmit", s->transmit(port, p, memory, m, &first, &second), BUNNYSOLDER_GRANTED, 5, 8);
    replies("arrive", s->arrive(port, p, memory, m, 5, 201, 9, &first, &second), BUNNYSOLDER_DISCARD, 0, 0);
    replies("best effort", s->best_effort(port, p, memory, m, 2020, 10, &first, &second), BUNNYSOLDER_GRANTED, 2020, 0);
    replies("best effort", s->best_effort(port, p, memory, m, 400, 11, &first, &second), BUNNYSOLDER_GRANTED, 2420, 0);
    replies("best effort", s->best_effort(port, p, memory, m, 84, 12, &first, &second), BUNNYSOLDER_LIMIT_EXCEEDED, 0, 0);
    replies("transmit", s->transmit(port, p, memory, m, &first, &second), BUNNYSOLDER_GRANTED, BUNNYSOLDER_BEST_EFFORT, 10);
    replies("tick", s->tick(port, p, memory, m - 1, &first, &second), BUNNYSOLDER_SHORT_MEMORY, 0, 0);
    replies("tick", s->tick(port, p - 1, memory, m, &first, &second), BUNNYSOLDER_UNFIT_RECORD, 0, 0);
}

/* An address to bind to, and room for frames to it, one octet more than the longest has. */
static const uint8_t address[BUNNYSOLDER_ADDRESS_LENGTH] = { 0x02, 0x00, 0x5E, 0x10, 0x20, 0x30 };
static uint8_t frame[BUNNYSOLDER_LONGEST_FRAME + 1];

/* Makes the frame one to the address with VLAN tag, and with priority 7 and a VID in it. */
static void tag_frame(uint8_t vid)
{
    const uint8_t vlan_tag[] = { 0x81, 0x00, 0xE0, vid };

    memcpy(frame, address, sizeof address);
    memcpy(frame + 12, vlan_tag, sizeof vlan_tag);
}

/* The same sample with Frames in the place of its Arrives, each 24 octets shorter than its charge, and a refusal of Bind and Frame in between. */
static void sample_by_frames(const struct sort *s)
{
    const size_t p = sizeof port, m = sizeof memory;

    never_opened();
    tag_frame(100);
    replies("open", s->open(port, p, memory, m, 2620, 1, &first, &second), BUNNYSOLDER_GRANTED, 600, 0);
    replies("reserve", s->reserve(port, p, memory, m, 5, 200, &first, &second), BUNNYSOLDER_GRANTED, 400, 0);
    replies("reserve", s->reserve(port, p, memory, m, 6, 200, &first, &second), BUNNYSOLDER_GRANTED, 200, 0);
    replies("bind", s->bind(port, p, memory, m, 5, address, 4095, &first, &second), BUNNYSOLDER_VID_RANGE, 0, 0);
    replies("bind", s->bind(port, p, memory, m, 5, address, 100, &first, &second), BUNNYSOLDER_GRANTED, 0, 0);
    replies("bind", s->bind(port, p, memory, m, 5, address, 101, &first, &second), BUNNYSOLDER_BOUND_ALREADY, 0, 0);
    replies("bind", s->bind(port, p, memory, m, 6, address, 100, &first, &second), BUNNYSOLDER_PAIR_BOUND_ALREADY, 0, 0);
    replies("frame", s->frame(port, p, memory, m, frame, 96, 7, &first, &second), BUNNYSOLDER_GRANTED, BUNNYSOLDER_CURRENT, 80);
    replies("frame", s->frame(port, p, memory, m, frame, 76, 8, &first, &second), BUNNYSOLDER_GRANTED, BUNNYSOLDER_NEXT, 100);
    replies("transmit", s->transmit(port, p, memory, m, &first, &second), BUNNYSOLDER_GRANTED, 5, 7);
    replies("transmit", s->transmit(port, p, memory, m, &first, &second), BUNNYSOLDER_GRANTED, BUNNYSOLDER_NOTHING, 0);
    replies("tick", s->tick(port, p, memory, m, &first, &second), BUNNYSOLDER_GRANTED, 0, 0);
    replies("transmit", s->transmit(port, p, memory, m, &first, &second), BUNNYSOLDER_GRANTED, 5, 8);
    replies("frame", s->frame(port, p, memory, m, frame, 0, 9, &first, &second), BUNNYSOLDER_FRAME_LENGTH, 0, 0);
    frame[12] = 0x08;
    replies("frame", s->frame(port, p, memory, m, frame, 1518, 10, &first, &second), BUNNYSOLDER_GRANTED, 1542, 0);
    replies("frame", s->frame(port, p, memory, m, frame, 655, 11, &first, &second), BUNNYSOLDER_LIMIT_EXCEEDED, 0, 0);
    replies("transmit", s->transmit(port, p, memory, m, &first, &second), BUNNYSOLDER_GRANTED, BUNNYSOLDER_BEST_EFFORT, 10);
}

/* A stream is withdrawn: its frame is sent, it takes no more, and its share and number are free at the fourth tick. */
static void withdrawal(const struct sort *s)
{
    const size_t p = sizeof port, m = sizeof memory;
    int tick;

    never_opened();
    replies("withdraw", s->withdraw(port, p, memory, m, 5, &first, &second), BUNNYSOLDER_CLOSED, 0, 0);
    replies("open", s->open(port, p, memory, m, 2620, 1, &first, &second), BUNNYSOLDER_GRANTED, 600, 0);
    replies("withdraw", s->withdraw(port, p, memory, m, 5, &first, &second), BUNNYSOLDER_NOT_RESERVED, 0, 0);
    replies("withdraw", s->withdraw(port, p, memory, m, 64, &first, &second), BUNNYSOLDER_STREAM_RANGE, 0, 0);
    replies("reserve", s->reserve(port, p, memory, m, 5, 200, &first, &second), BUNNYSOLDER_GRANTED, 400, 0);
    replies("arrive", s->arrive(port, p, memory, m, 5, 120, 7, &first, &second), BUNNYSOLDER_GRANTED, BUNNYSOLDER_CURRENT, 80);
    replies("withdraw", s->withdraw(port, p, memory, m, 5, &first, &second), BUNNYSOLDER_GRANTED, 0, 0);
    replies("transmit", s->transmit(port, p, memory, m, &first, &second), BUNNYSOLDER_GRANTED, 5, 7);
    for (tick = 0; tick < 4; tick++) {
        replies("withdraw", s->withdraw(port, p, memory, m, 5, &first, &second), BUNNYSOLDER_DRAINING, 0, 0);
        replies("arrive", s->arrive(port, p, memory, m, 5, 84, 8, &first, &second), BUNNYSOLDER_DRAINING, 0, 0);
        replies("reserve", s->reserve(port, p, memory, m, 6, 401, &first, &second), BUNNYSOLDER_SHARE_EXCEEDED, 0, 0);
        replies("tick", s->tick(port, p, memory, m, &first, &second), BUNNYSOLDER_GRANTED, 0, 0);
    }
    replies("withdraw", s->withdraw(port, p, memory, m, 5, &first, &second), BUNNYSOLDER_NOT_RESERVED, 0, 0);
    replies("reserve", s->reserve(port, p, memory, m, 5, 600, &first, &second), BUNNYSOLDER_GRANTED, 0, 0);
}

/*
 * Frames of 1,519 octets and of the longest length, whose charges are 1,543 and 2,020: on stream 5, whose P they fill, on stream 6, whose P is 2,019,
 * and as best effort, whose limit they fill. One octet more, or one fewer than the shortest, is refused; the reply to the next frame shows that
 * nothing changed.
 */
static void longest_frames(const struct sort *s)
{
    const size_t p = sizeof port, m = sizeof memory, longest = BUNNYSOLDER_LONGEST_FRAME, shortest = BUNNYSOLDER_SHORTEST_FRAME;

    never_opened();
    replies("open", s->open(port, p, memory, m, 9145, 1, &first, &second), BUNNYSOLDER_GRANTED, 7125, 0);
    replies("reserve", s->reserve(port, p, memory, m, 5, 3563, &first, &second), BUNNYSOLDER_GRANTED, 3562, 0);
    replies("reserve", s->reserve(port, p, memory, m, 6, 2019, &first, &second), BUNNYSOLDER_GRANTED, 1543, 0);
    replies("bind", s->bind(port, p, memory, m, 5, address, 100, &first, &second), BUNNYSOLDER_GRANTED, 0, 0);
    replies("bind", s->bind(port, p, memory, m, 6, address, 101, &first, &second), BUNNYSOLDER_GRANTED, 0, 0);
    tag_frame(100);
    replies("frame", s->frame(port, p, memory, m, frame, 1519, 7, &first, &second), BUNNYSOLDER_GRANTED, BUNNYSOLDER_CURRENT, 2020);
    replies("frame", s->frame(port, p, memory, m, frame, longest + 1, 8, &first, &second), BUNNYSOLDER_FRAME_LENGTH, 0, 0);
    replies("frame", s->frame(port, p, memory, m, frame, longest, 9, &first, &second), BUNNYSOLDER_GRANTED, BUNNYSOLDER_CURRENT, 3563);
    replies("frame", s->frame(port, p, memory, m, frame, shortest - 1, 10, &first, &second), BUNNYSOLDER_FRAME_LENGTH, 0, 0);
    replies("frame", s->frame(port, p, memory, m, frame, shortest, 11, &first, &second), BUNNYSOLDER_GRANTED, BUNNYSOLDER_NEXT, 3479);
    tag_frame(101);
    replies("frame", s->frame(port, p, memory, m, frame, 1519, 12, &first, &second), BUNNYSOLDER_GRANTED, BUNNYSOLDER_CURRENT, 476);
    replies("frame", s->frame(port, p, memory, m, frame, longest, 13, &first, &second), BUNNYSOLDER_DISCARD, 0, 0);
    replies("frame", s->frame(port, p, memory, m, frame, longest + 1, 14, &first, &second), BUNNYSOLDER_FRAME_LENGTH, 0, 0);
    frame[12] = 0x08;
    replies("frame", s->frame(port, p, memory, m, frame, 1519, 15, &first, &second), BUNNYSOLDER_GRANTED, 1543, 0);
    replies("frame", s->frame(port, p, memory, m, frame, longest + 1, 16, &first, &second), BUNNYSOLDER_FRAME_LENGTH, 0, 0);
    replies("frame", s->frame(port, p, memory, m, frame, longest, 17, &first, &second), BUNNYSOLDER_GRANTED, 3563, 0);
    replies("frame", s->frame(port, p, memory, m, frame, shortest, 18, &first, &second), BUNNYSOLDER_LIMIT_EXCEEDED, 0, 0);
}

/* A value with each of its bits one, a mask with some above the flags' bits, and the last offset that a register can have. */
#define ALL_ONES 0xFFFFFFFFu
#define WIDE_MASK 0xABCDEF12u
#define LAST_OFFSET 60

/* A register must read a value. */
static void reads(const struct sort *s, uint32_t offset, uint32_t value)
{
    replies("register read", s->register_read(port, sizeof port, memory, sizeof memory, offset, &first, &second), BUNNYSOLDER_GRANTED, value, 0);
}

/* A write to a register must be refused with a number, or with 0 reply two numbers. */
static void writes(const struct sort *s, uint32_t offset, uint32_t value, uint8_t number, uint32_t one, uint32_t two)
{
    replies("register write", s->register_write(port, sizeof port, memory, sizeof memory, offset, value, &first, &second), number, one, two);
}

/* Offsets that are no multiple of 4 or above 60 are refused, before the memory's length (18), and that before the port's (19). */
static void register_refusals(const struct sort *s)
{
    static const uint32_t outside[] = { 1, 2, 3, 5, 59, 61, 62, 63, 64, 68, 256, 65536, ALL_ONES - 3, ALL_ONES };
    const size_t p = sizeof port, m = sizeof memory;
    const uint32_t control = BUNNYSOLDER_REGISTER_CONTROL, mask = BUNNYSOLDER_REGISTER_MASK;
    size_t i;

    never_opened();
    for (i = 0; i < sizeof outside / sizeof *outside; i++) {
        replies("register read", s->register_read(port, p - 1, memory, m - 1, outside[i], &first, &second), BUNNYSOLDER_OFFSET_RANGE, 0, 0);
        replies("register write", s->register_write(port, p - 1, memory, m - 1, outside[i], 3, &first, &second), BUNNYSOLDER_OFFSET_RANGE, 0, 0);
    }
    replies("register read", s->register_read(port, p - 1, memory, m - 1, LAST_OFFSET, &first, &second), BUNNYSOLDER_SHORT_MEMORY, 0, 0);
    replies("register read", s->register_read(port, p, memory, m - 1, control, &first, &second), BUNNYSOLDER_SHORT_MEMORY, 0, 0);
    replies("register read", s->register_read(port, p - 1, memory, m, control, &first, &second), BUNNYSOLDER_UNFIT_RECORD, 0, 0);
    replies("register write", s->register_write(port, p - 1, memory, m - 1, control, 1, &first, &second), BUNNYSOLDER_SHORT_MEMORY, 0, 0);
    replies("register write", s->register_write(port, p, memory, m - 1, mask, 1, &first, &second), BUNNYSOLDER_SHORT_MEMORY, 0, 0);
    replies("register write", s->register_write(port, p - 1, memory, m, control, 1, &first, &second), BUNNYSOLDER_UNFIT_RECORD, 0, 0);
    replies("register write", s->register_write(port, p - 1, memory, m, mask, 1, &first, &second), BUNNYSOLDER_UNFIT_RECORD, 0, 0);
    reads(s, mask, 0);
}

/* A closed port refuses ticks and transmits (1), and keeps a mask and a choice; a refused Open leaves both and a granted one makes them zero. */
static void registers_of_a_closed_port(const struct sort *s)
{
    const size_t p = sizeof port, m = sizeof memory;
    uint32_t offset;

    never_opened();
    for (offset = 0; offset <= LAST_OFFSET; offset += 4)
        reads(s, offset, 0);
    writes(s, BUNNYSOLDER_REGISTER_CONTROL, BUNNYSOLDER_CONTROL_TICK, BUNNYSOLDER_CLOSED, 0, 0);
    writes(s, BUNNYSOLDER_REGISTER_CONTROL, BUNNYSOLDER_CONTROL_TRANSMIT, BUNNYSOLDER_CLOSED, 0, 0);
    writes(s, BUNNYSOLDER_REGISTER_CONTROL, ALL_ONES, BUNNYSOLDER_CLOSED, 0, 0);
    writes(s, BUNNYSOLDER_REGISTER_CONTROL, ALL_ONES - BUNNYSOLDER_CONTROL_TICK - BUNNYSOLDER_CONTROL_TRANSMIT, BUNNYSOLDER_GRANTED, 0, 0);
    writes(s, BUNNYSOLDER_REGISTER_FLAGS, ALL_ONES, BUNNYSOLDER_GRANTED, 0, 0);
    writes(s, BUNNYSOLDER_REGISTER_MASK, WIDE_MASK, BUNNYSOLDER_GRANTED, 0, 0);
    writes(s, BUNNYSOLDER_REGISTER_CHOICE, ALL_ONES, BUNNYSOLDER_GRANTED, 0, 0);
    reads(s, BUNNYSOLDER_REGISTER_MASK, WIDE_MASK);
    reads(s, BUNNYSOLDER_REGISTER_CHOICE, ALL_ONES);
    reads(s, BUNNYSOLDER_REGISTER_FLAGS, 0);
    reads(s, BUNNYSOLDER_REGISTER_STATUS, 0);
    replies("open", s->open(port, p, memory, m, 2103, 1, &first, &second), BUNNYSOLDER_LINK_RANGE, 0, 0);
    reads(s, BUNNYSOLDER_REGISTER_MASK, WIDE_MASK);
    reads(s, BUNNYSOLDER_REGISTER_CHOICE, ALL_ONES);
    replies("open", s->open(port, p, memory, m, 2620, 1, &first, &second), BUNNYSOLDER_GRANTED, 600, 0);
    reads(s, BUNNYSOLDER_REGISTER_MASK, 0);
    reads(s, BUNNYSOLDER_REGISTER_CHOICE, 0);
    reads(s, BUNNYSOLDER_REGISTER_STATUS, BUNNYSOLDER_STATUS_OPEN);
}

/* Opens the port with stream 5 on it, P 200, chooses that stream, and has a discard or a purge raise the interrupt line. */
static void open_with_mask(const struct sort *s)
{
    const size_t p = sizeof port, m = sizeof memory;

    never_opened();
    replies("open", s->open(port, p, memory, m, 2620, 1, &first, &second), BUNNYSOLDER_GRANTED, 600, 0);
    replies("reserve", s->reserve(port, p, memory, m, 5, 200, &first, &second), BUNNYSOLDER_GRANTED, 400, 0);
    writes(s, BUNNYSOLDER_REGISTER_MASK, BUNNYSOLDER_FLAG_DISCARD | BUNNYSOLDER_FLAG_PURGE, BUNNYSOLDER_GRANTED, 0, 0);
    writes(s, BUNNYSOLDER_REGISTER_CHOICE, 5, BUNNYSOLDER_GRANTED, 0, 0);
}

/*
 * A charge of 201 is over P, so it is discarded: its flag raises the line, and the line falls where the flag is cleared. A charge of 83 is no discard
 * (13). An Open that is refused (2) leaves flags, mask, choice and counts.
 */
static void discard_raises_the_line(const struct sort *s)
{
    const size_t p = sizeof port, m = sizeof memory;

    open_with_mask(s);
    replies("arrive", s->arrive(port, p, memory, m, 5, 120, 7, &first, &second), BUNNYSOLDER_GRANTED, BUNNYSOLDER_CURRENT, 80);
    replies("arrive", s->arrive(port, p, memory, m, 5, 83, 8, &first, &second), BUNNYSOLDER_CHARGE_RANGE, 0, 0);
    reads(s, BUNNYSOLDER_REGISTER_STATUS, BUNNYSOLDER_STATUS_OPEN);
    replies("arrive", s->arrive(port, p, memory, m, 5, 201, 9, &first, &second), BUNNYSOLDER_DISCARD, 0, 0);
    reads(s, BUNNYSOLDER_REGISTER_STATUS, BUNNYSOLDER_STATUS_OPEN | BUNNYSOLDER_STATUS_INTERRUPT);
    replies("open", s->open(port, p, memory, m, 2620, 1, &first, &second), BUNNYSOLDER_OPEN_ALREADY, 0, 0);
    reads(s, BUNNYSOLDER_REGISTER_FLAGS, BUNNYSOLDER_FLAG_DISCARD);
    writes(s, BUNNYSOLDER_REGISTER_FLAGS, BUNNYSOLDER_FLAG_PURGE | BUNNYSOLDER_FLAG_NOTHING, BUNNYSOLDER_GRANTED, 0, 0);
    reads(s, BUNNYSOLDER_REGISTER_FLAGS, BUNNYSOLDER_FLAG_DISCARD);
    writes(s, BUNNYSOLDER_REGISTER_FLAGS, BUNNYSOLDER_FLAG_DISCARD, BUNNYSOLDER_GRANTED, 0, 0);
    reads(s, BUNNYSOLDER_REGISTER_FLAGS, 0);
    reads(s, BUNNYSOLDER_REGISTER_STATUS, BUNNYSOLDER_STATUS_OPEN);
    reads(s, BUNNYSOLDER_REGISTER_MASK, BUNNYSOLDER_FLAG_DISCARD | BUNNYSOLDER_FLAG_PURGE);
    reads(s, BUNNYSOLDER_REGISTER_ACCEPTED, 1);
    reads(s, BUNNYSOLDER_REGISTER_DISCARDED, 1);
    reads(s, BUNNYSOLDER_REGISTER_SENT, 0);
    reads(s, BUNNYSOLDER_REGISTER_CHOICE, 5);
}

/*
 * Writes to control tick and transmit. Charges 120 and 100 join current and next, and 84 best effort, whose frames are counted where they are sent
 * alone. The first tick makes 120 prior; the second purges it and makes 100 prior, which the transmit of the same write sends; then best effort is
 * sent, and then nothing, whose flag is not in the mask.
 */
static void control_ticks_and_transmits(const struct sort *s)
{
    const size_t p = sizeof port, m = sizeof memory;

    open_with_mask(s);
    replies("arrive", s->arrive(port, p, memory, m, 5, 120, 7, &first, &second), BUNNYSOLDER_GRANTED, BUNNYSOLDER_CURRENT, 80);
    replies("arrive", s->arrive(port, p, memory, m, 5, 100, 8, &first, &second), BUNNYSOLDER_GRANTED, BUNNYSOLDER_NEXT, 100);
    replies("best effort", s->best_effort(port, p, memory, m, 84, 9, &first, &second), BUNNYSOLDER_GRANTED, 84, 0);
    writes(s, BUNNYSOLDER_REGISTER_CONTROL, BUNNYSOLDER_CONTROL_TICK, BUNNYSOLDER_GRANTED, 0, 0);
    reads(s, BUNNYSOLDER_REGISTER_FLAGS, 0);
    writes(s, BUNNYSOLDER_REGISTER_CONTROL, BUNNYSOLDER_CONTROL_TICK | BUNNYSOLDER_CONTROL_TRANSMIT, BUNNYSOLDER_GRANTED, 5, 8);
    reads(s, BUNNYSOLDER_REGISTER_FLAGS, BUNNYSOLDER_FLAG_PURGE);
    reads(s, BUNNYSOLDER_REGISTER_STATUS, BUNNYSOLDER_STATUS_OPEN | BUNNYSOLDER_STATUS_INTERRUPT);
    writes(s, BUNNYSOLDER_REGISTER_FLAGS, ALL_ONES, BUNNYSOLDER_GRANTED, 0, 0);
    writes(s, BUNNYSOLDER_REGISTER_CONTROL, BUNNYSOLDER_CONTROL_TRANSMIT, BUNNYSOLDER_GRANTED, BUNNYSOLDER_BEST_EFFORT, 9);
    writes(s, BUNNYSOLDER_REGISTER_CONTROL, BUNNYSOLDER_CONTROL_TRANSMIT, BUNNYSOLDER_GRANTED, BUNNYSOLDER_NOTHING, 0);
    reads(s, BUNNYSOLDER_REGISTER_FLAGS, BUNNYSOLDER_FLAG_NOTHING);
    reads(s, BUNNYSOLDER_REGISTER_STATUS, BUNNYSOLDER_STATUS_OPEN);
    reads(s, BUNNYSOLDER_REGISTER_CONTROL, 0);
    reads(s, BUNNYSOLDER_REGISTER_ACCEPTED, 2);
    reads(s, BUNNYSOLDER_REGISTER_DISCARDED, 0);
    reads(s, BUNNYSOLDER_REGISTER_SENT, 2);
}

/* What the registers from 16 on show after the calls below: one frame of the chosen stream accepted, one sent, and the choice. */
static uint32_t shown_at(uint32_t offset)
{
    switch (offset) {
    case BUNNYSOLDER_REGISTER_ACCEPTED:
    case BUNNYSOLDER_REGISTER_SENT:
        return 1;
    case BUNNYSOLDER_REGISTER_CHOICE:
        return 5;
    default:
        return 0;
    }
}

/* After two frames, of which one was sent, no write to an offset but those of control, flags, mask and choice changes what is read. */
static void writes_that_do_nothing(const struct sort *s)
{
    const size_t p = sizeof port, m = sizeof memory;
    uint32_t offset;

    open_with_mask(s);
    replies("arrive", s->arrive(port, p, memory, m, 5, 120, 7, &first, &second), BUNNYSOLDER_GRANTED, BUNNYSOLDER_CURRENT, 80);
    replies("best effort", s->best_effort(port, p, memory, m, 84, 8, &first, &second), BUNNYSOLDER_GRANTED, 84, 0);
    replies("transmit", s->transmit(port, p, memory, m, &first, &second), BUNNYSOLDER_GRANTED, 5, 7);
    writes(s, BUNNYSOLDER_REGISTER_STATUS, ALL_ONES, BUNNYSOLDER_GRANTED, 0, 0);
    for (offset = BUNNYSOLDER_REGISTER_ACCEPTED; offset <= LAST_OFFSET; offset += 4)
        if (offset != BUNNYSOLDER_REGISTER_CHOICE)
            writes(s, offset, ALL_ONES, BUNNYSOLDER_GRANTED, 0, 0);
    for (offset = BUNNYSOLDER_REGISTER_ACCEPTED; offset <= LAST_OFFSET; offset += 4)
        reads(s, offset, shown_at(offset));
    writes(s, BUNNYSOLDER_REGISTER_CONTROL, 0, BUNNYSOLDER_GRANTED, 0, 0);
    reads(s, BUNNYSOLDER_REGISTER_STATUS, BUNNYSOLDER_STATUS_OPEN);
    reads(s, BUNNYSOLDER_REGISTER_FLAGS, 0);
    reads(s, BUNNYSOLDER_REGISTER_MASK, BUNNYSOLDER_FLAG_DISCARD | BUNNYSOLDER_FLAG_PURGE);
}

/* The registers, each function of them with good and bad arguments. */
static void registers(const struct sort *s)
{
    register_refusals(s);
    registers_of_a_closed_port(s);
    discard_raises_the_line(s);
    control_ticks_and_transmits(s);
    writes_that_do_nothing(s);
}

/* Addresses that differ in their last octet alone, and one that differs from these in its first octet too. */
static const uint8_t ending_66[BUNNYSOLDER_ADDRESS_LENGTH] = { 0x02, 0x00, 0x5E, 0x10, 0x20, 0x66 };
static const uint8_t ending_67[BUNNYSOLDER_ADDRESS_LENGTH] = { 0x02, 0x00, 0x5E, 0x10, 0x20, 0x67 };
static const uint8_t ending_68[BUNNYSOLDER_ADDRESS_LENGTH] = { 0x02, 0x00, 0x5E, 0x10, 0x20, 0x68 };
static const uint8_t another_67[BUNNYSOLDER_ADDRESS_LENGTH] = { 0x03, 0x00, 0x5E, 0x10, 0x20, 0x67 };

/* A lookup must be refused with a number, or with 0 reply a stream and a number of address octets, and leave every octet of the port. */
static void finds(size_t port_length, const uint8_t *wanted, uint32_t vid, uint8_t number, uint32_t stream, uint32_t octets)
{
    static uint8_t before[sizeof port];

    memcpy(before, port, sizeof port);
    replies("lookup", bunnysolder_lookup(port, port_length, wanted, vid, &first, &second), number, stream, octets);
    if (memcmp(before, port, sizeof port) != 0) {
        printf("  a lookup writes the port\n");
        wrong++;
    }
}

/* A lookup on the whole port must find a stream. */
static void finds_stream(const uint8_t *wanted, uint32_t vid, uint32_t stream, uint32_t octets)
{
    finds(sizeof port, wanted, vid, BUNNYSOLDER_GRANTED, stream, octets);
}

/* A lookup on the whole port must find no stream. */
static void finds_none(const uint8_t *wanted, uint32_t vid, uint32_t octets)
{
    finds(sizeof port, wanted, vid, BUNNYSOLDER_GRANTED, BUNNYSOLDER_BEST_EFFORT, octets);
}

/* Opens the port with streams 5 and 6 on it, bound to the addresses that end 66 and 67, both with VID 100. */
static void open_with_bindings(const struct sort *s)
{
    const size_t p = sizeof port, m = sizeof memory;

    never_opened();
    replies("open", s->open(port, p, memory, m, 2620, 1, &first, &second), BUNNYSOLDER_GRANTED, 600, 0);
    replies("reserve", s->reserve(port, p, memory, m, 5, 200, &first, &second), BUNNYSOLDER_GRANTED, 400, 0);
    replies("reserve", s->reserve(port, p, memory, m, 6, 200, &first, &second), BUNNYSOLDER_GRANTED, 200, 0);
    finds_none(ending_66, 100, 0);
    replies("bind", s->bind(port, p, memory, m, 6, ending_67, 100, &first, &second), BUNNYSOLDER_GRANTED, 0, 0);
    finds_stream(ending_67, 100, 6, 6);
    replies("bind", s->bind(port, p, memory, m, 5, ending_66, 100, &first, &second), BUNNYSOLDER_GRANTED, 0, 0);
}

/* Looking for the second binding takes 7 octets, of which the first is the last octet of the first binding; a VID that neither has takes none. */
static void lookups_of_bindings(const struct sort *s)
{
    static const uint32_t others[] = { 0, 1, 99, 101, 4095, 65535, 256 + 100, 4096 + 100, 65536 + 100, ALL_ONES };
    size_t i;

    open_with_bindings(s);
    finds_stream(ending_67, 100, 6, 7);
    finds_stream(ending_66, 100, 5, 6);
    finds_none(ending_68, 100, 2);
    finds_none(another_67, 100, 7);
    for (i = 0; i < sizeof others / sizeof *others; i++)
        finds_none(ending_67, others[i], 0);
}

/* A withdrawn stream's binding is found until the fourth tick, and is not gone through from then on. */
static void lookups_while_draining(const struct sort *s)
{
    const size_t p = sizeof port, m = sizeof memory;
    int tick;

    open_with_bindings(s);
    replies("withdraw", s->withdraw(port, p, memory, m, 5, &first, &second), BUNNYSOLDER_GRANTED, 0, 0);
    for (tick = 0; tick < 4; tick++) {
        finds_stream(ending_66, 100, 5, 6);
        finds_stream(ending_67, 100, 6, 7);
        replies("tick", s->tick(port, p, memory, m, &first, &second), BUNNYSOLDER_GRANTED, 0, 0);
    }
    finds_none(ending_66, 100, 1);
    finds_stream(ending_67, 100, 6, 6);
}

/* A port that is too short is refused (19), and no other: a closed one has no binding, and one of ones is unfit and has 64 equal bindings. */
static void lookups_of_any_port(const struct sort *s)
{
    static const uint8_t ones[BUNNYSOLDER_ADDRESS_LENGTH] = { 1, 1, 1, 1, 1, 1 }, first_differs[BUNNYSOLDER_ADDRESS_LENGTH] = { 2, 1, 1, 1, 1, 1 };
    const size_t p = sizeof port;

    open_with_bindings(s);
    finds(p - 1, ending_67, 100, BUNNYSOLDER_UNFIT_RECORD, 0, 0);
    finds(0, ending_67, 0, BUNNYSOLDER_UNFIT_RECORD, 0, 0);
    never_opened();
    finds(p - 1, ending_67, 100, BUNNYSOLDER_UNFIT_RECORD, 0, 0);
    finds_none(ending_67, 100, 0);
    finds_none(ending_67, 0, 0);
    memset(port, 1, sizeof port);
    finds_stream(ones, 0x0101, 0, 6);
    finds_none(first_differs, 0x0101, 384);
    finds_none(ones, 1, 0);
}

/* The lookups, on ports that each sort of call has made. */
static void lookups(const struct sort *s)
{
    lookups_of_bindings(s);
    lookups_while_draining(s);
    lookups_of_any_port(s);
}

/* The first and the last stream, and the first number that is none. */
#define FIRST_STREAM 0
#define LAST_STREAM (BUNNYSOLDER_STREAMS - 1)
#define NO_STREAM BUNNYSOLDER_STREAMS

/* Stream counts must be refused with a number, or with 0 reply two counts, and leave every octet of the port. */
static void counts(size_t port_length, uint8_t stream, uint8_t number, uint32_t accepted, uint32_t discarded)
{
    static uint8_t before[sizeof port];

    memcpy(before, port, sizeof port);
    replies("stream counts", bunnysolder_stream_counts(port, port_length, stream, &first, &second), number, accepted, discarded);
    if (memcmp(before, port, sizeof port) != 0) {
        printf("  stream counts writes the port\n");
        wrong++;
    }
}

/* The counts of a stream must be these: those of the whole port, and what the registers at 16 and 20 read where the stream is chosen. */
static void stream_has(const struct sort *s, uint8_t stream, uint32_t accepted, uint32_t discarded)
{
    counts(sizeof port, stream, BUNNYSOLDER_GRANTED, accepted, discarded);
    writes(s, BUNNYSOLDER_REGISTER_CHOICE, stream, BUNNYSOLDER_GRANTED, 0, 0);
    reads(s, BUNNYSOLDER_REGISTER_ACCEPTED, accepted);
    reads(s, BUNNYSOLDER_REGISTER_DISCARDED, discarded);
}

/* Opens the port with the first and the last stream on it, P 200 each, the last one bound to the address and VID 100. Stream 1 is not reserved. */
static void open_with_both_ends(const struct sort *s)
{
    const size_t p = sizeof port, m = sizeof memory;

    never_opened();
    replies("open", s->open(port, p, memory, m, 2620, 1, &first, &second), BUNNYSOLDER_GRANTED, 600, 0);
    replies("reserve", s->reserve(port, p, memory, m, FIRST_STREAM, 200, &first, &second), BUNNYSOLDER_GRANTED, 400, 0);
    replies("reserve", s->reserve(port, p, memory, m, LAST_STREAM, 200, &first, &second), BUNNYSOLDER_GRANTED, 200, 0);
    replies("bind", s->bind(port, p, memory, m, LAST_STREAM, address, 100, &first, &second), BUNNYSOLDER_GRANTED, 0, 0);
    tag_frame(100);
}

/*
 * Each stream's frames are counted by themselves, those that come as Frames too. The first stream has one frame accepted. Of the last one, 120 and
 * the shortest frame, whose charge is 84, are accepted, and 201 and then any other are discarded. A best-effort frame is counted nowhere, and so is
 * an arrival that is refused with another number (13, 12).
 */
static void counts_of_each_stream(const struct sort *s)
{
    const size_t p = sizeof port, m = sizeof memory, shortest = BUNNYSOLDER_SHORTEST_FRAME;

    open_with_both_ends(s);
    stream_has(s, FIRST_STREAM, 0, 0);
    stream_has(s, LAST_STREAM, 0, 0);
    replies("arrive", s->arrive(port, p, memory, m, FIRST_STREAM, 84, 1, &first, &second), BUNNYSOLDER_GRANTED, BUNNYSOLDER_CURRENT, 116);
    replies("arrive", s->arrive(port, p, memory, m, LAST_STREAM, 120, 2, &first, &second), BUNNYSOLDER_GRANTED, BUNNYSOLDER_CURRENT, 80);
    replies("frame", s->frame(port, p, memory, m, frame, shortest, 3, &first, &second), BUNNYSOLDER_GRANTED, BUNNYSOLDER_NEXT, 116);
    stream_has(s, LAST_STREAM, 2, 0);
    replies("arrive", s->arrive(port, p, memory, m, LAST_STREAM, 201, 4, &first, &second), BUNNYSOLDER_DISCARD, 0, 0);
    replies("frame", s->frame(port, p, memory, m, frame, shortest, 5, &first, &second), BUNNYSOLDER_DISCARD, 0, 0);
    replies("arrive", s->arrive(port, p, memory, m, LAST_STREAM, 83, 6, &first, &second), BUNNYSOLDER_CHARGE_RANGE, 0, 0);
    replies("arrive", s->arrive(port, p, memory, m, 1, 84, 7, &first, &second), BUNNYSOLDER_NOT_RESERVED, 0, 0);
    replies("best effort", s->best_effort(port, p, memory, m, 84, 8, &first, &second), BUNNYSOLDER_GRANTED, 84, 0);
    frame[12] = 0x08;
    replies("frame", s->frame(port, p, memory, m, frame, shortest, 9, &first, &second), BUNNYSOLDER_GRANTED, 168, 0);
    stream_has(s, FIRST_STREAM, 1, 0);
    stream_has(s, 1, 0, 0);
    stream_has(s, LAST_STREAM, 2, 2);
}

/* A choice is kept as written. The last stream's shows its counts, and every number above it shows zeros, also one whose low octet is that stream. */
static void choices(const struct sort *s)
{
    static const uint32_t above[] = { NO_STREAM, 255, 256 + LAST_STREAM, 65536 + LAST_STREAM, ALL_ONES - BUNNYSOLDER_STREAMS, ALL_ONES };
    const size_t p = sizeof port, m = sizeof memory;
    size_t i;

    open_with_both_ends(s);
    reads(s, BUNNYSOLDER_REGISTER_CHOICE, 0);
    replies("arrive", s->arrive(port, p, memory, m, LAST_STREAM, 120, 1, &first, &second), BUNNYSOLDER_GRANTED, BUNNYSOLDER_CURRENT, 80);
    replies("arrive", s->arrive(port, p, memory, m, LAST_STREAM, 201, 2, &first, &second), BUNNYSOLDER_DISCARD, 0, 0);
    for (i = 0; i < sizeof above / sizeof *above; i++) {
        stream_has(s, LAST_STREAM, 1, 1);
        writes(s, BUNNYSOLDER_REGISTER_CHOICE, above[i], BUNNYSOLDER_GRANTED, 0, 0);
        reads(s, BUNNYSOLDER_REGISTER_CHOICE, above[i]);
        reads(s, BUNNYSOLDER_REGISTER_ACCEPTED, 0);
        reads(s, BUNNYSOLDER_REGISTER_DISCARDED, 0);
        counts(p, LAST_STREAM, BUNNYSOLDER_GRANTED, 1, 1);
        reads(s, BUNNYSOLDER_REGISTER_CHOICE, above[i]);
    }
}

/* A refused withdrawal leaves the counts. A granted one makes both of its stream 0 at once, and no other's; granted again, it counts from 0. */
static void counts_of_a_withdrawn_stream(const struct sort *s)
{
    const size_t p = sizeof port, m = sizeof memory;
    int tick;

    open_with_both_ends(s);
    replies("arrive", s->arrive(port, p, memory, m, FIRST_STREAM, 84, 1, &first, &second), BUNNYSOLDER_GRANTED, BUNNYSOLDER_CURRENT, 116);
    replies("arrive", s->arrive(port, p, memory, m, LAST_STREAM, 120, 2, &first, &second), BUNNYSOLDER_GRANTED, BUNNYSOLDER_CURRENT, 80);
    replies("arrive", s->arrive(port, p, memory, m, LAST_STREAM, 201, 3, &first, &second), BUNNYSOLDER_DISCARD, 0, 0);
    replies("withdraw", s->withdraw(port, p, memory, m, NO_STREAM, &first, &second), BUNNYSOLDER_STREAM_RANGE, 0, 0);
    stream_has(s, LAST_STREAM, 1, 1);
    replies("withdraw", s->withdraw(port, p, memory, m, LAST_STREAM, &first, &second), BUNNYSOLDER_GRANTED, 0, 0);
    stream_has(s, LAST_STREAM, 0, 0);
    stream_has(s, FIRST_STREAM, 1, 0);
    replies("transmit", s->transmit(port, p, memory, m, &first, &second), BUNNYSOLDER_GRANTED, FIRST_STREAM, 1);
    replies("transmit", s->transmit(port, p, memory, m, &first, &second), BUNNYSOLDER_GRANTED, LAST_STREAM, 2);
    for (tick = 0; tick < 4; tick++) {
        replies("arrive", s->arrive(port, p, memory, m, LAST_STREAM, 84, 4, &first, &second), BUNNYSOLDER_DRAINING, 0, 0);
        replies("tick", s->tick(port, p, memory, m, &first, &second), BUNNYSOLDER_GRANTED, 0, 0);
    }
    replies("reserve", s->reserve(port, p, memory, m, LAST_STREAM, 200, &first, &second), BUNNYSOLDER_GRANTED, 200, 0);
    replies("arrive", s->arrive(port, p, memory, m, LAST_STREAM, 84, 5, &first, &second), BUNNYSOLDER_GRANTED, BUNNYSOLDER_CURRENT, 116);
    stream_has(s, LAST_STREAM, 1, 0);
    stream_has(s, FIRST_STREAM, 1, 0);
}

/*
 * A port that is too short is refused (19) before a stream above the last (5), and nothing else is: a closed port has counts, of any content, and so
 * has a port of ones, which is unfit. A granted Open makes all counts zero; the last octet of a port is the lowest of the last stream's discards.
 */
static void counts_of_any_port(const struct sort *s)
{
    const size_t p = sizeof port, m = sizeof memory;
    unsigned stream;

    never_opened();
    counts(p - 1, FIRST_STREAM, BUNNYSOLDER_UNFIT_RECORD, 0, 0);
    counts(p - 1, NO_STREAM, BUNNYSOLDER_UNFIT_RECORD, 0, 0);
    counts(0, NO_STREAM, BUNNYSOLDER_UNFIT_RECORD, 0, 0);
    port[p - 1] = 9;
    counts(p, LAST_STREAM, BUNNYSOLDER_GRANTED, 0, 9);
    replies("open", s->open(port, p, memory, m, 2620, 1, &first, &second), BUNNYSOLDER_GRANTED, 600, 0);
    for (stream = 0; stream < BUNNYSOLDER_STREAMS; stream++)
        counts(p, (uint8_t)stream, BUNNYSOLDER_GRANTED, 0, 0);
    memset(port, 1, sizeof port);
    for (stream = 0; stream <= UINT8_MAX; stream++) {
        int is_stream = stream < BUNNYSOLDER_STREAMS;
        uint32_t ones = is_stream ? 0x01010101u : 0;

        counts(p, (uint8_t)stream, is_stream ? BUNNYSOLDER_GRANTED : BUNNYSOLDER_STREAM_RANGE, ones, ones);
    }
}

/* The counts of streams, on ports that each sort of call has made. */
static void stream_counts(const struct sort *s)
{
    counts_of_each_stream(s);
    choices(s);
    counts_of_a_withdrawn_stream(s);
    counts_of_any_port(s);
}

int main(void)
{
    int passed = 0, failed = 0;
    size_t i;

    for (i = 0; i < sizeof sorts / sizeof *sorts; i++) {
        wrong = 0;
        sample(&sorts[i]);
        sample_by_frames(&sorts[i]);
        withdrawal(&sorts[i]);
        longest_frames(&sorts[i]);
        registers(&sorts[i]);
        lookups(&sorts[i]);
        stream_counts(&sorts[i]);
        printf("test %s through the header: %s\n", sorts[i].name, wrong ? "FAILED" : "ok");
        if (wrong)
            failed++;
        else
            passed++;
    }
    printf("%d passed, %d failed\n", passed, failed);
    return failed != 0;
}
