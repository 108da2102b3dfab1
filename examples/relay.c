/*
 * A host that relays two frames over an epoch's end: it opens a port, reserves a stream and binds it to an address and a VID, takes two frames of
 * which the second has to wait for the next epoch, and sends them. Of the first it knows the stream and the charge; the second it gives with its
 * octets, and the port finds both. Meanwhile it sends a gateway's frame of the longest length as best effort. Then the machine that sends the stream
 * is taken off the line, and another one gets its share: the host withdraws the stream, sends the frame that still waits, and asks for the other
 * stream after each tick until it is granted. At last it serves the node's controller, which sees the port as registers: a discarded frame and a
 * purged one raise the interrupt line, the host reads which it was and the counts of the stream that the controller has chosen, and clears the flags
 * that it has read; and it ends epochs and sends by single writes to control. Whenever support asks which machine is talking too much, the host tells
 * the counts of every stream that has some, and the controller's choice stays as it is. The set-up goes through the calls that test the whole record.
 * After the granted Open nothing but these calls writes the port and the memory, so the traffic goes through the calls that scan nothing, whose
 * replies are then the same.
 */
#include <stdio.h>
#include <stdlib.h>
#include <string.h>

#include "bunnysolder.h"

/* The epochs for which stream 6 waits for its octets at most. */
#define MOST_EPOCHS 8

static uint8_t port[BUNNYSOLDER_PORT_LENGTH];
static uint8_t memory[BUNNYSOLDER_MEMORY_LENGTH];
static uint32_t first, second;

/* Ends the program where a call is refused. */
static void granted(const char *call, uint8_t refusal)
{
    if (refusal != BUNNYSOLDER_GRANTED) {
        fprintf(stderr, "%s is refused with %u\n", call, refusal);
        exit(EXIT_FAILURE);
    }
}

/* The destination address to which a stream is bound, 5 at first and 6 later, and the VLAN tag of its frames: VID 100, with the priority bits set. */
static const uint8_t address[BUNNYSOLDER_ADDRESS_LENGTH] = { 0x01, 0x00, 0x5E, 0x00, 0x00, 0x05 };
static const uint8_t vlan_tag[] = { 0x81, 0x00, 0xE0, 0x64 };

/* A stream asks for octets per epoch. Whether they are granted. */
static int reserve(uint8_t stream, uint32_t permitted)
{
    uint8_t refusal = bunnysolder_reserve(port, sizeof port, memory, sizeof memory, stream, permitted, &first, &second);

    if (refusal == BUNNYSOLDER_GRANTED)
        printf("reserve: stream %u has %u octets per epoch, %u are still free\n", stream, permitted, first);
    else
        printf("reserve: stream %u is refused with %u\n", stream, refusal);
    return refusal == BUNNYSOLDER_GRANTED;
}

/* A stream gets the address and VID 100. */
static void bind(uint8_t stream)
{
    granted("bind", bunnysolder_bind(port, sizeof port, memory, sizeof memory, stream, address, 100, &first, &second));
    printf("bind: stream %u has an address and VID 100\n", stream);
}

/* What became of a frame of a stream: where it has joined, or that it was discarded or the stream drains. */
static void came(const char *call, uint32_t tag, uint8_t refusal)
{
    static const char *const places[] = { "", "current", "next", "last" };

    if (refusal == BUNNYSOLDER_DRAINING) {
        printf("%s: frame %u is refused with %u, its stream drains\n", call, tag, refusal);
        return;
    }
    if (refusal == BUNNYSOLDER_DISCARD) {
        printf("%s: frame %u is refused with %u, it is discarded\n", call, tag, refusal);
        return;
    }
    granted(call, refusal);
    printf("%s: frame %u joins %s, and its stream has %u octets left at its place\n", call, tag, places[first], second);
}

/* A frame of stream 5 arrives. */
static void arrive(uint32_t charge, uint32_t tag)
{
    came("arrive", tag, bunnysolder_arrive_unscanned(port, sizeof port, memory, sizeof memory, 5, charge, tag, &first, &second));
}

/* A frame of a length comes from the wire: by its header it is one of the stream that is bound to the address. */
static void frame(size_t length, uint32_t tag)
{
    static uint8_t octets[BUNNYSOLDER_LONGEST_FRAME];

    memcpy(octets, address, sizeof address);
    memcpy(octets + 12, vlan_tag, sizeof vlan_tag);
    came("frame", tag, bunnysolder_frame_unscanned(port, sizeof port, memory, sizeof memory, octets, length, tag, &first, &second));
}

/* A gateway's frame of the longest length comes from the wire, without VLAN tag: it is one of no stream. */
static void gateway_frame(uint32_t tag)
{
    static const uint8_t octets[BUNNYSOLDER_LONGEST_FRAME];

    granted("frame", bunnysolder_frame_unscanned(port, sizeof port, memory, sizeof memory, octets, sizeof octets, tag, &first, &second));
    printf("frame: frame %u is best effort, where %u octets wait\n", tag, first);
}

/* What a call that transmits has replied. */
static void sent(const char *call)
{
    if (first == BUNNYSOLDER_NOTHING)
        printf("%s: nothing\n", call);
    else if (first == BUNNYSOLDER_BEST_EFFORT)
        printf("%s: frame %u of best effort\n", call, second);
    else
        printf("%s: frame %u of stream %u\n", call, second, first);
}

/* The link can send. */
static void transmit(void)
{
    granted("transmit", bunnysolder_transmit_unscanned(port, sizeof port, memory, sizeof memory, &first, &second));
    sent("transmit");
}

/* The epoch ends. */
static void tick(void)
{
    granted("tick", bunnysolder_tick_unscanned(port, sizeof port, memory, sizeof memory, &first, &second));
    printf("tick: %u frames purged\n", first);
}

/* Tells support the counts of each stream that has some, or that none has. */
static void tell_support(void)
{
    unsigned stream;
    int told = 0;

    for (stream = 0; stream < BUNNYSOLDER_STREAMS; stream++) {
        granted("stream counts", bunnysolder_stream_counts(port, sizeof port, (uint8_t)stream, &first, &second));
        if (first != 0 || second != 0) {
            printf("support: %u frames accepted and %u discarded of stream %u\n", first, second, stream);
            told = 1;
        }
    }
    if (!told)
        printf("support: no frames of any stream\n");
}

/* Two frames of stream 5 over an epoch's end, and one of best effort, which is sent while the second waits. */
static void relay(void)
{
    arrive(120, 7);
    frame(76, 8);
    gateway_frame(12);
    transmit();
    transmit();
    transmit();
    tick();
    transmit();
}

/* Stream 5 is taken off the line while its frame 9 waits for the next epoch. Stream 6 gets more than was free beside it, and its address; the rest is
 * for a new stream 5. */
static void take_off_the_line(void)
{
    int epochs;

    arrive(120, 9);
    granted("withdraw", bunnysolder_withdraw(port, sizeof port, memory, sizeof memory, 5, &first, &second));
    printf("withdraw: stream 5 takes no more frames\n");
    arrive(84, 10);
    frame(60, 11);
    tick();
    transmit();
    for (epochs = 0; epochs < MOST_EPOCHS && !reserve(6, 500); epochs++)
        tick();
    bind(6);
    reserve(5, 100);
}

/* The controller reads a register. */
static uint32_t read_register(uint32_t offset)
{
    granted("register read", bunnysolder_register_read_unscanned(port, sizeof port, memory, sizeof memory, offset, &first, &second));
    return first;
}

/* The controller writes a register. */
static void write_register(uint32_t offset, uint32_t value)
{
    granted("register write", bunnysolder_register_write_unscanned(port, sizeof port, memory, sizeof memory, offset, value, &first, &second));
}

/* The epoch ends and the link can send, by one write. */
static void tick_and_transmit(void)
{
    write_register(BUNNYSOLDER_REGISTER_CONTROL, BUNNYSOLDER_CONTROL_TICK | BUNNYSOLDER_CONTROL_TRANSMIT);
    sent("control");
}

/* Whether the interrupt line is up. */
static int interrupted(void)
{
    int up = (read_register(BUNNYSOLDER_REGISTER_STATUS) & BUNNYSOLDER_STATUS_INTERRUPT) != 0;

    printf("status: the interrupt line is %s\n", up ? "up" : "down");
    return up;
}

/* The flags in words. */
static void tell(uint32_t flags)
{
    if (flags & BUNNYSOLDER_FLAG_DISCARD)
        printf("flag: a frame was discarded\n");
    if (flags & BUNNYSOLDER_FLAG_PURGE)
        printf("flag: a tick purged frames\n");
    if (flags & BUNNYSOLDER_FLAG_NOTHING)
        printf("flag: a transmit had nothing to send\n");
}

/* The counts that the controller sees: those of the stream that it has chosen, and the frames that the whole port has sent. */
static void tell_counts(void)
{
    printf("counts: %u frames accepted and %u discarded of stream %u, %u sent of all\n", read_register(BUNNYSOLDER_REGISTER_ACCEPTED),
           read_register(BUNNYSOLDER_REGISTER_DISCARDED), read_register(BUNNYSOLDER_REGISTER_CHOICE), read_register(BUNNYSOLDER_REGISTER_SENT));
}

/* Serves the interrupts until the line is down: tells flags and counts, and clears the flags that it has read by writing them back. */
static void serve_interrupts(void)
{
    while (interrupted()) {
        uint32_t flags = read_register(BUNNYSOLDER_REGISTER_FLAGS);

        tell(flags);
        tell_counts();
        write_register(BUNNYSOLDER_REGISTER_FLAGS, flags);
    }
}

/* The controller looks after stream 6, which has the address now; its frame 19 is sent. Stream 5 has 100 octets per epoch. The charge of frame 22 is
 * over that, so it is discarded: the flag says so, and the counts for support say that it was one of stream 5. No transmit follows the tick between
 * the two writes to control, so the tick of the second one purges frame 21. Each raises the interrupt line. */
static void serve_the_controller(void)
{
    write_register(BUNNYSOLDER_REGISTER_MASK, BUNNYSOLDER_FLAG_DISCARD | BUNNYSOLDER_FLAG_PURGE);
    printf("mask: a discard and a purge raise the interrupt line\n");
    write_register(BUNNYSOLDER_REGISTER_CHOICE, 6);
    printf("choice: the counts of stream 6 are shown\n");
    frame(76, 19);
    transmit();
    arrive(84, 20);
    arrive(84, 21);
    arrive(101, 22);
    serve_interrupts();
    tell_support();
    tick_and_transmit();
    tick();
    tick_and_transmit();
    serve_interrupts();
}

int main(void)
{
    granted("open", bunnysolder_open(port, sizeof port, memory, sizeof memory, 2620, 1, &first, &second));
    printf("open: the share is %u octets\n", first);
    reserve(5, 200);
    bind(5);
    relay();
    tell_support();
    take_off_the_line();
    tell_support();
    serve_the_controller();
    return EXIT_SUCCESS;
}
