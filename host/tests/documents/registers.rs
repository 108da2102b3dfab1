//! Request 3 of document 02, "Register block": each sentence of it that a port of this package can meet, with values derived by hand; accepted and
//! discarded frames are counted as request 5 has it. A closed port, and 26 before 18, are met by `harness/header.c`; the wrap of the counts by the
//! tests of `src/port`.

use bunnysolder::{
    Control, Controlled, Flags, Framed, Mask, Port, Purged, Queue, Refusal, Register, Reserved, Sent, Status, StreamCounts, SHORTEST_FRAME,
    STREAMS,
};

use crate::{frame, joined, opened, refused, reserved, waiting, ADDRESS, STREAM};

/// The last offset that a register can have.
const LAST_OFFSET: u32 = 60;

/// The three flags, each by itself, and none.
const NONE: Flags = Flags { discard: false, purge: false, nothing: false };
const DISCARD: Flags = Flags { discard: true, ..NONE };
const PURGE: Flags = Flags { purge: true, ..NONE };
const NOTHING: Flags = Flags { nothing: true, ..NONE };

/// What a write to control can ask for.
const TICK: Control = Control { tick: true, transmit: false };
const TRANSMIT: Control = Control { tick: false, transmit: true };
const BOTH: Control = Control { tick: true, transmit: true };
const NEITHER: Control = Control { tick: false, transmit: false };

/// All registers, by their offsets from 0 to 60.
fn all(port: &Port) -> [u32; 16] {
    std::array::from_fn(|number| port.read_register(4 * number as u32).expect("the offset is a register's"))
}

/// The counts: accepted and discarded frames of the cases' stream, and frames that the port has sent.
fn counts(port: &Port) -> (u32, u32, u32) {
    let StreamCounts { accepted, discarded } = port.counts_of(STREAM).expect("it is a stream");
    (accepted, discarded, port.frames_sent())
}

/// A port on which a frame was discarded, one purged, and a transmit had nothing to send: flags 7, accepted 1, discarded 1, sent 0. The stream, 5, is
/// the chosen one.
fn all_flags() -> Port {
    let mut port = reserved();
    port.set_choice(u32::from(STREAM));
    assert_eq!(port.arrive(STREAM, 200, 1), joined(Queue::Current, 200));
    refused(port.arrive(STREAM, 201, 2), Refusal::Discard, 14);
    assert_eq!(port.tick(), Ok(Purged { frames: 0, octets: 0 }));
    assert_eq!(port.tick(), Ok(Purged { frames: 1, octets: 200 }));
    assert_eq!(port.transmit(), Ok(Sent::Nothing));
    assert_eq!(port.flags(), Flags { discard: true, purge: true, nothing: true });
    port
}

/// "from 0 at opening, as flags and mask do": status is 1, open, and every other register 0.
#[test]
fn an_open_port_starts_with_zeros() {
    assert_eq!(all(&opened()), [0, 1, 0, 0, 0, 0, 0, 0, 0, 0, 0, 0, 0, 0, 0, 0]);
    assert_eq!(opened().status(), Status { open: true, interrupt: false });
    assert_eq!((opened().flags(), opened().mask(), opened().choice()), (NONE, Mask(0), 0));
    assert_eq!((opened().stream_counts(), opened().frames_sent()), ([StreamCounts::default(); STREAMS], 0));
}

/// "It refuses with 26 an offset that is no multiple of 4 or is above 60": reads and writes alike, which leave all as it was.
#[test]
fn offsets_outside_are_refused() {
    let mut port = all_flags();
    let before = all(&port);
    let beside = (0..=LAST_OFFSET + 8).filter(|offset| offset % 4 != 0 || *offset > LAST_OFFSET);
    for offset in beside.chain([256, 1 << 16, 1 << 31, u32::MAX - 3, u32::MAX]) {
        refused(port.read_register(offset), Refusal::OffsetRange, 26);
        refused(port.write_register(offset, u32::MAX), Refusal::OffsetRange, 26);
    }
    assert_eq!(all(&port), before);
}

/// "writing bit 0 ticks, then bit 1 transmits": frame 8 is in next, so a transmit sends it where the tick comes first, and "a control write [replies]
/// as its last call".
#[test]
fn control_ticks_then_transmits() {
    let mut port = reserved();
    assert_eq!(port.arrive(STREAM, 120, 7), joined(Queue::Current, 80));
    assert_eq!(port.arrive(STREAM, 100, 8), joined(Queue::Next, 100));
    assert_eq!(port.control(TRANSMIT), Ok(Controlled::Transmitted(Sent::Reserved { stream: STREAM, tag: 7 })));
    assert_eq!(port.control(BOTH), Ok(Controlled::Transmitted(Sent::Reserved { stream: STREAM, tag: 8 })));
    assert_eq!(port.arrive(STREAM, 84, 9), joined(Queue::Current, 16));
    assert_eq!(port.control(TICK), Ok(Controlled::Ticked(Purged { frames: 0, octets: 0 })));
    assert_eq!(port.control(TICK), Ok(Controlled::Ticked(Purged { frames: 1, octets: 84 })));
    assert_eq!(port.control(TRANSMIT), Ok(Controlled::Transmitted(Sent::Nothing)));
    assert_eq!(counts(&port), (3, 0, 2));
}

/// "a control write with neither bit two zeros", and it does nothing, whatever its other bits; with bit 0 or 1 these are ignored too.
#[test]
fn control_has_two_bits() {
    let mut port = reserved();
    assert_eq!(port.arrive(STREAM, 120, 7), joined(Queue::Current, 80));
    for other in [0, 0b100, 1 << 31, u32::MAX - 3] {
        let before = all(&port);
        assert_eq!(port.write_register(0, other), Ok((0, 0)));
        assert_eq!(all(&port), before);
    }
    assert_eq!(port.control(NEITHER), Ok(Controlled::Neither));
    assert_eq!(port.write_register(0, u32::MAX - 2), Ok((0, 0))); // a tick: the frame is in prior
    assert_eq!(port.write_register(0, u32::MAX), Ok((254, 0))); // a tick, which purges it, and a transmit of nothing
    assert_eq!(port.flags(), Flags { purge: true, nothing: true, ..NONE });
    assert_eq!(port.write_register(0, u32::MAX - 2), Ok((0, 0)));
    assert_eq!(port.read_register(0), Ok(0)); // "control, which reads zero"
}

/// "A read replies the register": status, flags, mask, counts and choice at their offsets, bit 0 the lowest.
#[test]
fn registers_stand_at_their_offsets() {
    let mut port = all_flags();
    assert_eq!(all(&port), [0, 0b01, 0b111, 0, 1, 1, 0, 5, 0, 0, 0, 0, 0, 0, 0, 0]);
    port.set_mask(Mask(1 << 31 | 0b100));
    assert_eq!(port.best_effort(84, 3), waiting(84));
    assert_eq!(port.transmit(), Ok(Sent::BestEffort { tag: 3 }));
    refused(port.arrive(STREAM, 201, 4), Refusal::Discard, 14);
    assert_eq!(all(&port), [0, 0b11, 0b111, 1 << 31 | 0b100, 1, 2, 1, 5, 0, 0, 0, 0, 0, 0, 0, 0]);
}

/// "8 flags (bit 0 discard, bit 1 purge of at least one frame, bit 2 nothing to send)": each comes up by its own event alone.
#[test]
fn each_flag_has_its_event() {
    let mut port = reserved();
    assert_eq!(port.arrive(STREAM, 120, 1), joined(Queue::Current, 80));
    assert_eq!(port.tick(), Ok(Purged { frames: 0, octets: 0 }));
    assert_eq!(port.flags(), NONE); // a tick that purges nothing
    assert_eq!(port.tick(), Ok(Purged { frames: 1, octets: 120 }));
    assert_eq!((port.flags(), port.read_register(8)), (PURGE, Ok(0b010)));
    port.clear(PURGE);
    assert_eq!(port.best_effort(84, 2), waiting(84));
    assert_eq!(port.transmit(), Ok(Sent::BestEffort { tag: 2 }));
    assert_eq!(port.flags(), NONE); // a transmit that sends
    assert_eq!(port.transmit(), Ok(Sent::Nothing));
    assert_eq!((port.flags(), port.read_register(8)), (NOTHING, Ok(0b100)));
    port.clear(NOTHING);
    refused(port.arrive(STREAM, 201, 3), Refusal::Discard, 14);
    assert_eq!((port.flags(), port.read_register(8)), (DISCARD, Ok(0b001)));
}

/// "Writing a one to a flag clears it", and a zero leaves it; bits 3 to 31 clear nothing. The event raises it again.
#[test]
fn a_one_clears_its_flag() {
    for ones in 0..8 {
        let mut port = all_flags();
        assert_eq!(port.write_register(8, ones | 1 << 31 | 1 << 3), Ok((0, 0)));
        assert_eq!(port.read_register(8), Ok(0b111 - ones));
        port.clear(Flags::from_bits(ones));
        assert_eq!(port.flags(), Flags::from_bits(0b111 - ones));
    }
    let mut port = all_flags();
    port.clear(port.flags());
    assert_eq!(port.transmit(), Ok(Sent::Nothing));
    assert_eq!(port.flags(), NOTHING);
}

/// "The interrupt line is up exactly when flags and mask share a one", for every mask of the flags' bits and every state of the flags.
#[test]
fn the_line_is_up_where_flags_and_mask_share_a_one() {
    for (flags, mask) in (0..8).flat_map(|flags| (0..8).map(move |mask| (flags, mask))) {
        let mut port = all_flags();
        port.set_mask(Mask(mask));
        port.clear(Flags::from_bits(0b111 - flags));
        assert_eq!(port.status(), Status { open: true, interrupt: flags & mask != 0 }, "{flags:03b} {mask:03b}");
    }
}

/// The line follows the flags and the mask: up with the discard, down where the flag is cleared or the mask taken away, up again with the mask.
#[test]
fn the_line_follows_flags_and_mask() {
    let mut port = reserved();
    port.set_mask(DISCARD);
    assert!(!port.status().interrupt);
    refused(port.arrive(STREAM, 201, 1), Refusal::Discard, 14);
    assert_eq!(port.read_register(4), Ok(0b11));
    port.set_mask(Flags { purge: true, nothing: true, ..NONE });
    assert_eq!(port.read_register(4), Ok(0b01));
    port.set_mask(Mask(u32::MAX));
    assert_eq!(port.read_register(4), Ok(0b11));
    port.clear(DISCARD);
    assert_eq!(port.read_register(4), Ok(0b01));
}

/// "12 the interrupt mask, kept as written": all of its bits; those that no flag has do not raise the line.
#[test]
fn the_mask_is_kept_as_written() {
    let mut port = all_flags();
    for bits in [u32::MAX, 0xABCD_EF12, 1 << 31, 0b1000, 0b111, 0] {
        assert_eq!(port.write_register(12, bits), Ok((0, 0)));
        assert_eq!((port.mask(), port.read_register(12)), (Mask(bits), Ok(bits)));
        assert_eq!(port.mask().flags(), Flags::from_bits(bits));
    }
    port.set_mask(Mask(u32::MAX - 0b111));
    assert!(!port.status().interrupt);
}

/// "24 count[s] [...] frames of both sorts sent": those of Arrive, Best effort and Frame; nothing is none.
#[test]
fn both_sorts_are_counted_where_they_are_sent() {
    let mut port = reserved();
    assert_eq!(port.bind(STREAM, &ADDRESS, 1), Ok(()));
    assert_eq!(port.arrive(STREAM, 84, 1), joined(Queue::Current, 116));
    assert_eq!(port.best_effort(84, 2), waiting(84));
    assert_eq!(port.frame(&frame(1)[..SHORTEST_FRAME], 3), joined(Queue::Current, 32).map(Framed::Arrived));
    assert_eq!(port.frame(&frame(2)[..SHORTEST_FRAME], 4), waiting(168).map(Framed::BestEffort));
    assert_eq!(counts(&port), (2, 0, 0));
    for (sent, tag) in [(1, 1), (2, 3)] {
        assert_eq!(port.transmit(), Ok(Sent::Reserved { stream: STREAM, tag }));
        assert_eq!(counts(&port), (2, 0, sent));
    }
    for (sent, tag) in [(3, 2), (4, 4)] {
        assert_eq!(port.transmit(), Ok(Sent::BestEffort { tag }));
        assert_eq!(counts(&port), (2, 0, sent));
    }
    assert_eq!(port.transmit(), Ok(Sent::Nothing));
    assert_eq!(counts(&port), (2, 0, 4));
}

/// "discards (14)": of an Arrive and of a Frame that becomes one; a purged frame is neither discarded nor sent.
#[test]
fn discards_are_counted() {
    let mut port = reserved();
    assert_eq!(port.bind(STREAM, &ADDRESS, 1), Ok(()));
    assert_eq!(port.arrive(STREAM, 84, 1), joined(Queue::Current, 116));
    refused(port.arrive(STREAM, 201, 2), Refusal::Discard, 14);
    refused(port.frame(&frame(1)[..SHORTEST_FRAME], 3), Refusal::Discard, 14);
    assert_eq!((counts(&port), port.flags()), ((1, 2, 0), DISCARD));
    port.clear(DISCARD);
    assert_eq!(port.tick(), Ok(Purged { frames: 0, octets: 0 }));
    assert_eq!(port.tick(), Ok(Purged { frames: 1, octets: 84 }));
    assert_eq!((counts(&port), port.flags()), ((1, 2, 0), PURGE));
}

/// "Of refusals only 14 sets a flag or count": each other one that a port can meet leaves every register, and the counts of every stream.
#[test]
fn other_refusals_set_nothing() {
    let mut port = reserved();
    assert_eq!(port.bind(STREAM, &ADDRESS, 1), Ok(()));
    assert_eq!(port.reserve(6, 200), Ok(Reserved { free: 200 }));
    assert_eq!(port.reserve(7, 84), Ok(Reserved { free: 116 }));
    assert_eq!(port.withdraw(7), Ok(()));
    assert_eq!(port.arrive(STREAM, 84, 1), joined(Queue::Current, 116));
    port.set_choice(u32::from(STREAM));
    let before = (all(&port), port.stream_counts());
    refused(port.arrive(64, 84, 1), Refusal::StreamRange, 5);
    refused(port.reserve(STREAM, 84), Refusal::ReservedAlready, 6);
    refused(port.reserve(8, 83), Refusal::PermittedRange, 7);
    refused(port.reserve(8, 117), Refusal::ShareExceeded, 8);
    refused(port.bind(6, &ADDRESS, 0), Refusal::VidRange, 9);
    refused(port.bind(STREAM, &ADDRESS, 2), Refusal::BoundAlready, 10);
    refused(port.bind(6, &ADDRESS, 1), Refusal::PairBoundAlready, 11);
    refused(port.arrive(8, 84, 1), Refusal::NotReserved, 12);
    refused(port.arrive(STREAM, 2_021, 1), Refusal::ChargeRange, 13);
    refused(port.best_effort(83, 1), Refusal::ChargeRange, 13);
    refused(port.frame(&frame(1)[..SHORTEST_FRAME - 1], 1), Refusal::FrameLength, 17);
    refused(port.arrive(7, 84, 1), Refusal::Draining, 25);
    refused(port.withdraw(7), Refusal::Draining, 25);
    assert_eq!((all(&port), port.stream_counts()), before);
}

/// The same of 15 and 16, by Best effort and by Frame: 256 frames wait, and none is counted before it is sent.
#[test]
fn refusals_of_best_effort_set_nothing() {
    let mut port = Port::open(21_588, 1).expect("L and K are in their ranges");
    assert!(port.reserve(STREAM, 84).is_ok());
    for frames in 1..=255 {
        assert_eq!(port.best_effort(84, frames), waiting(84 * frames));
    }
    refused(port.best_effort(85, 256), Refusal::LimitExceeded, 16);
    refused(port.frame(&frame(2)[..SHORTEST_FRAME + 1], 256), Refusal::LimitExceeded, 16);
    assert_eq!(port.best_effort(84, 256), waiting(21_504));
    refused(port.best_effort(84, 257), Refusal::BestEffortFull, 15);
    refused(port.frame(&frame(2)[..SHORTEST_FRAME], 257), Refusal::BestEffortFull, 15);
    assert_eq!((port.stream_counts(), port.frames_sent(), port.flags()), ([StreamCounts::default(); STREAMS], 0, NONE));
}

/// "Other offsets read zero; writes to them, 4 and the counters do nothing", and reply two zeros.
#[test]
fn other_writes_do_nothing() {
    let mut port = all_flags();
    port.set_mask(PURGE);
    let before = all(&port);
    assert_eq!(before, [0, 0b11, 0b111, 0b010, 1, 1, 0, 5, 0, 0, 0, 0, 0, 0, 0, 0]);
    for offset in [4, 16, 20, 24].into_iter().chain((32..=LAST_OFFSET).step_by(4)) {
        for value in [0, 1, u32::MAX] {
            assert_eq!(port.write_register(offset, value), Ok((0, 0)));
            assert_eq!(all(&port), before);
        }
    }
}

/// "Any list of control writes does to the port what the named calls do": the same replies, frames, flags and counts, over epochs with frames of
/// both sorts, of which some are sent and some purged.
#[test]
fn control_writes_do_what_the_calls_do() {
    let (mut controlled, mut called) = (reserved(), reserved());
    for port in [&mut controlled, &mut called] {
        port.set_choice(u32::from(STREAM));
    }
    for tag in 0..40 {
        for port in [&mut controlled, &mut called] {
            let _ = port.arrive(STREAM, 84 + 10 * (tag % 12), tag);
            let _ = port.best_effort(84, 100 + tag);
        }
        let asked = [TICK, TRANSMIT, BOTH, TRANSMIT, NEITHER, TICK, TICK][tag as usize % 7];
        let ticked = asked.tick.then(|| called.tick().map(Controlled::Ticked));
        let transmitted = asked.transmit.then(|| called.transmit().map(Controlled::Transmitted));
        assert_eq!(controlled.control(asked), transmitted.or(ticked).unwrap_or(Ok(Controlled::Neither)), "frame {tag}");
        assert_eq!(all(&controlled), all(&called), "frame {tag}");
    }
    assert!(called.flags().purge && called.frames_sent() > 0, "some are purged and some are sent");
    assert!(called.chosen_counts().accepted > 0 && called.chosen_counts().discarded > 0, "some are accepted and some are discarded");
}

/// A refused access is no event, and neither is a read: nothing is counted, and what waits is sent.
#[test]
fn accesses_are_not_counted() {
    let mut port = reserved();
    assert_eq!(port.arrive(STREAM, 120, 7), joined(Queue::Current, 80));
    for offset in 0..=LAST_OFFSET + 4 {
        assert_eq!(port.read_register(offset).is_ok(), offset % 4 == 0 && offset <= LAST_OFFSET);
    }
    assert_eq!((counts(&port), port.flags()), ((1, 0, 0), NONE));
    assert_eq!(port.transmit(), Ok(Sent::Reserved { stream: STREAM, tag: 7 }));
}

/// Another port's registers are its own.
#[test]
fn each_port_has_its_own_registers() {
    let (first, second) = (all_flags(), opened());
    assert_eq!((counts(&first), counts(&second)), ((1, 1, 0), (0, 0, 0)));
    assert_eq!((first.choice(), second.choice(), second.flags()), (u32::from(STREAM), 0, NONE));
}

/// The registers by name are those at the offsets of the document, and there is no other.
#[test]
fn registers_have_their_offsets() {
    let offsets = [Register::Control, Register::Status, Register::Flags, Register::Mask].map(Register::offset);
    assert_eq!(offsets, [0, 4, 8, 12]);
    let offsets = [Register::Accepted, Register::Discarded, Register::Sent, Register::Choice].map(Register::offset);
    assert_eq!(offsets, [16, 20, 24, 28]);
    assert_eq!((0..=u32::from(u8::MAX)).filter_map(Register::from_offset).map(Register::offset).max(), Some(28));
}
