//! Request 5 of document 02, "Counts per stream": each sentence of it that a port of this package can meet, with values derived by hand, at both ends
//! of the streams. A closed port and one that is too short are met by `harness/header.c`; the wrap of the counts by the tests of `src/port`.

use bunnysolder::{
    Control, Flags, Framed, Port, Purged, Queue, Refusal, Reserved, Sent, StreamCounts, LONGEST_FRAME, SHORTEST_FRAME, STREAMS,
};

use crate::{frame, joined, opened, refused, reserved, waiting, ADDRESS, STREAM};

/// The streams at both ends; that of the cases is not reserved beside them in most tests.
const FIRST: u8 = 0;
const LAST: u8 = 63;

/// The offsets of the registers that show the counts of the chosen stream, and of the choice.
const ACCEPTED: u32 = 16;
const DISCARDED: u32 = 20;
const CHOICE: u32 = 28;

/// Numbers above 63, also such whose low six or eight bits are a stream's.
const ABOVE: [u32; 8] = [64, 64 + 5, 127, 255, 256, 256 + 63, 1 << 16 | 63, u32::MAX];

/// The counts of a stream.
fn counts(accepted: u32, discarded: u32) -> StreamCounts {
    StreamCounts { accepted, discarded }
}

/// The counts of all streams, where all but these are 0.
fn none_but<const N: usize>(some: [(u8, StreamCounts); N]) -> [StreamCounts; STREAMS] {
    let mut all = [StreamCounts::default(); STREAMS];
    some.into_iter().for_each(|(stream, counts)| all[usize::from(stream)] = counts);
    all
}

/// What a controller reads at 16 and 20 where it chooses a number.
fn shown(port: &mut Port, choice: u32) -> StreamCounts {
    assert_eq!(port.write_register(CHOICE, choice), Ok((0, 0)));
    let read = |offset: u32| port.read_register(offset).expect("the offset is a register's");
    counts(read(ACCEPTED), read(DISCARDED))
}

/// A port with the streams at both ends, P 200 each; the last is bound to the address and VID 1.
fn both_ends() -> Port {
    let mut port = opened();
    assert_eq!(port.reserve(FIRST, 200), Ok(Reserved { free: 400 }));
    assert_eq!(port.reserve(LAST, 200), Ok(Reserved { free: 200 }));
    assert_eq!(port.bind(LAST, &ADDRESS, 1), Ok(()));
    port
}

/// That port after one accepted frame of the first stream, and two accepted and one discarded of the last.
fn counted() -> Port {
    let mut port = both_ends();
    assert_eq!(port.arrive(FIRST, 84, 1), joined(Queue::Current, 116));
    assert_eq!(port.arrive(LAST, 120, 2), joined(Queue::Current, 80));
    assert_eq!(port.arrive(LAST, 100, 3), joined(Queue::Next, 100));
    refused(port.arrive(LAST, 201, 4), Refusal::Discard, 14);
    port
}

/// A port with all 64 streams, P 84 each. Of stream s, s mod 4 frames were accepted and s / 4 discarded, so no two streams have the same counts.
fn all_different() -> Port {
    let mut port = Port::open(23_524, 1).expect("L and K are in their ranges");
    for stream in 0..=LAST {
        assert!(port.reserve(stream, 84).is_ok());
        for tag in 0..u32::from(stream % 4) {
            assert!(port.arrive(stream, 84, tag).is_ok());
        }
        for tag in 0..u32::from(stream / 4) {
            refused(port.arrive(stream, 85, tag), Refusal::Discard, 14);
        }
    }
    port
}

/// The counts that a stream of that port has.
fn different(stream: u8) -> StreamCounts {
    counts(u32::from(stream % 4), u32::from(stream / 4))
}

/// "Accepted and discarded counts are to be held for each stream": those of one stream's frames are no other's.
#[test]
fn each_stream_has_its_own_counts() {
    let port = counted();
    assert_eq!(port.stream_counts(), none_but([(FIRST, counts(1, 0)), (LAST, counts(2, 1))]));
    assert_eq!((port.counts_of(FIRST), port.counts_of(LAST)), (Ok(counts(1, 0)), Ok(counts(2, 1))));
    assert_eq!(all_different().stream_counts(), std::array::from_fn(|stream| different(stream as u8)));
}

/// "in place of the port's two": no choice shows the sum, and at first the counts of stream 0 are shown, not the port's.
#[test]
fn the_port_has_no_counts_of_its_own() {
    let mut port = counted();
    assert_eq!((port.choice(), port.chosen_counts()), (0, counts(1, 0)));
    assert!((0..=LAST).map(u32::from).chain(ABOVE).all(|choice| shown(&mut port, choice) != counts(3, 1)));
}

/// "Offsets 16 and 20 show the counts of the stream chosen by a new register at offset 28": of each of the 64.
#[test]
fn the_chosen_stream_is_shown() {
    let mut port = all_different();
    for stream in (0..=LAST).rev() {
        assert_eq!(shown(&mut port, u32::from(stream)), different(stream), "{stream}");
        assert_eq!((port.chosen_counts(), port.counts_of(stream)), (different(stream), Ok(different(stream))), "{stream}");
    }
}

/// "0 at opening, kept as written", and every number "reads back as written"; nothing but a write to it moves it.
#[test]
fn the_choice_is_kept_as_written() {
    let mut port = both_ends();
    assert_eq!((port.choice(), port.read_register(CHOICE)), (0, Ok(0)));
    for choice in [1, 62, 63].into_iter().chain(ABOVE).chain([0]) {
        assert_eq!(port.write_register(CHOICE, choice), Ok((0, 0)));
        let _ = port.arrive(LAST, 84, choice);
        let _ = port.control(Control { tick: true, transmit: true });
        assert_eq!((port.choice(), port.read_register(CHOICE)), (choice, Ok(choice)));
    }
    port.set_choice(u32::MAX);
    assert_eq!(port.withdraw(LAST), Ok(()));
    assert_eq!(port.choice(), u32::MAX);
}

/// "a number above 63 there makes both read zero", and 63 does not; the counts are there all the same.
#[test]
fn a_choice_above_the_last_stream_shows_zeros() {
    let mut port = all_different();
    for choice in ABOVE {
        assert_eq!(shown(&mut port, 63), counts(3, 15));
        assert_eq!(shown(&mut port, choice), counts(0, 0), "{choice}");
        assert_eq!((port.choice(), port.chosen_counts()), (choice, counts(0, 0)));
        assert_eq!(port.counts_of(LAST), Ok(counts(3, 15)));
    }
}

/// The counts are not written by a controller, whichever stream it has chosen.
#[test]
fn writes_to_the_counts_do_nothing() {
    let mut port = counted();
    let before = port.stream_counts();
    for choice in [u32::from(FIRST), u32::from(LAST), u32::from(STREAM), 64] {
        port.set_choice(choice);
        for (offset, value) in [(ACCEPTED, 0), (ACCEPTED, u32::MAX), (DISCARDED, 0), (DISCARDED, u32::MAX)] {
            assert_eq!(port.write_register(offset, value), Ok((0, 0)));
            assert_eq!((port.stream_counts(), port.choice()), (before, choice));
        }
    }
}

/// A stream's counts are there whether it is reserved or not; "above 63" there is none (5).
#[test]
fn counts_of_no_stream_are_refused() {
    let port = counted();
    assert_eq!(port.counts_of(STREAM), Ok(counts(0, 0)));
    for stream in LAST + 1..=u8::MAX {
        refused(port.counts_of(stream), Refusal::StreamRange, 5);
    }
}

/// Support's reading leaves the controller's choice, and every other register.
#[test]
fn reading_counts_changes_nothing() {
    let mut port = counted();
    port.set_choice(u32::from(LAST));
    let registers = |port: &Port| (0..16).map(|number| port.read_register(4 * number)).collect::<Vec<_>>();
    let before = registers(&port);
    assert_eq!(port.stream_counts().len(), STREAMS);
    assert_eq!(port.counts_of(FIRST), Ok(counts(1, 0)));
    refused(port.counts_of(64), Refusal::StreamRange, 5);
    assert_eq!((registers(&port), port.choice()), (before, u32::from(LAST)));
    assert_eq!(port.transmit(), Ok(Sent::Reserved { stream: FIRST, tag: 1 }));
}

/// "its own calls (frames bound to it too)": a Frame of the bound pair is an accepted frame or a discard of its stream.
#[test]
fn frames_count_for_their_stream() {
    let mut port = both_ends();
    assert_eq!(port.frame(&frame(1)[..SHORTEST_FRAME], 1), joined(Queue::Current, 116).map(Framed::Arrived));
    assert_eq!(port.stream_counts(), none_but([(LAST, counts(1, 0))]));
    refused(port.frame(&frame(1)[..LONGEST_FRAME], 2), Refusal::Discard, 14);
    assert_eq!(port.stream_counts(), none_but([(LAST, counts(1, 1))]));
    refused(port.frame(&frame(1)[..LONGEST_FRAME + 1], 3), Refusal::FrameLength, 17);
    assert_eq!(port.stream_counts(), none_but([(LAST, counts(1, 1))]));
}

/// "Accepted best-effort frames are counted nowhere any more; offset 24 still counts both sorts sent."
#[test]
fn best_effort_is_counted_where_it_is_sent() {
    let mut port = both_ends();
    assert_eq!(port.best_effort(84, 1), waiting(84));
    assert_eq!(port.frame(&frame(2)[..SHORTEST_FRAME], 2), waiting(168).map(Framed::BestEffort));
    assert_eq!((port.stream_counts(), port.frames_sent()), (none_but([]), 0));
    assert_eq!(port.arrive(FIRST, 84, 3), joined(Queue::Current, 116));
    for (sent, reply) in [(1, Sent::Reserved { stream: FIRST, tag: 3 }), (2, Sent::BestEffort { tag: 1 }), (3, Sent::BestEffort { tag: 2 })]
    {
        assert_eq!(port.transmit(), Ok(reply));
        assert_eq!((port.stream_counts(), port.frames_sent()), (none_but([(FIRST, counts(1, 0))]), sent));
    }
}

/// A discard of any stream raises the flag, whichever stream is chosen.
#[test]
fn the_flag_is_that_of_all_streams() {
    let discard = Flags { discard: true, ..Flags::default() };
    for (choice, stream) in [(0, FIRST), (0, LAST), (63, FIRST), (63, LAST), (64, LAST)] {
        let mut port = both_ends();
        port.set_choice(choice);
        refused(port.arrive(stream, 201, 1), Refusal::Discard, 14);
        assert_eq!((port.flags(), port.stream_counts()), (discard, none_but([(stream, counts(0, 1))])));
    }
}

/// "since the latest opening or granted withdrawal": both counts are 0 "at the granted withdrawal itself", and no other stream's.
#[test]
fn a_withdrawal_sets_both_counts_to_zero() {
    let mut port = counted();
    assert_eq!(port.withdraw(LAST), Ok(()));
    assert_eq!(port.stream_counts(), none_but([(FIRST, counts(1, 0))]));
    assert_eq!(shown(&mut port, 63), counts(0, 0));
    assert_eq!(port.withdraw(FIRST), Ok(()));
    assert_eq!(port.stream_counts(), none_but([]));
}

/// A withdrawal that is refused (5, 25, 12) leaves all counts.
#[test]
fn a_refused_withdrawal_leaves_the_counts() {
    let mut port = counted();
    assert_eq!(port.reserve(STREAM, 84), Ok(Reserved { free: 116 }));
    assert_eq!(port.withdraw(STREAM), Ok(()));
    refused(port.withdraw(STREAM), Refusal::Draining, 25);
    refused(port.withdraw(64), Refusal::StreamRange, 5);
    refused(port.withdraw(64 + LAST), Refusal::StreamRange, 5);
    refused(port.withdraw(6), Refusal::NotReserved, 12);
    assert_eq!(port.stream_counts(), none_but([(FIRST, counts(1, 0)), (LAST, counts(2, 1))]));
}

/// While a stream drains, and at the tick that frees it, no count moves: its frames are refused (25), and what it has queued is sent.
#[test]
fn draining_counts_nothing() {
    let mut port = counted();
    assert_eq!(port.withdraw(LAST), Ok(()));
    for tag in [1, 2] {
        let stream = if tag == 1 { FIRST } else { LAST };
        assert_eq!(port.transmit(), Ok(Sent::Reserved { stream, tag }));
    }
    for tick in 0..4 {
        refused(port.arrive(LAST, 84, 5), Refusal::Draining, 25);
        refused(port.frame(&frame(1)[..SHORTEST_FRAME], 6), Refusal::Draining, 25);
        let purged = u32::from(tick == 2); // frame 3, which nobody sends
        assert_eq!(port.tick(), Ok(Purged { frames: purged, octets: 100 * purged }));
        assert_eq!(port.stream_counts(), none_but([(FIRST, counts(1, 0))]));
    }
    assert_eq!((port.frames_sent(), port.reserve(LAST, 200)), (2, Ok(Reserved { free: 200 })));
}

/// A number that is granted again counts from 0, and a Reserve, granted or refused, moves no count.
#[test]
fn a_number_granted_again_counts_from_zero() {
    let mut port = counted();
    refused(port.reserve(LAST, 200), Refusal::ReservedAlready, 6);
    refused(port.reserve(STREAM, 201), Refusal::ShareExceeded, 8);
    assert_eq!(port.counts_of(LAST), Ok(counts(2, 1)));
    assert_eq!(port.withdraw(LAST), Ok(()));
    (0..4).for_each(|_| assert!(port.tick().is_ok()));
    assert_eq!(port.reserve(LAST, 200), Ok(Reserved { free: 200 }));
    assert_eq!(port.counts_of(LAST), Ok(counts(0, 0)));
    assert_eq!(port.arrive(LAST, 84, 9), joined(Queue::Current, 116));
    assert_eq!(port.stream_counts(), none_but([(FIRST, counts(1, 0)), (LAST, counts(1, 0))]));
}

/// "since the latest opening": another port counts from 0, and a refused Open is none.
#[test]
fn each_port_has_its_own_counts() {
    let (port, other) = (counted(), both_ends());
    refused(Port::open(2_103, 1), Refusal::LinkRange, 3);
    assert_eq!(other.stream_counts(), none_but([]));
    assert_eq!(port.counts_of(LAST), Ok(counts(2, 1)));
}

/// The first rows of docs/RULE.md, section 12.7: three frames accepted and one discarded of stream 5, which is chosen, with a mask of bits 0 and 2.
fn first_rows() -> Port {
    let mut port = reserved();
    assert_eq!((port.write_register(12, 5), port.write_register(CHOICE, 5)), (Ok((0, 0)), Ok((0, 0))));
    for (tag, queue, left) in [(1, Queue::Current, 200), (2, Queue::Next, 200), (3, Queue::Last, 0)] {
        assert_eq!(port.arrive(STREAM, 200, tag), joined(queue, left));
    }
    refused(port.arrive(STREAM, 84, 4), Refusal::Discard, 14);
    assert_eq!([ACCEPTED, DISCARDED, 8, 4].map(|offset| port.read_register(offset)), [3, 1, 1, 3].map(Ok));
    port
}

/// The rest of that table, in which control ticks and transmits; it moves no count but that of frames sent.
#[test]
fn the_first_example_of_the_rule() {
    let mut port = first_rows();
    for (ones, flags) in [(6, 1), (1, 0)] {
        assert_eq!((port.write_register(8, ones), port.read_register(8)), (Ok((0, 0)), Ok(flags)));
    }
    assert_eq!(port.read_register(4), Ok(1));
    for (bits, reply) in [(3, (5, 1)), (1, (0, 0)), (1, (1, 200)), (2, (5, 3)), (2, (254, 0))] {
        assert_eq!(port.write_register(0, bits), Ok(reply));
    }
    assert_eq!((port.flags(), port.frames_sent()), (Flags::from_bits(0b110), 2));
    assert_eq!((port.choice(), port.chosen_counts()), (5, counts(3, 1)));
}

/// The second table, in which the stream is withdrawn and its number granted again.
#[test]
fn the_second_example_of_the_rule() {
    let mut port = first_rows();
    assert_eq!((port.withdraw(STREAM), port.chosen_counts()), (Ok(()), counts(0, 0)));
    refused(port.arrive(STREAM, 84, 5), Refusal::Draining, 25);
    refused(port.withdraw(STREAM), Refusal::Draining, 25);
    for reply in [(0, 0), (1, 200), (1, 200), (1, 200)] {
        assert_eq!((port.write_register(0, 1), port.chosen_counts()), (Ok(reply), counts(0, 0)));
    }
    assert_eq!(port.reserve(STREAM, 200), Ok(Reserved { free: 400 }));
    assert_eq!((port.arrive(STREAM, 84, 6), port.chosen_counts()), (joined(Queue::Current, 116), counts(1, 0)));
    refused(port.withdraw(6), Refusal::NotReserved, 12);
    assert_eq!(port.chosen_counts(), counts(1, 0));
}

/// The third table, with streams at both ends and every sort of frame.
#[test]
fn the_third_example_of_the_rule() {
    let mut port = opened();
    assert_eq!((port.reserve(FIRST, 84), port.reserve(LAST, 200)), (Ok(Reserved { free: 516 }), Ok(Reserved { free: 316 })));
    assert_eq!(port.bind(LAST, &ADDRESS, 1), Ok(()));
    assert_eq!(port.arrive(FIRST, 84, 1), joined(Queue::Current, 84));
    assert_eq!(port.frame(&frame(1)[..SHORTEST_FRAME], 2), joined(Queue::Current, 116).map(Framed::Arrived));
    assert_eq!(port.best_effort(84, 3), waiting(84));
    refused(port.arrive(LAST, 201, 4), Refusal::Discard, 14);
    assert_eq!((port.choice(), port.chosen_counts()), (0, counts(1, 0)));
    for (choice, accepted, discarded) in [(63, 1, 1), (64, 0, 0), (u32::MAX, 0, 0)] {
        assert_eq!((shown(&mut port, choice), port.choice()), (counts(accepted, discarded), choice));
    }
}

/// A tick, or a call of the last stream, with the frames that are bound to it. Whether it was granted.
fn own_call(port: &mut Port, turn: u32) -> bool {
    match turn % 23 {
        0 => port.reserve(LAST, 200).is_ok(),
        1 => port.bind(LAST, &ADDRESS, 1).is_ok(),
        4 | 9 | 13 | 17 | 21 => port.tick().is_ok(),
        11 => turn > 200 && port.withdraw(LAST).is_ok(),
        part if part % 3 == 0 => port.frame(&frame(1)[..SHORTEST_FRAME + turn as usize % 120], turn).is_ok(),
        _ => port.arrive(LAST, 84 + 7 * (turn % 19), turn).is_ok(),
    }
}

/// A call of others: of another stream, of best effort, a transmit, or a controller's choice. Whether it was granted.
fn others_call(port: &mut Port, turn: u32) -> bool {
    match turn % 7 {
        0 => port.reserve(FIRST, 300).is_ok(),
        1 | 2 => port.arrive(FIRST, 84 + 31 * (turn % 11), turn).is_ok(),
        3 => port.best_effort(84 + turn, turn).is_ok(),
        4 => port.transmit().is_ok(),
        5 => port.withdraw(FIRST).is_ok(),
        _ => port.write_register(CHOICE, turn).is_ok(),
    }
}

/// "A stream's counts depend only on ticks, its own calls [...] and which of its reservations are granted": the same after each of its calls and ticks,
/// with others' calls between them and without.
#[test]
fn counts_do_not_depend_on_others() {
    let (mut alone, mut beside) = (opened(), opened());
    let (mut seen, mut granted) = (counts(0, 0), 0);
    for turn in 0..400 {
        granted += (0..turn % 5).filter(|more| others_call(&mut beside, 3 * turn + more)).count();
        own_call(&mut alone, turn);
        own_call(&mut beside, turn);
        assert_eq!(alone.counts_of(LAST), beside.counts_of(LAST), "turn {turn}");
        let now = alone.stream_counts()[usize::from(LAST)];
        seen = counts(seen.accepted.max(now.accepted), seen.discarded.max(now.discarded));
    }
    assert!(seen.accepted > 10 && seen.discarded > 10, "{seen:?}");
    assert!(granted > 200, "others were granted {granted}");
}

/// "They equal the number of such replies since the latest [...] granted withdrawal": counted beside the port, by the replies alone.
#[test]
fn counts_are_the_number_of_replies() {
    let (mut port, mut withdrawn) = (opened(), 0);
    let mut expected = [StreamCounts::default(); STREAMS];
    for turn in 0..4_000_u32 {
        let stream = [FIRST, STREAM, LAST][turn as usize % 3];
        let of_stream = &mut expected[usize::from(stream)];
        match turn % 29 {
            0..=2 => assert_ne!(port.reserve(stream, 150), Err(Refusal::ShareExceeded)),
            5 | 19 => assert!(port.tick().is_ok()),
            28 if turn % 5 == 0 && port.withdraw(stream).is_ok() => (*of_stream, withdrawn) = (counts(0, 0), withdrawn + 1),
            _ => match port.arrive(stream, 84 + turn % 70, turn) {
                Ok(_) => of_stream.accepted += 1,
                Err(Refusal::Discard) => of_stream.discarded += 1,
                Err(_) => (),
            },
        }
        assert_eq!(port.stream_counts(), expected, "turn {turn}");
    }
    assert!(withdrawn > 20, "{withdrawn} withdrawals were granted");
    assert!([FIRST, STREAM, LAST].iter().all(|&stream| expected[usize::from(stream)] != counts(0, 0)), "each stream has counts at the end");
}
