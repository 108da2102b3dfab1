//! The model's own tests of the counts per stream: the sentences of document 02's request "Counts per stream" and of its reading, at both ends of the
//! streams, of the choices and of the counts; and the call that asks for a stream's counts, whatever is chosen.

use super::frame_tests::ADDRESS;
use super::register_tests::{ACCEPTED, BLOCK_OCTETS, CHOICE, DISCARDED, FLAGS, SENT};
use super::tests::{Lent, BLOCK, STREAM};
use crate::call::Call;

/// Both ends of the streams, two in a row, and one among the others.
const SOME: [u8; 5] = [0, 1, STREAM, 62, 63];
/// How many streams there are.
const STREAMS: usize = 64;
/// Where the choice stands in a lent port.
const CHOICE_AT: usize = BLOCK + 12;
/// Choices above 63, also where fewer bits would hide that.
const ABOVE: [u32; 9] = [64, 65, 127, 128, 255, 256 + 5, 65_536 + 5, (1 << 31) + 63, 4_294_967_295];

/// Where the counts of a stream stand in a lent port: accepted, then discarded.
fn counts_at(stream: usize) -> usize {
    BLOCK + 16 + 8 * stream
}

impl Lent {
    /// A port with some streams reserved, each with P 84, among them both ends.
    fn of_some() -> Lent {
        let mut lent = Lent::zeroed();
        assert_eq!(lent.open(2_620, 1), (0, 600, 0));
        SOME.into_iter().for_each(|stream| assert_eq!(lent.reserve(stream, 84).0, 0));
        lent
    }

    /// Plays an Arrive of the least charge on a stream.
    fn offer(&mut self, stream: u8) -> (u8, u32, u32) {
        self.play(Call::Arrive { stream, charge: 84, tag: 9 })
    }

    /// Plays a StreamCounts.
    fn stream_counts(&mut self, stream: u8) -> (u8, u32, u32) {
        self.play(Call::StreamCounts { stream })
    }

    /// What stands in the block for a stream: accepted and discarded.
    fn held(&self, stream: usize) -> (u32, u32) {
        let four = |at: usize| u32::from_be_bytes(self.record[at..at + 4].try_into().expect("four octets"));
        (four(counts_at(stream)), four(counts_at(stream) + 4))
    }

    /// What stands in the block for every stream.
    fn all_held(&self) -> Vec<(u32, u32)> {
        (0..STREAMS).map(|stream| self.held(stream)).collect()
    }

    /// Gives a stream counts.
    fn hold(&mut self, stream: usize, accepted: u32, discarded: u32) {
        self.put_four(counts_at(stream), accepted);
        self.put_four(counts_at(stream) + 4, discarded);
    }

    /// Gives every stream two counts of its own, none of them zero.
    fn hold_all(&mut self) {
        (0..STREAMS).for_each(|stream| self.hold(stream, 1_000 + stream as u32, 2_000 + stream as u32));
    }

    /// What offsets 16 and 20 read once a stream is chosen.
    fn read_of(&mut self, choice: u32) -> (u32, u32) {
        assert_eq!(self.write(CHOICE, choice), (0, 0, 0));
        (self.register(ACCEPTED), self.register(DISCARDED))
    }
}

/// "Accepted and discarded counts are to be held for each stream": an arrival counts for its own stream, three accepted ones, then discards, and no
/// other octet of the block changes but the flag.
#[test]
fn counts_are_held_for_each_stream() {
    for stream in SOME {
        let mut lent = Lent::of_some();
        let mut due = vec![(0, 0); STREAMS];
        for offers in 1..=8 {
            assert_eq!(lent.offer(stream).0, if offers <= 3 { 0 } else { 14 });
            due[usize::from(stream)] = (offers.min(3), offers.max(3) - 3);
            assert_eq!(lent.all_held(), due);
            assert_eq!(lent.register(FLAGS), u32::from(offers > 3));
        }
        assert_eq!(lent.record[BLOCK + 1..counts_at(0)], [0; 15]);
    }
}

/// Streams in turn: each has its own two counts, and "Offsets 16 and 20 show the counts of the stream chosen".
#[test]
fn the_chosen_stream_is_shown() {
    let mut lent = Lent::of_some();
    for (offers, stream) in SOME.into_iter().enumerate() {
        (0..offers + 2).for_each(|_| _ = lent.offer(stream));
    }
    for (choice, due) in
        [(0, (2, 0)), (1, (3, 0)), (2, (0, 0)), (4, (0, 0)), (5, (3, 1)), (6, (0, 0)), (61, (0, 0)), (62, (3, 2)), (63, (3, 3))]
    {
        assert_eq!(lent.read_of(choice), due, "{choice}");
    }
    lent.hold_all();
    for choice in 0..64 {
        assert_eq!(lent.read_of(choice), (1_000 + choice, 2_000 + choice));
    }
}

/// The choice is "0 at opening, kept as written": all 32 bits, high octet first, and no octet besides.
#[test]
fn the_choice_is_kept_as_written() {
    let mut lent = Lent::of_some();
    assert_eq!(lent.register(CHOICE), 0);
    for value in [0x0102_0304, 0, 1, 63, 64, 255, 256, 0x8000_0000, u32::MAX] {
        let mut after = lent.clone();
        assert_eq!(lent.write(CHOICE, value), (0, 0, 0));
        after.put_four(CHOICE_AT, value);
        assert!(lent == after);
        assert_eq!(lent.register(CHOICE), value);
    }
    lent.write(CHOICE, 0x0102_0304);
    assert_eq!(lent.record[CHOICE_AT..CHOICE_AT + 4], [1, 2, 3, 4]);
}

/// "a number above 63 there makes both read zero", reads back as written, and has no other effect: arrivals are counted as before.
#[test]
fn a_choice_above_63_reads_zero() {
    for choice in ABOVE {
        let mut lent = Lent::of_some();
        lent.hold_all();
        assert_eq!(lent.read_of(choice), (0, 0));
        assert_eq!(lent.register(CHOICE), choice);
        assert_eq!(lent.offer(63).0, 0);
        assert_eq!(lent.offer(0).0, 0);
        assert_eq!(lent.held(63), (1_064, 2_063));
        assert_eq!(lent.held(0), (1_001, 2_000));
        assert_eq!(lent.read_of(63), (1_064, 2_063));
    }
}

/// "taken modulo 4,294,967,296": each count of a stream wraps by itself, and those of its neighbours keep their octets.
#[test]
fn counts_of_a_stream_wrap() {
    for stream in [0, 63] {
        let mut lent = Lent::of_some();
        lent.hold_all();
        lent.hold(stream.into(), u32::MAX - 1, u32::MAX - 1);
        let mut due = lent.all_held();
        for (refusal, held) in
            [(0, (u32::MAX, u32::MAX - 1)), (0, (0, u32::MAX - 1)), (0, (1, u32::MAX - 1)), (14, (1, u32::MAX)), (14, (1, 0))]
        {
            assert_eq!(lent.offer(stream).0, refusal);
            due[usize::from(stream)] = held;
            assert_eq!(lent.all_held(), due);
            assert_eq!(lent.read_of(stream.into()), held);
        }
    }
}

/// "Both counts of a stream go to 0 at the granted withdrawal itself": those of that stream alone, and the rest of the block stays.
#[test]
fn a_withdrawal_zeroes_the_counts() {
    for stream in SOME {
        let mut lent = Lent::of_some();
        lent.hold_all();
        lent.write(CHOICE, stream.into());
        lent.record[BLOCK..CHOICE_AT].fill(1);
        let (head, mut due) = (lent.record[..counts_at(0)][BLOCK..].to_vec(), lent.all_held());
        assert_eq!(lent.withdraw(stream), (0, 0, 0));
        due[usize::from(stream)] = (0, 0);
        assert_eq!(lent.all_held(), due);
        assert_eq!(lent.record[BLOCK..counts_at(0)], head);
        assert_eq!((lent.register(ACCEPTED), lent.register(DISCARDED)), (0, 0));
    }
}

/// A withdrawal that is refused, with 1, 5, 25 or 12, keeps every count.
#[test]
fn a_refused_withdrawal_keeps_the_counts() {
    let mut lent = Lent::of_some();
    assert_eq!(lent.withdraw(62), (0, 0, 0));
    lent.hold_all();
    let before = lent.clone();
    for (stream, refusal) in [(62, 25), (2, 12), (64, 5), (128, 5), (255, 5)] {
        assert_eq!(lent.withdraw(stream), (refusal, 0, 0));
        assert!(lent == before);
    }
    lent.record[0] = 0;
    assert_eq!(lent.withdraw(0), (1, 0, 0));
    assert_eq!(lent.all_held(), before.all_held());
}

/// From the withdrawal on nothing is counted for the stream, no tick touches a count, the fourth neither, and a new grant begins at what stands there.
#[test]
fn the_fourth_tick_touches_no_count() {
    let mut lent = Lent::of_some();
    assert_eq!(lent.withdraw(63), (0, 0, 0));
    assert_eq!(lent.offer(63), (25, 0, 0));
    lent.hold_all();
    let due = lent.all_held();
    for _ in 0..4 {
        assert_eq!(lent.offer(63), (25, 0, 0));
        lent.ticks(1);
        assert_eq!(lent.all_held(), due);
    }
    assert_eq!(lent.offer(63), (12, 0, 0));
    assert_eq!(lent.reserve(63, 84).0, 0);
    assert_eq!(lent.all_held(), due);
    assert_eq!(lent.offer(63).0, 0);
    assert_eq!(lent.held(63), (1_064, 2_063));
}

/// "since the latest opening or granted withdrawal": a stream that is granted again counts from 0.
#[test]
fn a_stream_granted_again_counts_from_zero() {
    let mut lent = Lent::of_some();
    (0..5).for_each(|_| _ = lent.offer(0));
    assert_eq!(lent.read_of(0), (3, 2));
    assert_eq!(lent.withdraw(0), (0, 0, 0));
    (0..4).for_each(|_| _ = lent.tick());
    assert_eq!(lent.reserve(0, 84).0, 0);
    assert_eq!(lent.read_of(0), (0, 0));
    assert_eq!(lent.offer(0).0, 0);
    assert_eq!(lent.read_of(0), (1, 0));
}

/// "frames bound to it too": a frame by its octets counts for the stream that it is bound to, accepted or discarded, and while that drains for none.
#[test]
fn frames_count_for_the_stream_they_are_bound_to() {
    for stream in SOME {
        let mut lent = Lent::of_some();
        assert_eq!(lent.bind(stream, ADDRESS, 7), (0, 0, 0));
        let mut due = vec![(0, 0); STREAMS];
        for (length, refusal, held) in [(60, 0, (1, 0)), (61, 14, (1, 1)), (60, 14, (1, 2)), (59, 17, (1, 2))] {
            assert_eq!(lent.tagged([0, 7], length).0, refusal);
            due[usize::from(stream)] = held;
            assert_eq!(lent.all_held(), due);
        }
        assert_eq!(lent.withdraw(stream), (0, 0, 0));
        assert_eq!(lent.tagged([0, 7], 60), (25, 0, 0));
        assert_eq!(lent.all_held(), [(0, 0); STREAMS]);
    }
}

/// "Accepted best-effort frames are counted nowhere any more", by their charge or by their octets; "offset 24 still counts both sorts sent".
#[test]
fn best_effort_is_counted_nowhere() {
    for choice in [0, 5, 63, 64, 255] {
        let mut lent = Lent::of_some();
        lent.write(CHOICE, choice);
        let block = lent.record[BLOCK..].to_vec();
        assert_eq!(lent.best_effort(200, 1), (0, 200, 0));
        assert_eq!(lent.tagged([0, 7], 60), (0, 284, 0));
        assert_eq!(lent.tagged([0, 7], 1_996).0, 16);
        assert_eq!(lent.record[BLOCK..], block);
        assert_eq!(lent.offer(STREAM).0, 0);
        let streams = [0; 4].map(|_| lent.transmit().1);
        assert_eq!((streams, lent.register(SENT)), ([5, 255, 255, 254], 3));
        assert_eq!(lent.held(5), (1, 0));
    }
}

/// "0 at opening": a granted Open zeroes the choice and every count, those of streams that are not reserved too; a refused one zeroes none.
#[test]
fn opening_zeroes_choice_and_counts() {
    let mut lent = Lent::of_some();
    lent.hold_all();
    lent.write(CHOICE, 63);
    let before = lent.clone();
    assert_eq!(lent.open(2_620, 1), (2, 0, 0));
    assert!(lent == before);
    lent.record[0] = 0;
    assert_eq!(lent.open(2_620, 0), (4, 0, 0));
    assert_eq!((lent.register(CHOICE), lent.all_held()), (63, before.all_held()));
    assert_eq!(lent.open(2_620, 1), (0, 600, 0));
    assert_eq!((lent.register(CHOICE), lent.all_held()), (0, vec![(0, 0); STREAMS]));
}

/// Writes of 16, 20 and 24 do nothing, whatever is chosen.
#[test]
fn written_counts_do_nothing() {
    for choice in [0, 5, 63, 64, u32::MAX] {
        let mut lent = Lent::of_some();
        lent.hold_all();
        lent.write(CHOICE, choice);
        let before = lent.clone();
        for (offset, value) in [ACCEPTED, DISCARDED, SENT].into_iter().flat_map(|offset| [0, 1, 63, u32::MAX].map(|value| (offset, value)))
        {
            assert_eq!(lent.write(offset, value), (0, 0, 0));
            assert!(lent == before);
        }
    }
}

/// A closed port keeps the choice as written, and shows the counts of the stream chosen.
#[test]
fn a_closed_port_has_choice_and_counts() {
    let mut lent = Lent::of_some();
    lent.hold_all();
    lent.record[0] = 0;
    assert_eq!(lent.read_of(63), (1_063, 2_063));
    assert_eq!(lent.read_of(64), (0, 0));
    assert_eq!(lent.register(CHOICE), 64);
    assert_eq!(lent.stream_counts(63), (0, 1_063, 2_063));
}

/// The counts of every stream are replied, reserved or not, whatever is chosen, and nothing is written: the choice stays the controller's.
#[test]
fn stream_counts_of_every_stream() {
    let mut lent = Lent::of_some();
    lent.hold_all();
    lent.hold(63, u32::MAX, 0);
    for choice in [0, 63, 64, 0xEEEE_EEEE] {
        lent.write(CHOICE, choice);
        let before = lent.clone();
        for stream in 0..63 {
            assert_eq!(lent.stream_counts(stream), (0, 1_000 + u32::from(stream), 2_000 + u32::from(stream)));
        }
        assert_eq!(lent.stream_counts(63), (0, u32::MAX, 0));
        assert!(lent == before);
    }
}

/// A question for a stream's counts is refused with 19 where the port is too short, then with 5 where the stream is above 63, and with nothing else.
#[test]
fn refusals_of_stream_counts() {
    let mut whole = Lent::of_some();
    whole.hold_all();
    for (length, short) in [(0, true), (1_087, true), (1_088, true), (1_615, true), (1_616, false), (1_617, false), (3_000, false)] {
        let mut lent = Lent { record: whole.record.clone(), memory: Vec::new() };
        lent.record.resize(length, 0xEE);
        let before = lent.clone();
        for stream in [0, 63] {
            let granted = (0, 1_000 + u32::from(stream), 2_000 + u32::from(stream));
            assert_eq!(lent.stream_counts(stream), if short { (19, 0, 0) } else { granted });
        }
        for stream in [64, 65, 127, 128, 191, 255] {
            assert_eq!(lent.stream_counts(stream), (if short { 19 } else { 5 }, 0, 0));
        }
        assert!(lent == before);
    }
}

/// Records that are not fit are taken, closed ports, and blocks of any content.
#[test]
fn stream_counts_of_any_record() {
    let mut lent = Lent::of_some();
    lent.record[..BLOCK].fill(0xEE);
    lent.record[BLOCK..BLOCK + BLOCK_OCTETS].fill(0xEE);
    assert_eq!(lent.tick(), (19, 0, 0));
    lent.hold(7, 0x0102_0304, 0x0506_0708);
    assert_eq!(lent.record[counts_at(7)..counts_at(8)], [1, 2, 3, 4, 5, 6, 7, 8]);
    assert_eq!(lent.stream_counts(7), (0, 0x0102_0304, 0x0506_0708));
    assert_eq!(lent.stream_counts(8), (0, 0xEEEE_EEEE, 0xEEEE_EEEE));
    assert_eq!(Lent::zeroed().stream_counts(63), (0, 0, 0));
}
