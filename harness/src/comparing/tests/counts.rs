//! The kind `counts`: the counts of each stream, the choice that shows them and the call that asks for them, with the replies and octets that document
//! 02, "Counts per stream", and its reading give: in lists, on ports of any content and length, at both ends of streams, choices and counts.

use crate::call::{Call, Reply};
use crate::comparing::calls::{Profile, Weights, NEVER, ORDINARY};
use crate::comparing::compared::Compared;
use crate::comparing::counts::{questions, Counting, CHOICES_ABOVE, STREAMS_ABOVE};
use crate::comparing::coverage::Seen;
use crate::comparing::fenced::EDGES;
use crate::comparing::fit::Octets;
use crate::comparing::profiles::FULL_LINK;
use crate::comparing::random::Random;
use crate::comparing::registers::{ACCEPTED, CHOICE, DISCARDED, EVERY_COUNT, SENT};
use crate::comparing::shapes::{any_open, extreme, with_lengths, SHAPES};
use crate::comparing::sides::Side;
use crate::comparing::stated::{Stated, BOTH_SORTS};
use crate::comparing::test::{Kind, Run, Test};
use crate::comparing::tests::lists::{a_closed_port, an_open_port, any_port, never_met_from_opening, play, Plan};
use crate::comparing::tests::registers::{read, value, write, ZEROS};

/// The tests of this kind.
pub const TESTS: [Test; 12] = [
    test("counts_of_a_list", counts_of_a_list),
    test("counts_of_frames_and_best_effort", counts_of_frames_and_best_effort),
    test("counts_at_every_choice", counts_at_every_choice),
    test("counts_of_every_stream", counts_of_every_stream),
    test("counts_at_withdrawals", counts_at_withdrawals),
    test("counts_over_the_drain", counts_over_the_drain),
    test("counts_in_lists", counts_in_lists),
    test("counts_in_lists_from_any_port", counts_in_lists_from_any_port),
    test("counts_by_choice_and_by_question", counts_by_choice_and_by_question),
    test("stream_counts_on_every_shape", stream_counts_on_every_shape),
    test("stream_counts_at_all_lengths", stream_counts_at_all_lengths),
    test("stream_counts_write_nothing", stream_counts_write_nothing),
];

/// A test of this kind.
const fn test(name: &'static str, body: fn(&mut Run) -> Result<(), String>) -> Test {
    Test { kind: Kind::Counts, name, body }
}

/// What each call on fit records meets of choices and counts, both ends among it.
pub const OF_COUNTS: [Counting; 6] =
    [Counting::Shown, Counting::ShownOfFirst, Counting::ShownOfLast, Counting::NotShown, Counting::OfUnchosen, Counting::Asked];
/// What questions on ports of every length meet.
pub const QUESTIONS: [Counting; 5] =
    [Counting::Asked, Counting::AskedUnchosen, Counting::RefusedShort, Counting::RefusedAbove, Counting::RefusedShortAndAbove];

/// The octets of a lent port, those of its record, after which its register block begins, and where in it the counts of stream 0 stand.
const PORT: usize = 1_616;
const RECORD: usize = 1_088;
const COUNTS: usize = RECORD + 16;

/// What is asked of so many kinds of counting, so many times at full size.
fn met<const N: usize>(counting: [Counting; N], times: u64) -> [(Seen, u64); N] {
    counting.map(|counting| (Seen::Counting(counting), times))
}

/// An Arrive on a stream.
const fn arrive(stream: u8, charge: u32) -> Call {
    Call::Arrive { stream, charge, tag: 7 }
}

/// A question for the counts of a stream.
const fn asked(stream: u8) -> Call {
    Call::StreamCounts { stream }
}

/// What streams 0 (P 84), 5 (P 200) and 63 (P 84) of a port with L 2,620 and K 1 have counted, step by step, and what each step replies.
const LIST: [(Call, Reply); 38] = [
    (read(CHOICE), ZEROS),
    (arrive(0, 84), Reply::granted(1, 84)),
    (read(ACCEPTED), value(1)),
    (arrive(63, 84), Reply::granted(1, 84)),
    (arrive(63, 85), Reply::refused(14)),
    (arrive(63, 84), Reply::refused(14)),
    (arrive(5, 120), Reply::granted(1, 80)),
    (arrive(5, 83), Reply::refused(13)),
    (Call::BestEffort { charge: 2_020, tag: 9 }, Reply::granted(2_020, 0)),
    (read(ACCEPTED), value(1)),
    (read(DISCARDED), ZEROS),
    (write(CHOICE, 63), ZEROS),
    (read(CHOICE), value(63)),
    (read(ACCEPTED), value(1)),
    (read(DISCARDED), value(2)),
    (write(CHOICE, 64), ZEROS),
    (read(CHOICE), value(64)),
    (read(ACCEPTED), ZEROS),
    (read(DISCARDED), ZEROS),
    (write(CHOICE, u32::MAX), ZEROS),
    (read(CHOICE), value(u32::MAX)),
    (read(ACCEPTED), ZEROS),
    (arrive(5, 84), Reply::granted(2, 116)),
    (write(CHOICE, 256 + 5), ZEROS),
    (read(ACCEPTED), ZEROS),
    (write(CHOICE, 5), ZEROS),
    (read(ACCEPTED), value(2)),
    (read(DISCARDED), ZEROS),
    (write(CHOICE, 62), ZEROS),
    (read(ACCEPTED), ZEROS),
    (Call::Transmit, Reply::granted(0, 7)),
    (read(SENT), value(1)),
    (asked(0), Reply::granted(1, 0)),
    (asked(5), Reply::granted(2, 0)),
    (asked(62), ZEROS),
    (asked(63), Reply::granted(1, 2)),
    (asked(64), Reply::refused(5)),
    (read(CHOICE), value(62)),
];

/// The same port where stream 63 is withdrawn, drains and is granted again, and where the host closes it and opens it again.
const WITHDRAWN: [(Call, Reply); 24] = [
    (Call::Withdraw { stream: 62 }, Reply::refused(12)),
    (Call::Withdraw { stream: 64 }, Reply::refused(5)),
    (asked(63), Reply::granted(1, 2)),
    (write(CHOICE, 63), ZEROS),
    (Call::Withdraw { stream: 63 }, ZEROS),
    (read(ACCEPTED), ZEROS),
    (read(DISCARDED), ZEROS),
    (read(CHOICE), value(63)),
    (arrive(63, 84), Reply::refused(25)),
    (Call::Withdraw { stream: 63 }, Reply::refused(25)),
    (asked(63), ZEROS),
    (asked(5), Reply::granted(2, 0)),
    (write(0, 1), ZEROS),
    (Call::Transmit, Reply::granted(63, 7)),
    (Call::Transmit, Reply::granted(5, 7)),
    (Call::Transmit, Reply::granted(5, 7)),
    (Call::Tick, ZEROS),
    (Call::Tick, ZEROS),
    (write(0, 1), ZEROS),
    (Call::Reserve { stream: 63, permitted: 84 }, Reply::granted(232, 0)),
    (read(ACCEPTED), ZEROS),
    (arrive(63, 84), Reply::granted(1, 84)),
    (read(ACCEPTED), value(1)),
    (asked(0), Reply::granted(1, 0)),
];

/// A list whose replies are written down: both ends of the streams and of the choices, a withdrawal, granted and refused, and an opening.
fn counts_of_a_list(run: &mut Run) -> Result<(), String> {
    for sides in BOTH_SORTS {
        let mut list = Stated::opened(run, sides, 2_620, 1, &[(0, 84), (5, 200), (63, 84)])?;
        LIST.iter().chain(&WITHDRAWN).try_for_each(|(call, reply)| list.call(call.clone(), *reply))?;
        list.close();
        list.call(read(ACCEPTED), value(1))?;
        list.call(asked(5), Reply::granted(2, 0))?;
        list.call(Call::Withdraw { stream: 63 }, Reply::refused(1))?;
        list.call(Call::Open { link: 2_620, delay: 0 }, Reply::refused(4))?;
        list.call(asked(63), Reply::granted(1, 0))?;
        list.call(Call::Open { link: 2_620, delay: 1 }, Reply::granted(600, 0))?;
        list.call(read(CHOICE), ZEROS)?;
        [0, 5, 63].into_iter().try_for_each(|stream| list.call(asked(stream), ZEROS))?;
    }
    run.demand(&met([Counting::OfFirst, Counting::OfLast, Counting::Zeroed, Counting::KeptWhenRefused], 2))
}

/// The counts of all streams, by questions: those of these streams, and zeros of all others.
fn counted(list: &mut Stated, counts: &[(u8, u32, u32)]) -> Result<(), String> {
    (0..64).try_for_each(|stream| {
        let counted =
            counts.iter().find(|(number, ..)| *number == stream).map_or((0, 0), |&(_, accepted, discarded)| (accepted, discarded));
        list.call(asked(stream), Reply::granted(counted.0, counted.1))
    })
}

/// "frames bound to it too": a frame counts for the stream that it is bound to, whatever is chosen, and "Accepted best-effort frames are counted
/// nowhere", by their charge or by their octets; 16, 17 and 25 count nothing.
fn counts_of_frames_and_best_effort(run: &mut Run) -> Result<(), String> {
    let frame = |vid: u8, length: usize| {
        let mut octets = [&[2; 6][..], &[0; 6], &[0x81, 0x00, 0x00, vid]].concat();
        octets.resize(length, 0);
        Call::Frame { octets: octets.into(), tag: 3 }
    };
    for sides in BOTH_SORTS {
        for (choice, stream) in [(0, 63), (63, 63), (64, 63), (63, 0), (0, 0), (255, 31), (1, 31)] {
            let mut list = Stated::opened(run, sides, 2_620, 1, &[(stream, 200), (30, 84)])?;
            list.bound(stream, ([2; 6], 7))?;
            list.call(write(CHOICE, choice), ZEROS)?;
            list.call(frame(7, 60), Reply::granted(1, 116))?;
            list.call(frame(8, 60), Reply::granted(84, 0))?;
            list.call(Call::BestEffort { charge: 400, tag: 1 }, Reply::granted(484, 0))?;
            counted(&mut list, &[(stream, 1, 0)])?;
            list.call(frame(7, 177), Reply::refused(14))?;
            list.call(arrive(stream, 84), Reply::refused(14))?;
            list.call(frame(7, 59), Reply::refused(17))?;
            list.call(frame(8, 1_996), Reply::refused(16))?;
            list.call(arrive(30, 84), Reply::granted(1, 84))?;
            counted(&mut list, &[(stream, 1, 2), (30, 1, 0)])?;
            list.withdrawn(stream)?;
            list.call(frame(7, 60), Reply::refused(25))?;
            counted(&mut list, &[(30, 1, 0)])?;
            let sent = [Call::Transmit, write(0, 2), Call::Transmit, write(0, 2)];
            let streams = [u32::from(stream), 30, 255, 255].into_iter().zip([3, 7, 3, 1]);
            sent.into_iter().zip(streams).try_for_each(|(call, (first, second))| list.call(call, Reply::granted(first, second)))?;
            list.call(read(SENT), value(4))?;
        }
    }
    run.demand(&met([Counting::OfUnchosen, Counting::OfFirst, Counting::OfLast, Counting::Zeroed], 2))
}

/// The port with counts of its own for every stream, none of them 0.
fn with_counts(octets: &Octets) -> Octets {
    let mut octets = octets.clone();
    for stream in 0..64 {
        put_counts(&mut octets, stream, 0x0101_0000 + stream as u32, 0x0202_0000 + stream as u32);
    }
    octets
}

/// Gives a stream two counts.
fn put_counts(octets: &mut Octets, stream: usize, accepted: u32, discarded: u32) {
    let at = COUNTS + 8 * stream;
    octets.record[at..at + 4].copy_from_slice(&accepted.to_be_bytes());
    octets.record[at + 4..at + 8].copy_from_slice(&discarded.to_be_bytes());
}

/// Each choice, of a stream or above 63, is kept as written and shows that stream's counts or zeros, on open and closed ports of any content; the
/// other registers stay what they are.
fn counts_at_every_choice(run: &mut Run) -> Result<(), String> {
    for _ in 0..run.scaled(20) {
        for sides in BOTH_SORTS {
            let mut random = run.next_record("every choice");
            let octets = with_counts(&any_port(&mut random));
            let mut compared = Compared::guarded(sides, run, &octets.record, &octets.memory);
            for choice in (0..64).chain(CHOICES_ABOVE) {
                let counts = if choice > 63 { [0, 0] } else { [0x0101_0000 + choice, 0x0202_0000 + choice] };
                compared.expect(run, &write(CHOICE, choice), |reply| *reply == ZEROS, "0 0 0")?;
                for (offset, register) in [(CHOICE, choice), (ACCEPTED, counts[0]), (DISCARDED, counts[1]), (32, 0)] {
                    compared.expect(run, &read(offset), |reply| *reply == value(register), &value(register).to_string())?;
                }
            }
        }
    }
    run.demand(&met([Counting::Shown], 4_000))?;
    run.demand(&met([Counting::ShownOfFirst, Counting::ShownOfLast], 60))?;
    run.demand(&met([Counting::NotShown], 800))
}

/// Counts from which one more is far, near the end, and at it.
const BEFORE: [u32; 5] = [0, 0x0000_ffff, 0x00ff_ffff, u32::MAX - 1, u32::MAX];

/// An accepted frame and a discard on each stream, at the ends of its counts: its own count alone becomes one more, 4,294,967,295 to 0, and no other
/// octet of the block changes but the flag.
fn counts_of_every_stream(run: &mut Run) -> Result<(), String> {
    let streams: Vec<(u8, u32)> = (0..64).map(|stream| (stream, 336)).collect();
    for sides in BOTH_SORTS {
        let mut list = Stated::opened(run, sides, FULL_LINK, 1, &streams)?;
        let begin = with_counts(&list.octets());
        for (stream, before) in (0..64).flat_map(|stream| BEFORE.map(|before| (stream, before))) {
            let (mut octets, next) = (begin.clone(), before.wrapping_add(1));
            put_counts(&mut octets, stream, before, before ^ 1);
            list.lend_again(&octets);
            list.call(arrive(stream as u8, 84), Reply::granted(1, 252))?;
            put_counts(&mut octets, stream, next, before ^ 1);
            block_is(&list, &octets, "an accepted frame")?;
            put_counts(&mut octets, stream, next, before);
            list.lend_again(&octets);
            list.call(arrive(stream as u8, 337), Reply::refused(14))?;
            put_counts(&mut octets, stream, next, next);
            octets.record[RECORD] = 1;
            block_is(&list, &octets, "a discard")?;
        }
    }
    run.demand(&EVERY_COUNT[..2].iter().map(|&count| (Seen::CountWrapped(count), 128)).collect::<Vec<_>>())?;
    run.demand(&met([Counting::OfFirst, Counting::OfLast], 20))
}

/// The register block is that of a port.
fn block_is(list: &Stated, octets: &Octets, what: &str) -> Result<(), String> {
    match list.record()[RECORD..PORT] == octets.record[RECORD..PORT] {
        true => Ok(()),
        false => Err(format!("{what} leaves other octets in the register block than are named")),
    }
}

/// A granted withdrawal of each stream zeroes both of its counts and no other octet of the block; one that is refused, with 25, 12, 5 or 1, none.
fn counts_at_withdrawals(run: &mut Run) -> Result<(), String> {
    let streams: Vec<(u8, u32)> = (0..62).chain([63]).map(|stream| (stream, 336)).collect();
    for sides in BOTH_SORTS {
        let mut list = Stated::opened(run, sides, FULL_LINK, 1, &streams)?;
        let begin = with_counts(&list.octets());
        for &(stream, _) in &streams {
            list.lend_again(&begin);
            list.withdrawn(stream)?;
            let mut octets = list.octets();
            put_counts(&mut octets, stream.into(), 3, 4);
            list.lend_again(&octets);
            list.call(Call::Withdraw { stream }, Reply::refused(25))?;
            list.call(Call::Withdraw { stream: 62 }, Reply::refused(12))?;
            STREAMS_ABOVE.into_iter().try_for_each(|above| list.call(Call::Withdraw { stream: above }, Reply::refused(5)))?;
            list.close();
            list.call(Call::Withdraw { stream }, Reply::refused(1))?;
            block_is(&list, &octets, "a refused withdrawal")?;
        }
    }
    run.demand(&met([Counting::Zeroed], 126))?;
    run.demand(&met([Counting::KeptWhenRefused], 300))
}

/// Once a stream is withdrawn nothing is counted for it, and what the host may put there no tick touches, the fourth neither; a new grant counts on
/// from there.
fn counts_over_the_drain(run: &mut Run) -> Result<(), String> {
    for sides in BOTH_SORTS {
        for stream in [0, 1, 31, 62, 63] {
            let mut list = Stated::opened(run, sides, 2_620, 1, &[(stream, 84), (30, 84)])?;
            list.withdrawn(stream)?;
            let mut octets = with_counts(&list.octets());
            list.lend_again(&octets);
            for tick in [Call::Tick, write(0, 1), Call::Tick, write(0, 1)] {
                list.call(arrive(stream, 84), Reply::refused(25))?;
                list.call(tick, ZEROS)?;
                block_is(&list, &octets, "a tick")?;
            }
            list.call(arrive(stream, 84), Reply::refused(12))?;
            list.call(Call::Reserve { stream, permitted: 84 }, Reply::granted(432, 0))?;
            block_is(&list, &octets, "a reservation")?;
            list.call(arrive(stream, 84), Reply::granted(1, 84))?;
            put_counts(&mut octets, stream.into(), 0x0101_0001 + u32::from(stream), 0x0202_0000 + u32::from(stream));
            block_is(&list, &octets, "an accepted frame")?;
        }
    }
    run.demand(&met([Counting::KeptWhenFreed], 10))
}

/// Registers read and streams chosen again and again, beside arrivals that press what is left, frames, and withdrawals with ticks enough to drain.
const COUNTING: Profile = Profile {
    weights: Weights {
        reserve: 20,
        arrive: 60,
        tick: 14,
        transmit: 10,
        best_effort: 6,
        bind: 12,
        frame: 30,
        withdraw: 5,
        read_register: 70,
        write_register: 40,
        ..NEVER
    },
    links: 5_000..=FULL_LINK,
    edges: 4,
    ..ORDINARY
};

/// The same with few streams at either end, or with all.
fn counting(random: &mut Random) -> Profile {
    let (first, streams) = random.pick(&[(0, 2), (0, 6), (58, 64), (62, 64), (0, 64)]);
    Profile { first, streams, ..COUNTING }
}

/// Lists from an opening, the calls beside the model and the quick calls beside the calls.
fn counts_in_lists(run: &mut Run) -> Result<(), String> {
    for sides in [[Side::Exports, Side::Model], [Side::Quick, Side::Exports]] {
        play(run, sides, &Plan { lists: 150, calls: 600, begin: a_closed_port }, counting)?;
    }
    never_met_from_opening(run)?;
    run.demand(&met([Counting::Shown], 2_000))?;
    run.demand(&met([Counting::Chosen, Counting::ChosenAbove], 1_000))?;
    run.demand(&met([Counting::NotShown], 400))?;
    run.demand(&met([Counting::ShownOfFirst, Counting::ShownOfLast], 40))?;
    run.demand(&met([Counting::OfFirst, Counting::OfLast, Counting::Zeroed], 100))?;
    run.demand(&[(Seen::FrameArrived, 1_500), (Seen::FrameBestEffort, 2_000), (Seen::Freed, 500), (Seen::GrantedAgain, 200)])
}

/// Lists from open ports of any content, fit for the calls and far outside that for the quick calls, whose counts are at their ends or anywhere.
fn counts_in_lists_from_any_port(run: &mut Run) -> Result<(), String> {
    for sides in BOTH_SORTS {
        play(run, sides, &Plan { lists: 200, calls: 200, begin: an_open_port }, counting)?;
    }
    for begin in [extreme, any_open] {
        play(run, [Side::Quick, Side::InPlace], &Plan { lists: 200, calls: 200, begin }, counting)?;
    }
    run.demand(&EVERY_COUNT.map(|count| (Seen::CountWrapped(count), 100)))?;
    run.demand(&met([Counting::Shown, Counting::NotShown, Counting::OfUnchosen], 2_000))?;
    run.demand(&met([Counting::OfFirst, Counting::OfLast, Counting::Zeroed, Counting::KeptWhenRefused, Counting::KeptWhenFreed], 100))
}

/// What offsets 16 and 20 read once a stream is chosen is what a question for its counts replies, whatever was chosen before; on records that are not
/// fit by the quick accesses.
fn counts_by_choice_and_by_question(run: &mut Run) -> Result<(), String> {
    for (number, shape) in (0..run.scaled(100)).flat_map(|number| SHAPES.map(|shape| (number, shape))) {
        let mut random = run.next_record(shape.0);
        let sort = usize::from(shape.0 != "fit" || number % 2 == 1);
        let octets = shape.1(&mut random);
        let mut compared = Compared::guarded(BOTH_SORTS[sort], run, &octets.record, &octets.memory);
        for stream in 0..64 {
            let counts = compared.call(run, &asked(stream))?;
            compared.expect(run, &write(CHOICE, stream.into()), |reply| *reply == ZEROS, "0 0 0")?;
            for (offset, count) in [(ACCEPTED, counts.first), (DISCARDED, counts.second)] {
                compared.expect(run, &read(offset), |reply| *reply == value(count), "the count that a question replies")?;
            }
        }
    }
    run.demand(&met([Counting::Asked, Counting::AskedUnchosen, Counting::Shown], 20_000))?;
    run.demand(&met([Counting::ShownOfFirst, Counting::ShownOfLast], 500))
}

/// Questions on records of every shape, fit or far from it, without a memory.
fn stream_counts_on_every_shape(run: &mut Run) -> Result<(), String> {
    for shape in SHAPES {
        for sides in BOTH_SORTS {
            for _ in 0..run.scaled(500) {
                let mut random = run.next_record(shape.0);
                let Octets { record, .. } = shape.1(&mut random);
                let mut compared = Compared::guarded(sides, run, &record, &[]);
                questions(&mut random, &record).iter().try_for_each(|question| compared.call(run, question).map(drop))?;
            }
        }
    }
    run.demand(&met([Counting::Asked, Counting::AskedUnchosen, Counting::AskedUnreserved, Counting::RefusedAbove], 20_000))?;
    run.demand(&met([Counting::AskedClosed], 10_000))
}

/// Lengths about that of a record and that of a port, those that end within the counts, and others.
fn lengths() -> Vec<usize> {
    let about = |length: usize| length - 9..=length + 9;
    [0, 1, 16, 64, 528, 1_104, 1_112, 1_600].into_iter().chain(about(RECORD)).chain(about(PORT)).chain([3_000, 65_536]).collect()
}

/// A port that is too short is 19 and two zeros, whatever the stream; on a longer one a stream above 63 is 5; between fences as between guards.
fn stream_counts_at_all_lengths(run: &mut Run) -> Result<(), String> {
    for (number, length) in lengths().repeat(run.scaled(30)).into_iter().enumerate() {
        let mut random = run.next_record(&format!("any port, length {length}"));
        let octets = any_port(&mut random);
        let questions = questions(&mut random, &octets.record);
        let Octets { record, .. } = with_lengths(&octets, &mut random, length, 0);
        let edges = [(); 3].map(|()| random.pick(&EDGES));
        let mut compared = match number % 3 {
            0 => Compared::fenced(Side::Exports, run, &record, &[], edges),
            sort => Compared::guarded(BOTH_SORTS[sort - 1], run, &record, &[]),
        };
        for question in &questions {
            let above = matches!(question, Call::StreamCounts { stream } if *stream > 63);
            let refusal = [(length < PORT, 19), (above, 5)].into_iter().find(|(holds, _)| *holds).map_or(0, |(_, refusal)| refusal);
            compared.expect(run, question, |reply| reply.refusal == refusal, &format!("refusal {refusal}"))?;
        }
    }
    run.demand(&met(QUESTIONS, 2_000))?;
    run.demand(&met([Counting::AskedClosed, Counting::AskedUnreserved], 1_000))
}

/// The proved question leaves every octet of port and memory as it was, the choice too, on records of every shape.
fn stream_counts_write_nothing(run: &mut Run) -> Result<(), String> {
    for shape in SHAPES {
        for _ in 0..run.scaled(200) {
            let mut random = run.next_record(shape.0);
            let octets = shape.1(&mut random);
            let mut compared = Compared::guarded(BOTH_SORTS[0], run, &octets.record, &octets.memory);
            for question in questions(&mut random, &octets.record) {
                compared.call(run, &question)?;
            }
            if compared.record() != octets.record || compared.memory() != octets.memory {
                return Err(format!("{}: questions write an octet of the port or the memory", run.place));
            }
        }
    }
    run.demand(&met([Counting::Asked, Counting::AskedUnchosen, Counting::RefusedAbove], 5_000))
}
