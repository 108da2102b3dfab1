//! The kind `registers`, lists: reads and writes of registers beside all other calls, control writes held against the named calls, and the registers
//! against what a test tracks itself by the replies.

use std::array;

use crate::call::{Call, Reply};
use crate::comparing::calls::{Profile, Weights};
use crate::comparing::compared::{Compared, Step};
use crate::comparing::counts::{any_choice, Counting};
use crate::comparing::coverage::{prior_waits, Seen};
use crate::comparing::fit::Octets;
use crate::comparing::frames::stream_of;
use crate::comparing::profiles::{any_profile, REGISTERS};
use crate::comparing::random::Random;
use crate::comparing::registers::{ticks, Held, CHOICE, CONTROL, EVERY_COUNT, FLAGS, MASK};
use crate::comparing::shapes::{any_open, extreme};
use crate::comparing::sides::Side;
use crate::comparing::stated::BOTH_SORTS;
use crate::comparing::test::{Run, Test};
use crate::comparing::tests::lists::{a_closed_port, an_open_port, any_port, never_met_from_opening, play, Plan};
use crate::comparing::tests::registers::{each_flag_and_count, read, test, value, write, ZEROS};
use crate::layout;
use crate::model::port::STREAMS;
use crate::model::refusal::*;

/// The tests of this file.
pub const TESTS: [Test; 6] = [
    test("control_writes_as_named_calls", control_writes_as_named_calls),
    test("registers_as_tracked_by_replies", registers_as_tracked_by_replies),
    test("registers_in_lists", registers_in_lists),
    test("registers_in_lists_from_any_port", registers_in_lists_from_any_port),
    test("registers_on_ports_opened_again", registers_on_ports_opened_again),
    test("registers_on_unfit_records", registers_on_unfit_records),
];

/// A step of a list that is played twice: by named calls alone, and with control writes in their place.
struct Twice {
    named: Vec<Call>,
    written: Call,
}

/// A step of such a list: a tick, a transmit, both or neither by control, with any bits above, or a call that is the same in both.
fn twice(random: &mut Random, port: &[u8], profile: &Profile) -> Twice {
    let above = random.number() & !3;
    let above = random.pick(&[0, 0, above]);
    let by_control = |named: &[Call], bits: u32| Twice { named: named.to_vec(), written: write(CONTROL, above | bits) };
    match random.weighted(&[3, 5, 5, 1, 12]) {
        0 => by_control(&[Call::Tick], 1),
        1 => by_control(&[Call::Transmit], 2),
        2 => by_control(&[Call::Tick, Call::Transmit], 3),
        3 => by_control(&[], 0),
        _ => match profile.step(random, port) {
            Step::Call(call) => Twice { named: vec![call.clone()], written: call },
            Step::HostWrites { .. } => by_control(&[], 0),
        },
    }
}

/// "Any list of control writes does to the port what the named calls do": the same list by named calls and by control writes, on two copies of a
/// port; the replies, of which a control write has that of its last call, and every octet are the same.
fn control_writes_as_named_calls(run: &mut Run) -> Result<(), String> {
    for side in [Side::Exports, Side::Quick, Side::Model, Side::InPlace] {
        for number in 0..run.scaled(100) {
            let mut random = run.next_list();
            let unfit = [Side::Quick, Side::InPlace].contains(&side) && number % 3 == 0;
            let begin = if unfit { random.pick(&[extreme, any_open])(&mut random) } else { any_port(&mut random) };
            let profile = any_profile(&mut random);
            by_both(run, &mut random, side, &begin, &profile)?;
        }
    }
    run.demand(&[(Seen::ControlTicked, 4_000), (Seen::ControlTransmitted, 4_000), (Seen::ControlDidBoth, 4_000)])?;
    run.demand(&[(Seen::ControlDidNeither, 1_000), (Seen::WriteRefused(PORT_CLOSED), 150)])
}

/// Plays one such list on a side.
fn by_both(run: &mut Run, random: &mut Random, side: Side, begin: &Octets, profile: &Profile) -> Result<(), String> {
    let play = run.sides.play(side);
    let (mut by_name, mut by_control) = (begin.clone(), begin.clone());
    for _ in 0..200 {
        let Twice { named, written } = twice(random, &by_name.record, profile);
        let replies = named.iter().map(|call| play(&call.given(), &mut by_name.record, &mut by_name.memory));
        let last = replies.last().unwrap_or(ZEROS);
        let reply = play(&written.given(), &mut by_control.record, &mut by_control.memory);
        run.calls += 1 + named.len() as u64;
        run.coverage.count_access(&written, &reply);
        if reply != last || by_name != by_control {
            let names: Vec<String> = named.iter().map(Call::to_string).collect();
            return Err(format!("{}, {side}: {written} replies {reply}; {} replies {last}, or octets differ", run.place, names.join(", ")));
        }
    }
    Ok(())
}

/// Flags, mask, choice and counts, accepted and discarded of each stream, as a test tracks them by calls and replies alone, but for a purge in a
/// control write with both bits and the stream that a frame is bound to, which the record before them shows.
struct Tracked {
    flags: [bool; 3],
    mask: u32,
    sent: u32,
    choice: u32,
    counts: [[u32; 2]; STREAMS],
    open: bool,
}

impl Tracked {
    /// What a port holds.
    fn of(port: &[u8]) -> Tracked {
        let held = Held::of(port).expect("the port is long enough");
        let Held { marks, mask, sent, choice, .. } = held;
        let counts = array::from_fn(|stream| held.counts_of(stream));
        Tracked { flags: marks.map(|mark| mark == 1), mask, sent, choice, counts, open: port[layout::OPEN] == 1 }
    }

    /// A port that was just opened.
    fn opened() -> Tracked {
        Tracked { flags: [false; 3], mask: 0, sent: 0, choice: 0, counts: [[0; 2]; STREAMS], open: true }
    }

    /// Follows a call by its reply; the record before it says whether frames waited in prior, and which stream a frame is bound to.
    fn follow(&mut self, call: &Call, reply: &Reply, before: &Before) {
        match (call, reply.refusal) {
            (Call::Open { .. }, 0) => *self = Tracked::opened(),
            (Call::Arrive { .. } | Call::Frame { .. }, 0) => {
                before.stream.into_iter().for_each(|stream| one_more(&mut self.counts[stream][0]))
            }
            (_, 14) => {
                self.flags[0] = true;
                before.stream.into_iter().for_each(|stream| one_more(&mut self.counts[stream][1]));
            }
            (Call::Withdraw { stream }, 0) => self.counts[usize::from(*stream)] = [0; 2],
            (Call::Transmit, 0) => self.transmitted(reply),
            (Call::WriteRegister { offset: FLAGS, value }, 0) => {
                self.flags.iter_mut().enumerate().for_each(|(bit, flag)| *flag = *flag && value >> bit & 1 == 0);
            }
            (Call::WriteRegister { offset: MASK, value }, 0) => self.mask = *value,
            (Call::WriteRegister { offset: CHOICE, value }, 0) => self.choice = *value,
            (Call::WriteRegister { offset: CONTROL, value }, 0) if value & 2 != 0 => self.transmitted(reply),
            _ => (),
        }
        self.flags[1] |= reply.refusal == 0 && before.prior_waited && ticks(call);
    }

    /// A granted Transmit.
    fn transmitted(&mut self, reply: &Reply) {
        match reply.first {
            254 => self.flags[2] = true,
            _ => one_more(&mut self.sent),
        }
    }

    /// What a read of each register must reply.
    fn registers(&self) -> [(u32, u32); 9] {
        let flags = self.flags.iter().rev().fold(0, |bits, &flag| bits << 1 | u32::from(flag));
        let line = if flags & self.mask == 0 { 0 } else { 2 };
        let [accepted, discarded] = if self.choice > 63 { [0; 2] } else { self.counts[self.choice as usize] };
        let status = u32::from(self.open) + line;
        [(0, 0), (4, status), (8, flags), (12, self.mask), (16, accepted), (20, discarded), (24, self.sent), (28, self.choice), (32, 0)]
    }

    /// What a question for the counts of a stream must reply.
    fn of_stream(&self, stream: usize) -> Reply {
        let [accepted, discarded] = self.counts[stream];
        Reply::granted(accepted, discarded)
    }
}

/// What a test reads of the record before a call: whether frames wait in prior, and the stream on which the call's frame would arrive.
struct Before {
    prior_waited: bool,
    stream: Option<usize>,
}

impl Before {
    /// What is read before this call.
    fn of(call: &Call, record: &[u8]) -> Before {
        let stream = match call {
            Call::Arrive { stream, .. } => Some(usize::from(*stream)),
            Call::Frame { octets, .. } => stream_of(record, octets),
            _ => None,
        };
        Before { prior_waited: prior_waits(record), stream }
    }
}

/// One more, modulo 4,294,967,296.
fn one_more(count: &mut u32) {
    *count = (u64::from(*count) + 1).rem_euclid(1 << 32) as u32;
}

/// In lists from an opening, and from any port, the counts of each stream are those that the test keeps itself from the replies, those of the chosen
/// one are shown, each flag is what it tracked, and the line is up by flags and mask.
fn registers_as_tracked_by_replies(run: &mut Run) -> Result<(), String> {
    for begin in [a_closed_port, an_open_port] {
        for sides in BOTH_SORTS {
            for _ in 0..run.scaled(100) {
                let mut random = run.next_list();
                let profile = if random.chance(70) { REGISTERS } else { any_profile(&mut random) };
                let octets = begin(&mut random);
                tracked_list(run, &mut random, sides, &octets, &profile)?;
            }
        }
    }
    run.demand(&[(Seen::Tracked, 20_000), (Seen::LineUp, 5_000), (Seen::LineDown, 5_000), (Seen::ControlDidBoth, 1_000)])?;
    run.demand(&[Counting::Shown, Counting::NotShown, Counting::Asked, Counting::AskedUnchosen].map(|met| (Seen::Counting(met), 2_000)))?;
    run.demand(&[(Seen::Counting(Counting::Zeroed), 100), (Seen::FrameArrived, 1_000)])?;
    run.demand(&EVERY_COUNT.map(|count| (Seen::CountWrapped(count), 20)))?;
    each_flag_and_count(run, 300, 1_000)
}

/// Plays one such list, which begins with an Open where the port is closed, and reads all registers now and then.
fn tracked_list(run: &mut Run, random: &mut Random, sides: [Side; 2], begin: &Octets, profile: &Profile) -> Result<(), String> {
    let mut compared = Compared::guarded(sides, run, &begin.record, &begin.memory);
    let mut tracked = Tracked::of(&begin.record);
    for number in 0..400 {
        let step = match number {
            0 if !begin.is_open() => Step::Call(profile.open(random, false)),
            _ => profile.step(random, compared.record()),
        };
        let Step::Call(call) = step else { continue };
        let before = Before::of(&call, compared.record());
        let reply = compared.call(run, &call)?;
        tracked.follow(&call, &reply, &before);
        if random.chance(20) {
            let stream = any_choice(random, compared.record()) & 63;
            held_as_tracked(run, &mut compared, &tracked, stream as u8)?;
        }
    }
    Ok(())
}

/// Reads all registers, and asks for the counts of a stream.
fn held_as_tracked(run: &mut Run, compared: &mut Compared, tracked: &Tracked, stream: u8) -> Result<(), String> {
    run.coverage.count(Seen::Tracked);
    let due = tracked.of_stream(usize::from(stream));
    compared.expect(run, &Call::StreamCounts { stream }, |reply| *reply == due, &format!("{due} as tracked"))?;
    for (offset, register) in tracked.registers() {
        compared.expect(run, &read(offset), |reply| *reply == value(register), &format!("{} as tracked", value(register)))?;
    }
    Ok(())
}

/// What lists of the profile must have met of every register and flag.
pub fn demand_registers(run: &Run, times: u64) -> Result<(), String> {
    run.demand(&[(Seen::LineUp, times), (Seen::LineDown, times), (Seen::RegisterRead, 4 * times), (Seen::ControlDidNeither, times / 4)])?;
    run.demand(&[(Seen::ControlTicked, times), (Seen::ControlTransmitted, times), (Seen::ControlDidBoth, times)])?;
    run.demand(&[(Seen::FlagsWritten, times), (Seen::MaskWritten, times), (Seen::OtherRegisterWritten, times)])?;
    run.demand(&[Counting::Chosen, Counting::ChosenAbove].map(|chosen| (Seen::Counting(chosen), times / 4)))?;
    run.demand(&[(Seen::ReadRefused(REGISTER_OFFSET), times / 4), (Seen::WriteRefused(REGISTER_OFFSET), times / 4)])?;
    each_flag_and_count(run, times / 4, times)
}

/// Lists from an opening, the calls beside the model and the quick calls beside the calls.
fn registers_in_lists(run: &mut Run) -> Result<(), String> {
    for sides in [[Side::Exports, Side::Model], [Side::Quick, Side::Exports]] {
        play(run, sides, &Plan { lists: 100, calls: 600, begin: a_closed_port }, |_| REGISTERS)?;
    }
    never_met_from_opening(run)?;
    demand_registers(run, 1_000)
}

/// Lists from an open port of any content, whose counts are at their ends or anywhere and whose flags have any mark.
fn registers_in_lists_from_any_port(run: &mut Run) -> Result<(), String> {
    for sides in BOTH_SORTS {
        let profile = |random: &mut Random| Profile { streams: random.pick(&[6, 64]), ..REGISTERS };
        play(run, sides, &Plan { lists: 300, calls: 150, begin: an_open_port }, profile)?;
    }
    run.demand(&EVERY_COUNT.map(|count| (Seen::CountWrapped(count), 100)))?;
    run.demand(&[(Seen::OtherMarkCleared, 200)])?;
    demand_registers(run, 500)
}

/// Lists in which the host closes ports, whose registers are read and written all the same, and opens them again.
fn registers_on_ports_opened_again(run: &mut Run) -> Result<(), String> {
    let profile = Profile { weights: Weights { open: 2, close: 10, ..REGISTERS.weights }, ..REGISTERS };
    for sides in BOTH_SORTS {
        play(run, sides, &Plan { lists: 150, calls: 300, begin: an_open_port }, |_| profile.clone())?;
    }
    run.demand(&[(Seen::Opened, 1_500), (Seen::Closed, 1_500), (Seen::WriteRefused(PORT_CLOSED), 80)])?;
    demand_registers(run, 200)
}

/// Lists of quick calls from records far outside what is fit, among whose frames some have the stream that says nothing to send.
fn registers_on_unfit_records(run: &mut Run) -> Result<(), String> {
    for begin in [extreme, any_open] {
        play(run, [Side::Quick, Side::InPlace], &Plan { lists: 300, calls: 150, begin }, |_| REGISTERS)?;
    }
    demand_registers(run, 400)
}
