//! The kind `registers`, reads and writes with the replies and octets that document 02 gives, on ports of any content and length; lists with them are
//! in `register_lists`, and what is said of the counts of each stream in `counts`: here stream 5 is chosen, where counts are read.

use crate::call::{Call, Reply};
use crate::comparing::compared::Compared;
use crate::comparing::coverage::Seen;
use crate::comparing::fit::Octets;
use crate::comparing::registers::{
    is_outside, ACCEPTED, CHOICE, CONTROL, DISCARDED, EVERY_COUNT, EVERY_FLAG, FLAGS, MASK, SENT, STATUS, WRONG_OFFSETS,
};
use crate::comparing::shapes::with_lengths;
use crate::comparing::sides::Side;
use crate::comparing::stated::{Stated, BOTH_SORTS};
use crate::comparing::test::{Kind, Run, Test};
use crate::comparing::tests::bindings::demand_met;
use crate::comparing::tests::lists::any_port;
use crate::layout;
use crate::model::refusal::*;

/// The tests of this file.
pub const TESTS: [Test; 9] = [
    test("registers_of_a_list", registers_of_a_list),
    test("registers_of_frames_and_refusals", registers_of_frames_and_refusals),
    test("register_checks_in_order", register_checks_in_order),
    test("registers_at_every_offset", registers_at_every_offset),
    test("registers_of_ports_of_every_length", registers_of_ports_of_every_length),
    test("register_writes_change_what_is_named", register_writes_change_what_is_named),
    test("counts_wrap_and_marks_of_any_content", counts_wrap_and_marks_of_any_content),
    test("opening_zeroes_the_block", opening_zeroes_the_block),
    test("quick_registers_by_the_reply", quick_registers_by_the_reply),
];

/// A test of this kind.
pub const fn test(name: &'static str, body: fn(&mut Run) -> Result<(), String>) -> Test {
    Test { kind: Kind::Registers, name, body }
}

/// The octets of a lent port, and those of its record, after which its register block begins.
const PORT: usize = 1_616;
const RECORD: usize = 1_088;

/// A reply with two zeros.
pub const ZEROS: Reply = Reply::granted(0, 0);

/// A read of a register.
pub const fn read(offset: u32) -> Call {
    Call::ReadRegister { offset }
}

/// A write of a register.
pub const fn write(offset: u32, value: u32) -> Call {
    Call::WriteRegister { offset, value }
}

/// An Arrive on stream 5.
const fn arrive(charge: u32, tag: u32) -> Call {
    Call::Arrive { stream: 5, charge, tag }
}

/// The register that a read replies, beside 0.
pub const fn value(value: u32) -> Reply {
    Reply::granted(value, 0)
}

/// What a list does with stream 5 (P 200) on a port with L 2,620 and K 1, step by step, and what each step replies.
const LIST: [(Call, Reply); 53] = [
    (write(CHOICE, 5), ZEROS),
    (read(CHOICE), value(5)),
    (read(CONTROL), ZEROS),
    (read(STATUS), value(1)),
    (read(FLAGS), ZEROS),
    (read(MASK), ZEROS),
    (write(MASK, 5), ZEROS),
    (read(MASK), value(5)),
    (read(STATUS), value(1)),
    (arrive(120, 7), Reply::granted(1, 80)),
    (read(ACCEPTED), value(1)),
    (Call::BestEffort { charge: 2_020, tag: 9 }, Reply::granted(2_020, 0)),
    (read(ACCEPTED), value(1)),
    (arrive(201, 1), Reply::refused(14)),
    (read(FLAGS), value(1)),
    (read(DISCARDED), value(1)),
    (read(STATUS), value(3)),
    (write(FLAGS, 0), ZEROS),
    (write(FLAGS, 6), ZEROS),
    (read(FLAGS), value(1)),
    (write(FLAGS, 1), ZEROS),
    (read(FLAGS), ZEROS),
    (read(STATUS), value(1)),
    (write(CONTROL, 2), Reply::granted(5, 7)),
    (read(SENT), value(1)),
    (write(CONTROL, 3), Reply::granted(255, 9)),
    (read(SENT), value(2)),
    (read(FLAGS), ZEROS),
    (write(CONTROL, 2), Reply::granted(254, 0)),
    (read(FLAGS), value(4)),
    (read(STATUS), value(3)),
    (read(SENT), value(2)),
    (write(CONTROL, 0), ZEROS),
    (write(CONTROL, 0xffff_fffc), ZEROS),
    (arrive(84, 8), Reply::granted(3, 116)),
    (write(CONTROL, 1), ZEROS),
    (write(CONTROL, 0x8000_0001), ZEROS),
    (write(CONTROL, 5), ZEROS),
    (read(FLAGS), value(4)),
    (write(CONTROL, 1), Reply::granted(1, 84)),
    (read(FLAGS), value(6)),
    (read(STATUS), value(3)),
    (write(MASK, 2), ZEROS),
    (read(STATUS), value(3)),
    (write(MASK, 0xffff_fff9), ZEROS),
    (read(MASK), value(0xffff_fff9)),
    (read(STATUS), value(1)),
    (read(CONTROL), ZEROS),
    (read(ACCEPTED), value(2)),
    (read(DISCARDED), value(1)),
    (read(SENT), value(2)),
    (Call::Open { link: 2_620, delay: 1 }, Reply::refused(2)),
    (read(FLAGS), value(6)),
];

/// The same port after the host has closed it, and opened again.
const CLOSED: [(Call, Reply); 26] = [
    (write(CONTROL, 1), Reply::refused(1)),
    (write(CONTROL, 2), Reply::refused(1)),
    (write(CONTROL, 3), Reply::refused(1)),
    (write(CONTROL, 4), ZEROS),
    (read(STATUS), ZEROS),
    (write(MASK, 6), ZEROS),
    (read(STATUS), value(2)),
    (write(FLAGS, 2), ZEROS),
    (read(FLAGS), value(4)),
    (read(STATUS), value(2)),
    (write(MASK, 3), ZEROS),
    (read(STATUS), ZEROS),
    (write(FLAGS, 5), ZEROS),
    (read(FLAGS), ZEROS),
    (read(SENT), value(2)),
    (Call::Open { link: 2_103, delay: 1 }, Reply::refused(3)),
    (read(MASK), value(3)),
    (read(CHOICE), value(5)),
    (Call::Open { link: 2_620, delay: 1 }, Reply::granted(600, 0)),
    (read(STATUS), value(1)),
    (read(FLAGS), ZEROS),
    (read(MASK), ZEROS),
    (read(ACCEPTED), ZEROS),
    (read(DISCARDED), ZEROS),
    (read(SENT), ZEROS),
    (read(CHOICE), ZEROS),
];

/// A list whose replies are written down: every register that holds something, the line by flags and mask, every sort of write, a closed port and
/// an opening.
fn registers_of_a_list(run: &mut Run) -> Result<(), String> {
    for sides in BOTH_SORTS {
        let mut list = Stated::opened(run, sides, 2_620, 1, &[(5, 200)])?;
        LIST.iter().try_for_each(|(call, reply)| list.call(call.clone(), *reply))?;
        list.close();
        CLOSED.iter().try_for_each(|(call, reply)| list.call(call.clone(), *reply))?;
    }
    let met = [Seen::LineUp, Seen::LineDown, Seen::ControlTicked, Seen::ControlTransmitted, Seen::ControlDidBoth, Seen::ControlDidNeither];
    met.into_iter().try_for_each(|seen| demand_met(run, seen))?;
    each_flag_and_count(run, 2, 2)
}

/// Demands each flag set and cleared so often, and each count made more so often.
pub fn each_flag_and_count(run: &Run, flags: u64, counts: u64) -> Result<(), String> {
    run.demand(&EVERY_FLAG.map(|(flag, _)| (Seen::FlagSet(flag), flags)))?;
    run.demand(&EVERY_FLAG.map(|(flag, _)| (Seen::FlagCleared(flag), flags)))?;
    run.demand(&EVERY_COUNT.map(|count| (Seen::Counted(count), counts)))
}

/// A Frame counts as the call that it becomes, by its reply; refusals but 14, 13, 15, 16, 17, 20 and 25 among them, set no flag and no count.
fn registers_of_frames_and_refusals(run: &mut Run) -> Result<(), String> {
    for sides in BOTH_SORTS {
        let mut list = Stated::opened(run, sides, 2_704, 1, &[(5, 200), (6, 84)])?;
        list.bound(5, ([2; 6], 7))?;
        list.call(write(CHOICE, 5), ZEROS)?;
        let octets = |vid: u8, length: usize| {
            let mut octets = [&[2; 6][..], &[0; 6], &[0x81, 0x00, 0x00, vid]].concat();
            octets.resize(length, 0);
            Call::Frame { octets: octets.into(), tag: 3 }
        };
        list.call(octets(7, 60), Reply::granted(1, 116))?;
        list.call(octets(8, 60), Reply::granted(84, 0))?;
        counted(&mut list, 0, [1, 0, 0])?;
        list.call(octets(7, 177), Reply::refused(14))?;
        counted(&mut list, 1, [1, 1, 0])?;
        list.withdrawn(6)?;
        let refused = [(octets(7, 59), 17), (octets(8, 1_997), 17), (octets(8, 1_996), 0), (octets(8, 293), 16), (octets(7, 60), 14)];
        for (call, refusal) in refused {
            list.call(call, if refusal == 0 { Reply::granted(2_104, 0) } else { Reply::refused(refusal) })?;
        }
        counted(&mut list, 1, [1, 2, 0])?;
        let of_stream = |stream: u8, charge: u32| Call::Arrive { stream, charge, tag: 1 };
        let refused = [(of_stream(6, 84), 25), (of_stream(7, 84), 12), (of_stream(64, 84), 5), (of_stream(5, 83), 13)];
        let refused =
            refused.into_iter().chain([(Call::BestEffort { charge: 83, tag: 1 }, 13), (Call::BestEffort { charge: 500, tag: 1 }, 16)]);
        for (call, refusal) in refused {
            list.call(call, Reply::refused(refusal))?;
        }
        counted(&mut list, 1, [1, 2, 0])?;
        full_queues_count_nothing(&mut list)?;
    }
    let met = [DISCARD, BEST_EFFORT_FULL, BEST_EFFORT_EXCEEDED, FRAME_LENGTH, QUEUE_FULL].map(Seen::FrameRefused);
    met.into_iter().try_for_each(|seen| demand_met(run, seen))
}

/// Flags, the counts of the chosen stream and that of frames sent, by reads.
fn counted(list: &mut Stated, flags: u32, counts: [u32; 3]) -> Result<(), String> {
    list.call(read(FLAGS), value(flags))?;
    [ACCEPTED, DISCARDED, SENT].into_iter().zip(counts).try_for_each(|(offset, count)| list.call(read(offset), value(count)))
}

/// A frame that finds its queue full, 20 or 15, sets no flag and no count; a Transmit of a full queue counts one sent.
fn full_queues_count_nothing(list: &mut Stated) -> Result<(), String> {
    let mut octets = list.octets();
    for queue in 0..5 {
        octets.put_queue(&mut list.random, queue, 200, 256);
    }
    let at = layout::entry(5);
    octets.record[at + 1..at + 4].copy_from_slice(&[1, 0, 200]);
    list.lend_again(&octets);
    let frame = |vid: u8| {
        let mut octets = [&[2; 6][..], &[0; 6], &[0x81, 0x00, 0x00, vid]].concat();
        octets.resize(60, 0);
        Call::Frame { octets: octets.into(), tag: 3 }
    };
    for (call, refusal) in [(frame(7), 20), (arrive(84, 1), 20), (frame(8), 15), (Call::BestEffort { charge: 84, tag: 1 }, 15)] {
        list.call(call, Reply::refused(refusal))?;
    }
    counted(list, 1, [1, 2, 0])
}

/// Accesses to registers, and whether a closed port refuses them: 1 is asked of a control write with bit 0 or 1 alone.
const ACCESSES: [(Call, bool); 23] = [
    (read(CONTROL), false),
    (read(STATUS), false),
    (read(MASK), false),
    (read(60), false),
    (write(CONTROL, 0), false),
    (write(CONTROL, 1), true),
    (write(CONTROL, 2), true),
    (write(CONTROL, 3), true),
    (write(CONTROL, 4), false),
    (write(CONTROL, u32::MAX), true),
    (write(STATUS, 3), false),
    (write(FLAGS, 7), false),
    (write(MASK, 1), false),
    (write(ACCEPTED, 1), false),
    (write(CHOICE, 64), false),
    (read(CHOICE), false),
    (read(DISCARDED), false),
    (write(60, 3), false),
    (read(1), false),
    (read(64), false),
    (write(2, 1), true),
    (write(61, 3), true),
    (write(1 << 8, 1), true),
];

/// What can refuse an access beside its offset: the lent memory or port is short by an octet, the record is unfit, the port is closed.
#[derive(Clone, Copy)]
struct Wrong {
    memory_short: bool,
    port_short: bool,
    unfit: bool,
    closed: bool,
}

impl Wrong {
    /// All of these at once in every way.
    fn each() -> impl Iterator<Item = Wrong> {
        (0..16).map(|case| {
            let [memory_short, port_short, unfit, closed] = [1, 2, 4, 8].map(|bit| case & bit != 0);
            Wrong { memory_short, port_short, unfit, closed }
        })
    }

    /// A port that is so.
    fn made(&self, port: &Octets) -> Octets {
        let mut octets = port.clone();
        octets.record[layout::OPEN] = u8::from(!self.closed);
        octets.record[layout::PRIOR] = if self.unfit { 4 } else { 0 };
        octets.record.truncate(PORT - usize::from(self.port_short));
        octets.memory.truncate(10_240 - usize::from(self.memory_short));
        octets
    }

    /// The first refusal that holds of an access: "26 18 19, and 1 only for a control write with bit 0 or 1"; the quick calls scan nothing.
    fn first(&self, call: &Call, stopped_by_closed: bool, scans: bool) -> u8 {
        let unfit = self.port_short || (self.unfit && scans);
        let refusals = [
            (is_outside(call), REGISTER_OFFSET),
            (self.memory_short, MEMORY_SHORT),
            (unfit, RECORD_UNFIT),
            (self.closed && stopped_by_closed, PORT_CLOSED),
        ];
        refusals.into_iter().find(|(holds, _)| *holds).map_or(0, |(_, refusal)| refusal)
    }
}

/// Each refusal that a read and a write of a register can meet; 1 is a write's alone.
pub const OF_ACCESSES: [Seen; 7] = [
    Seen::ReadRefused(REGISTER_OFFSET),
    Seen::ReadRefused(MEMORY_SHORT),
    Seen::ReadRefused(RECORD_UNFIT),
    Seen::WriteRefused(REGISTER_OFFSET),
    Seen::WriteRefused(MEMORY_SHORT),
    Seen::WriteRefused(RECORD_UNFIT),
    Seen::WriteRefused(PORT_CLOSED),
];

/// Every access of the table, where any of the refusals before it hold at once.
fn register_checks_in_order(run: &mut Run) -> Result<(), String> {
    for sides in BOTH_SORTS {
        let scans = sides[0] == Side::Exports;
        let port = Stated::opened(run, sides, 2_620, 1, &[(5, 200)])?.octets();
        for wrong in Wrong::each() {
            let octets = wrong.made(&port);
            run.next_record("refusals of registers");
            let mut compared = Compared::guarded(sides, run, &octets.record, &octets.memory);
            for (call, stopped_by_closed) in &ACCESSES {
                let refusal = wrong.first(call, *stopped_by_closed, scans);
                compared.lend_again(&octets.record, &octets.memory);
                compared.expect(run, call, |reply| reply.refusal == refusal, &format!("refusal {refusal}"))?;
            }
        }
    }
    run.demand(&OF_ACCESSES.map(|seen| (seen, 8)))
}

/// Every offset from 0 to 130, and far ones, read and written on an open and on a closed port: those that are no multiple of 4 or above 60 are 26.
fn registers_at_every_offset(run: &mut Run) -> Result<(), String> {
    for sides in BOTH_SORTS {
        for close in [false, true] {
            let mut list = Stated::opened(run, sides, 2_620, 1, &[(5, 200)])?;
            if close {
                list.close();
            }
            for offset in (0..=130).chain(WRONG_OFFSETS) {
                let outside = offset > 60 || offset % 4 != 0;
                let of = |granted: Reply| if outside { Reply::refused(26) } else { granted };
                let open = if offset == STATUS { u32::from(!close) } else { 0 };
                list.call(read(offset), of(value(open)))?;
                list.call(write(offset, 0xffff_fffc), of(ZEROS))?;
                let kept = if [MASK, CHOICE].contains(&offset) { 0xffff_fffc } else { open };
                list.call(read(offset), of(value(kept)))?;
            }
        }
    }
    run.demand(&[(Seen::ReadRefused(REGISTER_OFFSET), 500), (Seen::WriteRefused(REGISTER_OFFSET), 250)])
}

/// Ports of every length from 1,087 to 1,620 octets, and none, one and many more: under 1,616 octets every call is 19, an access to a register too.
fn registers_of_ports_of_every_length(run: &mut Run) -> Result<(), String> {
    for sides in BOTH_SORTS {
        let port = Stated::opened(run, sides, 2_620, 1, &[(5, 200)])?.octets();
        for length in [0, 1, 528].into_iter().chain(RECORD - 1..=PORT + 4).chain([2_144, 3_000, 65_536]) {
            let mut random = run.next_record(&format!("a port of {length} octets"));
            let octets = with_lengths(&port, &mut random, length, 10_240);
            let mut compared = Compared::guarded(sides, run, &octets.record, &octets.memory);
            let refusal = if length < PORT { RECORD_UNFIT } else { 0 };
            for call in [read(STATUS), read(MASK), write(MASK, 7), write(FLAGS, 7), write(CONTROL, 1), Call::Tick, Call::Transmit] {
                compared.expect(run, &call, |reply| reply.refusal == refusal, &format!("refusal {refusal}"))?;
            }
        }
    }
    run.demand(&[(Seen::ReadRefused(RECORD_UNFIT), 2_000), (Seen::WriteRefused(RECORD_UNFIT), 3_000), (Seen::MaskWritten, 8)])
}

/// What an access that is granted and makes no call leaves of a port: a write of the mask or of the choice its four octets, one of the flags a zero
/// for each one, and every other access all as it was.
fn after_access(port: &[u8], call: &Call) -> Vec<u8> {
    let mut after = port.to_vec();
    match *call {
        Call::WriteRegister { offset: MASK, value } => after[RECORD + 4..RECORD + 8].copy_from_slice(&value.to_be_bytes()),
        Call::WriteRegister { offset: CHOICE, value } => after[RECORD + 12..RECORD + 16].copy_from_slice(&value.to_be_bytes()),
        Call::WriteRegister { offset: FLAGS, value } => (0..3).filter(|bit| value >> bit & 1 == 1).for_each(|bit| after[RECORD + bit] = 0),
        _ => (),
    }
    after
}

/// Accesses on ports of any content: the octets that they change are those that are named, whatever else stands in the block.
fn register_writes_change_what_is_named(run: &mut Run) -> Result<(), String> {
    for _ in 0..run.scaled(200) {
        for sides in BOTH_SORTS {
            let mut random = run.next_record("octets that accesses change");
            let octets = any_port(&mut random);
            let mut compared = Compared::guarded(sides, run, &octets.record, &octets.memory);
            let values = [0, 1, 2, 4, 7, 63, 64, u32::MAX, random.number()];
            let writes = (1..16).flat_map(|register| values.map(|value| write(4 * register, value)));
            for call in writes.chain((0..16).map(|register| read(4 * register))).chain([write(CONTROL, 0), write(CONTROL, u32::MAX - 3)]) {
                let after = after_access(compared.record(), &call);
                compared.expect(run, &call, |reply| reply.refusal == 0, "granted")?;
                if compared.record() != after || compared.memory() != octets.memory {
                    return Err(format!("{}: {call} changes other octets than are named", run.place));
                }
            }
        }
    }
    run.demand(&[(Seen::OtherMarkCleared, 100), (Seen::OtherRegisterWritten, 10_000), (Seen::MaskWritten, 1_000)])?;
    run.demand(&EVERY_FLAG.map(|(flag, _)| (Seen::FlagCleared(flag), 100)))
}

/// Counts at their ends, and marks of flags that are none: "The counter registers wrap from 4,294,967,295 to 0", and any mark but 1 is down.
fn counts_wrap_and_marks_of_any_content(run: &mut Run) -> Result<(), String> {
    for sides in BOTH_SORTS {
        let mut list = Stated::opened(run, sides, 2_620, 1, &[(5, 200)])?;
        list.call(write(CHOICE, 5), ZEROS)?;
        let begin = list.octets();
        for (count, mark) in (0..=255).map(|mark| ([u32::MAX, u32::MAX - 1, 255, 65_535, 0x00ff_ffff][mark as usize % 5], mark)) {
            let mut octets = begin.clone();
            octets.record[RECORD..RECORD + 3].fill(mark);
            [8, 16 + 8 * 5, 20 + 8 * 5]
                .iter()
                .for_each(|at| octets.record[RECORD + at..RECORD + at + 4].copy_from_slice(&count.to_be_bytes()));
            octets.record[RECORD + 4..RECORD + 8].fill(255);
            list.lend_again(&octets);
            let (next, up) = (count.wrapping_add(1), if mark == 1 { 7 } else { 0 });
            list.call(read(STATUS), value(if mark == 1 { 3 } else { 1 }))?;
            counted(&mut list, up, [count; 3])?;
            list.call(arrive(84, 1), Reply::granted(1, 116))?;
            counted(&mut list, up, [next, count, count])?;
            list.call(Call::Transmit, Reply::granted(5, 1))?;
            counted(&mut list, up, [next, count, next])?;
            list.call(arrive(201, 1), Reply::refused(14))?;
            counted(&mut list, up | 1, [next; 3])?;
            list.call(write(CONTROL, 2), Reply::granted(254, 0))?;
            counted(&mut list, up | 5, [next; 3])?;
            list.call(read(STATUS), value(3))?;
        }
    }
    run.demand(&EVERY_COUNT.map(|count| (Seen::CountWrapped(count), 100)))
}

/// A granted Open writes zeros to the whole block and nothing past it, whatever stood there; a refused one nothing. Its emptying is no purge.
fn opening_zeroes_the_block(run: &mut Run) -> Result<(), String> {
    let refused = [(Call::Open { link: 2_103, delay: 1 }, 3), (Call::Open { link: 2_620, delay: 17 }, 4)];
    for _ in 0..run.scaled(100) {
        for sides in BOTH_SORTS {
            let mut random = run.next_record("blocks that an opening zeroes");
            let closed = Octets::fit(&mut random, false);
            let octets = with_lengths(&closed, &mut random, PORT + 40, 10_240);
            let mut compared = Compared::guarded(sides, run, &octets.record, &octets.memory);
            for (call, refusal) in &refused {
                compared.expect(run, call, |reply| reply.refusal == *refusal, "a refusal")?;
            }
            let kept = compared.record() == octets.record;
            compared.expect(run, &Call::Open { link: 2_620, delay: 1 }, |reply| *reply == Reply::granted(600, 0), "0 600 0")?;
            let after = compared.record();
            if !kept || after[RECORD..PORT] != [0; PORT - RECORD] || after[PORT..] != octets.record[PORT..] {
                return Err(format!("{}: an opening leaves the block other than it is to", run.place));
            }
        }
    }
    run.demand(&[(Seen::Opened, 200)])
}

/// The quick calls' registers follow the replies on records that are not fit: a purge of frames without octets is a purge, and a frame whose stream
/// is the 254 of nothing to send is, by the reply, nothing to send, whatever its tag.
fn quick_registers_by_the_reply(run: &mut Run) -> Result<(), String> {
    let mut list = Stated::opened(run, [Side::Quick, Side::InPlace], 2_620, 1, &[(5, 200)])?;
    let begin = list.octets();
    for (stream, charge, tag) in
        [(5, 0, 0), (254, 0, 0), (254, 84, 7), (253, 84, 7), (256 + 254, 84, 7), (255, 84, 7), (u32::from(u16::MAX), 84, 7)]
    {
        let mut octets = begin.clone();
        octets.put_queue(&mut list.random, 0, 9, 1);
        let at = layout::frame(0, 9, 0);
        layout::put_two(&mut octets.memory, at + layout::FRAME_STREAM, stream);
        layout::put_two(&mut octets.memory, at + layout::FRAME_CHARGE, charge);
        layout::put_four(&mut octets.memory, at + layout::FRAME_TAG, tag);
        for control in [false, true] {
            list.lend_again(&octets);
            list.call(if control { write(CONTROL, 1) } else { Call::Tick }, Reply::granted(1, charge))?;
            counted(&mut list, 2, [0; 3])?;
            list.lend_again(&octets);
            list.call(if control { write(CONTROL, 2) } else { Call::Transmit }, Reply::granted(stream, tag))?;
            let nothing = stream == 254;
            counted(&mut list, if nothing { 4 } else { 0 }, [0, 0, u32::from(!nothing)])?;
        }
    }
    let (nothing, _) = EVERY_FLAG[2];
    run.demand(&[(Seen::FlagSet(nothing), 4), (Seen::ControlTicked, 7), (Seen::ControlTransmitted, 7)])
}
