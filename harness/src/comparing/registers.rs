//! Accesses to registers with chosen offsets and values, and what a call did to the registers of a port of any content; what it did to the counts of
//! streams is counted further in `counts`. The numbers of document 02, "Register block", stand here as numbers, not as the model's.

use std::fmt;

use crate::call::{Call, Reply};
use crate::comparing::counts::{any_choice, chosen};
use crate::comparing::coverage::{Coverage, Seen};
use crate::comparing::random::Random;
use crate::layout::{self, four, in_block, FLAG_DISCARD, FLAG_NOTHING, FLAG_PURGE};
use crate::model::octets::PORT_OCTETS;
use crate::model::port::STREAMS;

/// The offset of control.
pub const CONTROL: u32 = 0;
/// The offset of status.
pub const STATUS: u32 = 4;
/// The offset of the flags.
pub const FLAGS: u32 = 8;
/// The offset of the interrupt mask.
pub const MASK: u32 = 12;
/// The offset of the chosen stream's count of frames accepted.
pub const ACCEPTED: u32 = 16;
/// The offset of the chosen stream's count of discards.
pub const DISCARDED: u32 = 20;
/// The offset of the count of frames sent.
pub const SENT: u32 = 24;
/// The offset of the choice of a stream.
pub const CHOICE: u32 = 28;
/// The offsets of the registers that hold something, control among them, status and those that show the chosen stream's counts more often.
const HELD: [u32; 11] = [CONTROL, STATUS, STATUS, FLAGS, MASK, ACCEPTED, ACCEPTED, DISCARDED, DISCARDED, SENT, CHOICE];
/// The offset of the last register.
const LAST_OFFSET: u32 = 60;
/// Offsets that are no multiple of 4 or are above 60, also where fewer bits would hide that.
pub const WRONG_OFFSETS: [u32; 18] =
    [1, 2, 3, 5, 6, 13, 27, 59, 61, 62, 63, 64, 68, 1 << 8, (1 << 8) + 4, (1 << 16) + 8, (1 << 31) + 12, u32::MAX];
/// Values whose bits alone matter: each bit of control and of the flags, several at once, none of them, and bits above.
const VALUES: [u32; 14] = [0, 1, 2, 3, 4, 5, 6, 7, 8, 9, 0xffff_fff8, 0x8000_0001, 0x0100_0002, u32::MAX];

/// A read of a register, most often of one that holds something; one at an edge has its offset outside.
pub fn any_read(random: &mut Random, edge: bool) -> Call {
    Call::ReadRegister { offset: any_offset(random, edge) }
}

/// A write of a register, most often of control, the flags, the mask or the choice; one at an edge has its offset outside.
pub fn any_write(random: &mut Random, record: &[u8], edge: bool) -> Call {
    let offset = if random.chance(70) && !edge { random.pick(&[CONTROL, CONTROL, FLAGS, MASK, CHOICE]) } else { any_offset(random, edge) };
    let any = random.number();
    let known = random.pick(&VALUES);
    let value = if offset == CHOICE { any_choice(random, record) } else { random.pick(&[known, known, known, any]) };
    Call::WriteRegister { offset, value }
}

/// An offset of a register, or one that there is not.
fn any_offset(random: &mut Random, edge: bool) -> u32 {
    if edge {
        let any = random.number();
        let end = random.pick(&WRONG_OFFSETS);
        return random.pick(&[end, end, any]);
    }
    let any = 4 * random.between(0..=LAST_OFFSET / 4);
    let held = random.pick(&HELD);
    random.pick(&[held, held, any])
}

/// The flags, in the order of their bits.
#[derive(Clone, Copy, Debug, PartialEq, Eq, PartialOrd, Ord)]
pub enum Flag {
    Discard,
    Purge,
    NothingToSend,
}

/// Every flag, in the order of their bits, with the place of its mark in the register block.
pub const EVERY_FLAG: [(Flag, usize); 3] = [(Flag::Discard, FLAG_DISCARD), (Flag::Purge, FLAG_PURGE), (Flag::NothingToSend, FLAG_NOTHING)];

/// What is counted, in the order of the offsets: two things of each stream, and one of the port.
#[derive(Clone, Copy, Debug, PartialEq, Eq, PartialOrd, Ord)]
pub enum Count {
    Accepted,
    Discarded,
    Sent,
}

/// All that is counted, in the order of the offsets.
pub const EVERY_COUNT: [Count; 3] = [Count::Accepted, Count::Discarded, Count::Sent];
/// How many octets the counts of all streams take.
const COUNTS_OCTETS: usize = 8 * STREAMS;

impl fmt::Display for Flag {
    fn fmt(&self, f: &mut fmt::Formatter<'_>) -> fmt::Result {
        f.write_str(match self {
            Flag::Discard => "discard",
            Flag::Purge => "purge",
            Flag::NothingToSend => "nothing to send",
        })
    }
}

impl fmt::Display for Count {
    fn fmt(&self, f: &mut fmt::Formatter<'_>) -> fmt::Result {
        f.write_str(match self {
            Count::Accepted => "frames accepted",
            Count::Discarded => "discards",
            Count::Sent => "frames sent",
        })
    }
}

/// What the register block of a port holds: the marks of the flags in the order of their bits, the mask, the count of frames sent, the choice, and
/// the counts of the streams as they stand there.
#[derive(Clone, Copy, Debug, PartialEq, Eq)]
pub struct Held {
    pub marks: [u8; 3],
    pub mask: u32,
    pub sent: u32,
    pub choice: u32,
    counts: [u8; COUNTS_OCTETS],
}

impl Held {
    /// What a lent port holds, if it is long enough.
    pub fn of(port: &[u8]) -> Option<Held> {
        let number = |at: usize| four(port, in_block(at));
        (port.len() >= PORT_OCTETS).then(|| Held {
            marks: EVERY_FLAG.map(|(_, at)| port[in_block(at)]),
            mask: number(layout::BLOCK_MASK),
            sent: number(layout::SENT),
            choice: number(layout::CHOICE),
            counts: port[in_block(layout::counts(0))..PORT_OCTETS].try_into().expect("the counts end the block"),
        })
    }

    /// The accepted and the discarded count of a stream.
    pub fn counts_of(&self, stream: usize) -> [u32; 2] {
        [layout::ACCEPTED, layout::DISCARDED].map(|count| four(&self.counts, layout::counts(stream) - layout::counts(0) + count))
    }

    /// The flags as the bits of their register: a mark of 1 is one that is up.
    pub fn flags(&self) -> u32 {
        self.marks.iter().rev().fold(0, |bits, &mark| bits << 1 | u32::from(mark == 1))
    }

    /// Whether the interrupt line is up: flags and mask share a one.
    pub fn line(&self) -> bool {
        self.flags() & self.mask != 0
    }

    /// Counts how a call changed what was held before it; an opening zeroes all and a withdrawal two counts, and neither lowers a flag nor makes a
    /// count more.
    pub fn count_changes(&self, coverage: &mut Coverage, call: &Call, after: &Held) {
        if matches!(call, Call::Open { .. } | Call::Withdraw { .. }) {
            return;
        }
        for (number, (flag, _)) in EVERY_FLAG.into_iter().enumerate() {
            match (self.marks[number], after.marks[number]) {
                (before, 1) if before != 1 => coverage.count(Seen::FlagSet(flag)),
                (1, 0) => coverage.count(Seen::FlagCleared(flag)),
                (before, after) => coverage.add(Seen::OtherMarkCleared, u64::from(before != after)),
            }
        }
        coverage.count_change(Count::Sent, self.sent, after.sent);
        if let Some(stream) = self.changed(after) {
            coverage.count_counted(stream, self.counts_of(stream), after.counts_of(stream), self.choice);
        }
    }

    /// The stream whose counts are others after a call, if there is one.
    fn changed(&self, after: &Held) -> Option<usize> {
        if self.counts == after.counts {
            return None;
        }
        (0..STREAMS).find(|&stream| self.counts_of(stream) != after.counts_of(stream))
    }
}

impl Coverage {
    /// Counts how a call changed a count.
    pub fn count_change(&mut self, count: Count, before: u32, after: u32) {
        self.add(Seen::Counted(count), u64::from(after == before.wrapping_add(1)));
        self.add(Seen::CountWrapped(count), u64::from(before == u32::MAX && after == 0));
    }

    /// Counts an access to a register.
    pub fn count_access(&mut self, call: &Call, reply: &Reply) {
        match (call, reply.refusal) {
            (Call::ReadRegister { offset: STATUS }, 0) => self.count(if reply.first & 2 != 0 { Seen::LineUp } else { Seen::LineDown }),
            (Call::ReadRegister { .. }, 0) => self.count(Seen::RegisterRead),
            (Call::ReadRegister { .. }, refusal) => self.count(Seen::ReadRefused(refusal)),
            (Call::WriteRegister { offset: CONTROL, value }, 0) => self.count(control(*value)),
            (Call::WriteRegister { offset: FLAGS, .. }, 0) => self.count(Seen::FlagsWritten),
            (Call::WriteRegister { offset: MASK, .. }, 0) => self.count(Seen::MaskWritten),
            (Call::WriteRegister { offset: CHOICE, value }, 0) => self.count(Seen::Counting(chosen(*value))),
            (Call::WriteRegister { .. }, 0) => self.count(Seen::OtherRegisterWritten),
            (Call::WriteRegister { .. }, refusal) => self.count(Seen::WriteRefused(refusal)),
            _ => (),
        }
    }
}

/// What a control write of a value makes.
fn control(value: u32) -> Seen {
    match value & 3 {
        1 => Seen::ControlTicked,
        2 => Seen::ControlTransmitted,
        3 => Seen::ControlDidBoth,
        _ => Seen::ControlDidNeither,
    }
}

/// Whether a call names an offset that is no multiple of 4 or is above 60, which is refused before all else.
pub fn is_outside(call: &Call) -> bool {
    match *call {
        Call::ReadRegister { offset } | Call::WriteRegister { offset, .. } => offset % 4 != 0 || offset > LAST_OFFSET,
        _ => false,
    }
}

/// Whether a call ticks, by itself or by a control write.
pub fn ticks(call: &Call) -> bool {
    match *call {
        Call::Tick => true,
        Call::WriteRegister { offset: CONTROL, value } => value & 1 != 0,
        _ => false,
    }
}
