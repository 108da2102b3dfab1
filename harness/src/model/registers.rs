//! The registers of a port: document 02, "Register block", "the port as 64 octets of 32-bit registers", with the counts that "Counts per stream" holds
//! for each stream: what a read replies, what a write does but for one of control, which is with the calls that it makes, and how flags and counts
//! follow every call. All is defined for any content of the block.

use super::port::{MARK_NO, MARK_YES, NOTHING, STREAMS};
use super::refusal;
use crate::call::{Call, Given, Reply};

/// "Offset 0 is control".
pub const CONTROL: u32 = 0;
/// "Offset 4 is status".
const STATUS: u32 = 4;
/// "8 flags".
const FLAGS: u32 = 8;
/// "12 the interrupt mask".
const MASK: u32 = 12;
/// "Offsets 16 and 20 show the counts of the stream chosen", the first that of its frames accepted.
const ACCEPTED: u32 = 16;
/// The second that of its "discards (14)".
const DISCARDED: u32 = 20;
/// 24 counts "frames of both sorts sent".
const SENT: u32 = 24;
/// "the stream chosen by a new register at offset 28".
const CHOICE: u32 = 28;
/// "an offset that is no multiple of 4": the octets of a register.
const REGISTER_OCTETS: u32 = 4;
/// "or is above 60": the offset of the last register.
const LAST_OFFSET: u32 = 60;

/// "writing bit 0 ticks", of control.
pub const TICKS: u32 = 1;
/// "then bit 1 transmits", of control.
pub const TRANSMITS: u32 = 2;
/// "bit 0, the lowest, open", of status.
const OPEN: u32 = 1;
/// "bit 1 the interrupt line", of status.
const LINE: u32 = 2;

/// "bit 0 discard", of the flags.
const DISCARD: usize = 0;
/// "bit 1 purge of at least one frame", of the flags.
const PURGE: usize = 1;
/// "bit 2 nothing to send", of the flags.
const NOTHING_TO_SEND: usize = 2;
/// How many flags there are.
pub const FLAG_BITS: usize = 3;

/// What is counted of a stream: "Accepted and discarded counts are to be held for each stream".
#[derive(Clone, Copy, Debug, PartialEq, Eq)]
pub struct Counts {
    pub accepted: u32,
    pub discarded: u32,
}

impl Counts {
    /// The counts of a stream that was never offered a frame.
    pub const ZERO: Counts = Counts { accepted: 0, discarded: 0 };
}

/// What the registers hold: the flags as the marks that they are, by their bits, the mask, the count of frames sent, the choice of a stream, and the
/// counts of streams 0 to 63, by their number.
#[derive(Clone, Copy, Debug, PartialEq, Eq)]
pub struct Registers {
    pub flags: [u8; FLAG_BITS],
    pub mask: u32,
    pub sent: u32,
    pub choice: u32,
    pub counts: [Counts; STREAMS],
}

impl Registers {
    /// The counts are "from 0 at opening, as flags and mask" are, and the choice is "0 at opening".
    pub const ZERO: Registers = Registers { flags: [MARK_NO; FLAG_BITS], mask: 0, sent: 0, choice: 0, counts: [Counts::ZERO; STREAMS] };

    /// The flags as the bits of their register.
    fn flag_bits(&self) -> u32 {
        let up = (0..FLAG_BITS).filter(|&flag| self.flags[flag] == MARK_YES);
        up.map(|flag| 1 << flag).sum()
    }

    /// "The interrupt line is up exactly when flags and mask share a one."
    fn line_is_up(&self) -> bool {
        self.flag_bits() & self.mask != 0
    }

    /// "Writing a one to a flag clears it"; a flag that is not cleared keeps its mark, whatever it is.
    fn clear_flags(&mut self, ones: u32) {
        for flag in (0..FLAG_BITS).filter(|flag| ones & 1 << flag != 0) {
            self.flags[flag] = MARK_NO;
        }
    }

    /// "A read replies the register and 0"; control "reads zero", and so do "Other offsets".
    pub fn read(&self, offset: u32, is_open: bool) -> Reply {
        let register = match offset {
            STATUS => self.status(is_open),
            FLAGS => self.flag_bits(),
            MASK => self.mask,
            ACCEPTED => self.chosen().accepted,
            DISCARDED => self.chosen().discarded,
            SENT => self.sent,
            CHOICE => self.choice,
            _ => 0,
        };
        Reply::granted(register, 0)
    }

    /// "the counts of the stream chosen"; "a number above 63 there makes both read zero".
    fn chosen(&self) -> Counts {
        match self.choice as usize {
            stream if stream < STREAMS => self.counts[stream],
            _ => Counts::ZERO,
        }
    }

    /// "status (bit 0, the lowest, open; bit 1 the interrupt line)".
    fn status(&self, is_open: bool) -> u32 {
        let open = if is_open { OPEN } else { 0 };
        let line = if self.line_is_up() { LINE } else { 0 };
        open | line
    }

    /// A write of a register that is not control: flags, mask and choice take it, the last "kept as written", also above 63; "writes to" other
    /// offsets, "4 and the counters do nothing". It replies "two zeros".
    pub fn write(&mut self, offset: u32, value: u32) -> Reply {
        match offset {
            FLAGS => self.clear_flags(value),
            MASK => self.mask = value,
            CHOICE => self.choice = value,
            _ => (),
        }
        Reply::granted(0, 0)
    }

    /// What a call that names no register does to flags and counts, by its reply: "Of refusals only 14 sets a flag or count." "Both counts of a stream
    /// go to 0 at the granted withdrawal itself (and at Open)." A frame by its octets is followed as the call that it becomes, and "Accepted
    /// best-effort frames are counted nowhere".
    pub fn follow(&mut self, call: &Given, reply: &Reply) {
        match (*call, reply.refusal) {
            (Call::Open { .. }, 0) => *self = Registers::ZERO,
            (Call::Arrive { stream, .. }, 0) => one_more(&mut self.of(stream).accepted),
            (Call::Arrive { stream, .. }, refusal::DISCARD) => {
                self.flags[DISCARD] = MARK_YES;
                one_more(&mut self.of(stream).discarded);
            }
            (Call::Withdraw { stream }, 0) => *self.of(stream) = Counts::ZERO,
            (Call::Tick, 0) if reply.first > 0 => self.flags[PURGE] = MARK_YES,
            (Call::Transmit, 0) if reply.first == NOTHING => self.flags[NOTHING_TO_SEND] = MARK_YES,
            (Call::Transmit, 0) => one_more(&mut self.sent),
            _ => (),
        }
    }

    /// The counts of a stream, which is at most 63 where a call is granted or discards.
    fn of(&mut self, stream: u8) -> &mut Counts {
        &mut self.counts[usize::from(stream)]
    }
}

/// "The counter registers wrap from 4,294,967,295 to 0."
fn one_more(count: &mut u32) {
    *count = count.wrapping_add(1);
}

/// "It refuses with 26 an offset that is no multiple of 4 or is above 60, before 18": whether a call names such an offset.
pub fn offset_is_wrong(call: &Given) -> bool {
    match *call {
        Call::ReadRegister { offset } | Call::WriteRegister { offset, .. } => offset % REGISTER_OCTETS != 0 || offset > LAST_OFFSET,
        _ => false,
    }
}
