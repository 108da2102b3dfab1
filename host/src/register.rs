//! The registers of a port, as a node's controller sees them: their offsets, types for what their bits and counts mean, and how a reply is read.

use crate::reply::{no_reply, Numbers, Purged, Sent};

/// A register of a port. The registers are 64 octets: each is a number of 32 bits, whose high octet is the one at its offset.
///
/// Every other offset that [`Port::read_register`](crate::Port::read_register) takes reads zero, and a write to it does nothing.
#[derive(Clone, Copy, Debug, PartialEq, Eq, Hash)]
#[repr(u32)]
pub enum Register {
    /// 0: a write ticks and transmits ([`Control`]); reads zero.
    Control = 0,
    /// 4: whether the port is open and the interrupt line is up ([`Status`]).
    Status = 4,
    /// 8: what has happened ([`Flags`]); writing a one to a flag clears it.
    Flags = 8,
    /// 12: the interrupt mask ([`Mask`]), kept as written.
    Mask = 12,
    /// 16: how many frames of the chosen stream were accepted ([`StreamCounts::accepted`]).
    Accepted = 16,
    /// 20: how many frames of the chosen stream were discarded ([`StreamCounts::discarded`]).
    Discarded = 20,
    /// 24: how many frames the port has sent, those of all streams and those of best effort.
    Sent = 24,
    /// 28: the chosen stream, whose counts 16 and 20 show, kept as written; with a number above 63 here both read zero.
    Choice = 28,
}

/// All registers, by rising offset.
const REGISTERS: [Register; 8] = [
    Register::Control,
    Register::Status,
    Register::Flags,
    Register::Mask,
    Register::Accepted,
    Register::Discarded,
    Register::Sent,
    Register::Choice,
];

impl Register {
    /// Where the register stands in the 64 octets.
    pub const fn offset(self) -> u32 {
        self as u32
    }

    /// The register at an offset, where there is one.
    pub fn from_offset(offset: u32) -> Option<Register> {
        REGISTERS.into_iter().find(|register| register.offset() == offset)
    }
}

/// Defines a register of single bits: for each its name, its number from the lowest on, and what a one says, which is also its documentation.
macro_rules! bits {
    ($(#[doc = $documentation:literal])* $register:ident: $($bit:ident = $number:literal, $words:literal;)*) => {
        $(#[doc = $documentation])*
        #[derive(Clone, Copy, Debug, Default, PartialEq, Eq, Hash)]
        pub struct $register {
            $(#[doc = concat!("Bit ", $number, ": ", $words, ".")] pub $bit: bool,)*
        }

        impl $register {
            /// What the bits of a register's value say; a one in any other bit is left out.
            pub const fn from_bits(bits: u32) -> $register {
                $register { $($bit: bits >> $number & 1 == 1,)* }
            }

            /// The register's value, with zeros in all other bits.
            pub const fn bits(self) -> u32 {
                0 $(| (self.$bit as u32) << $number)*
            }
        }
    };
}

bits! {
    /// What a write to control asks for. With both bits the tick comes first.
    Control:
    tick = 0, "an epoch of the port ends";
    transmit = 1, "the link can send a frame";
}

bits! {
    /// What status shows.
    Status:
    open = 0, "the port is open, as a [`Port`](crate::Port) always is";
    interrupt = 1, "the interrupt line is up, which it is exactly when flags and mask share a one";
}

bits! {
    /// The flags: what has happened since the opening, or since a flag was last cleared.
    Flags:
    discard = 0, "a frame was discarded (14)";
    purge = 1, "a tick purged at least one frame";
    nothing = 2, "a transmit had nothing to send";
}

/// The interrupt mask: which flags raise the interrupt line. It is kept as written, also in the bits that no flag has.
///
/// ```
/// use bunnysolder::{Flags, Mask};
///
/// let flags = Flags { discard: true, purge: true, nothing: false };
/// assert_eq!(Mask::from(flags), Mask(0b011));
/// assert_eq!(Mask(0xFFFF_0003).flags(), flags);
/// ```
#[derive(Clone, Copy, Debug, Default, PartialEq, Eq, Hash)]
pub struct Mask(pub u32);

impl Mask {
    /// The flags that raise the interrupt line.
    pub const fn flags(self) -> Flags {
        Flags::from_bits(self.0)
    }
}

impl From<Flags> for Mask {
    fn from(flags: Flags) -> Mask {
        Mask(flags.bits())
    }
}

/// The counts of one stream, each from 0 at the opening on, and from 0 again where the stream is withdrawn; after 4,294,967,295 comes 0.
///
/// They depend on nothing that happens to other streams.
#[derive(Clone, Copy, Debug, Default, PartialEq, Eq, Hash)]
pub struct StreamCounts {
    /// How many of its frames were accepted: those of Arrive, and of each Frame that became one.
    pub accepted: u32,
    /// How many of its frames were discarded (14).
    pub discarded: u32,
}

/// What a write to control replies: what its last call replies.
#[derive(Clone, Copy, Debug, PartialEq, Eq, Hash)]
pub enum Controlled {
    /// Neither was asked for, and nothing was done.
    Neither,
    /// The tick alone was asked for.
    Ticked(Purged),
    /// The transmit was asked for. Where the tick was too, [`Flags::purge`] shows whether that purged.
    Transmitted(Sent),
}

impl Controlled {
    /// "A control write as its last call", "with neither bit two zeros".
    pub(crate) fn of(control: Control, numbers: Numbers) -> Controlled {
        match control {
            Control { transmit: true, .. } => Controlled::Transmitted(Sent::of(numbers)),
            Control { tick: true, .. } => Controlled::Ticked(Purged::of(numbers)),
            _ => {
                written(numbers);
                Controlled::Neither
            }
        }
    }
}

impl StreamCounts {
    /// The accepted and the discarded count.
    pub(crate) fn of((accepted, discarded): Numbers) -> StreamCounts {
        StreamCounts { accepted, discarded }
    }
}

impl Status {
    /// What a read of status replies.
    pub(crate) fn of(numbers: Numbers) -> Status {
        match Status::from_bits(read(numbers)) {
            status if status.bits() == numbers.0 => status,
            _ => no_reply(numbers, "a read of status"),
        }
    }
}

impl Flags {
    /// What a read of the flags replies.
    pub(crate) fn of(numbers: Numbers) -> Flags {
        match Flags::from_bits(read(numbers)) {
            flags if flags.bits() == numbers.0 => flags,
            _ => no_reply(numbers, "a read of the flags"),
        }
    }
}

/// A read's reply, "the register and 0": the register.
pub(crate) fn read(numbers: Numbers) -> u32 {
    match numbers {
        (register, 0) => register,
        _ => no_reply(numbers, "a register read"),
    }
}

/// The reply of a write to anything but control, "two zeros".
pub(crate) fn written(numbers: Numbers) {
    match numbers {
        (0, 0) => (),
        _ => no_reply(numbers, "a register write"),
    }
}

#[cfg(test)]
mod tests {
    use super::*;
    use crate::reply::stops;

    const BOTH: Control = Control { tick: true, transmit: true };
    const TICK: Control = Control { tick: true, transmit: false };
    const TRANSMIT: Control = Control { tick: false, transmit: true };
    const NEITHER: Control = Control { tick: false, transmit: false };

    #[test]
    fn registers_are_read() {
        assert_eq!(read((u32::MAX, 0)), u32::MAX);
        assert!(stops(read, (0, 1)));
    }

    #[test]
    fn counts_are_read() {
        assert_eq!(StreamCounts::of((2, 1)), StreamCounts { accepted: 2, discarded: 1 });
        assert_eq!(StreamCounts::of((0, u32::MAX)), StreamCounts { accepted: 0, discarded: u32::MAX });
    }

    #[test]
    fn status_is_read() {
        assert_eq!(Status::of((0, 0)), Status { open: false, interrupt: false });
        assert_eq!(Status::of((1, 0)), Status { open: true, interrupt: false });
        assert_eq!(Status::of((2, 0)), Status { open: false, interrupt: true });
        assert!([(4, 0), (u32::MAX, 0), (1, 1)].into_iter().all(|numbers| stops(Status::of, numbers)));
    }

    #[test]
    fn flags_are_read() {
        assert_eq!(Flags::of((1, 0)), Flags { discard: true, purge: false, nothing: false });
        assert_eq!(Flags::of((2, 0)), Flags { discard: false, purge: true, nothing: false });
        assert_eq!(Flags::of((4, 0)), Flags { discard: false, purge: false, nothing: true });
        assert!([(8, 0), (1 << 31, 0), (1, 1)].into_iter().all(|numbers| stops(Flags::of, numbers)));
    }

    #[test]
    fn writes_are_read() {
        written((0, 0));
        assert!([(1, 0), (0, 1)].into_iter().all(|numbers| stops(written, numbers)));
    }

    /// A reply to control is that of the last call that was asked for.
    #[test]
    fn control_writes_are_read_as_what_was_asked() {
        assert_eq!(Controlled::of(TICK, (1, 120)), Controlled::Ticked(Purged { frames: 1, octets: 120 }));
        assert_eq!(Controlled::of(TRANSMIT, (5, 120)), Controlled::Transmitted(Sent::Reserved { stream: 5, tag: 120 }));
        assert_eq!(Controlled::of(BOTH, (254, 0)), Controlled::Transmitted(Sent::Nothing));
        assert_eq!(Controlled::of(NEITHER, (0, 0)), Controlled::Neither);
        assert!(stops(|numbers| Controlled::of(BOTH, numbers), (64, 0)));
        assert!(stops(|numbers| Controlled::of(NEITHER, numbers), (254, 0)));
    }
}
