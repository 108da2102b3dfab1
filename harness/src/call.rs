//! A call on a port and its reply, and a stream by itself, as plain values: what the model, the exports and the tests speak of alike.

use std::fmt;
use std::sync::Arc;

/// The octets of a destination address: "a destination address of six octets".
pub const ADDRESS_OCTETS: usize = 6;

/// A call with its arguments: numbers are unsigned 32-bit, a stream is an octet. It holds the address of a Bind or a Lookup and the octets of a
/// Frame, which its copies share.
#[derive(Clone, Copy, Debug, PartialEq, Eq, Hash)]
pub enum Call<Address = [u8; ADDRESS_OCTETS], Octets = Arc<[u8]>> {
    Open { link: u32, delay: u32 },
    Reserve { stream: u8, permitted: u32 },
    Arrive { stream: u8, charge: u32, tag: u32 },
    Tick,
    Transmit,
    BestEffort { charge: u32, tag: u32 },
    Bind { stream: u8, address: Address, vid: u32 },
    Frame { octets: Octets, tag: u32 },
    Withdraw { stream: u8 },
    ReadRegister { offset: u32 },
    WriteRegister { offset: u32, value: u32 },
    Lookup { address: Address, vid: u32 },
    StreamCounts { stream: u8 },
}

/// A call as it is given to a port: address and octets lie where the caller lends them.
pub type Given<'a> = Call<&'a [u8; ADDRESS_OCTETS], &'a [u8]>;

/// The refusal, or 0, and the two reply numbers.
#[derive(Clone, Copy, Debug, PartialEq, Eq)]
pub struct Reply {
    pub refusal: u8,
    pub first: u32,
    pub second: u32,
}

impl Reply {
    /// A call that is not refused replies 0 and its two numbers.
    pub const fn granted(first: u32, second: u32) -> Reply {
        Reply { refusal: 0, first, second }
    }

    /// A refusal replies its number and two zeros.
    pub const fn refused(refusal: u8) -> Reply {
        Reply { refusal, first: 0, second: 0 }
    }
}

/// The record of one stream, as a caller keeps it by itself, without a port; its fields lie as C lays them.
#[repr(C)]
#[derive(Clone, Copy, Debug, PartialEq, Eq)]
pub struct Stream {
    pub reserved: bool,
    /// P.
    pub permitted: u16,
    pub place: u8,
    pub left: u16,
}

impl Call {
    /// The call with its address or octets lent from where it holds them.
    pub fn given(&self) -> Given<'_> {
        match *self {
            Call::Open { link, delay } => Call::Open { link, delay },
            Call::Reserve { stream, permitted } => Call::Reserve { stream, permitted },
            Call::Arrive { stream, charge, tag } => Call::Arrive { stream, charge, tag },
            Call::Tick => Call::Tick,
            Call::Transmit => Call::Transmit,
            Call::BestEffort { charge, tag } => Call::BestEffort { charge, tag },
            Call::Bind { stream, ref address, vid } => Call::Bind { stream, address, vid },
            Call::Frame { ref octets, tag } => Call::Frame { octets, tag },
            Call::Withdraw { stream } => Call::Withdraw { stream },
            Call::ReadRegister { offset } => Call::ReadRegister { offset },
            Call::WriteRegister { offset, value } => Call::WriteRegister { offset, value },
            Call::Lookup { ref address, vid } => Call::Lookup { address, vid },
            Call::StreamCounts { stream } => Call::StreamCounts { stream },
        }
    }
}

/// The octets of a frame that a report tells: all that Frame reads of its header.
const TOLD_OCTETS: usize = 16;

impl fmt::Display for Call {
    fn fmt(&self, f: &mut fmt::Formatter<'_>) -> fmt::Result {
        match self {
            Call::Open { link, delay } => write!(f, "open {link} {delay}"),
            Call::Reserve { stream, permitted } => write!(f, "reserve {stream} {permitted}"),
            Call::Arrive { stream, charge, tag } => write!(f, "arrive {stream} {charge} {tag}"),
            Call::Tick => write!(f, "tick"),
            Call::Transmit => write!(f, "transmit"),
            Call::BestEffort { charge, tag } => write!(f, "best effort {charge} {tag}"),
            Call::Bind { stream, address, vid } => write!(f, "bind {stream} {} {vid}", hexadecimal(address)),
            Call::Frame { octets, tag } => {
                let header = hexadecimal(&octets[..octets.len().min(TOLD_OCTETS)]);
                write!(f, "frame of {} octets [{header}] {tag}", octets.len())
            }
            Call::Withdraw { stream } => write!(f, "withdraw {stream}"),
            Call::ReadRegister { offset } => write!(f, "read register {offset}"),
            Call::WriteRegister { offset, value } => write!(f, "write register {offset} {value}"),
            Call::Lookup { address, vid } => write!(f, "lookup {} {vid}", hexadecimal(address)),
            Call::StreamCounts { stream } => write!(f, "stream counts {stream}"),
        }
    }
}

/// Octets in hexadecimal, with a space between any two.
pub fn hexadecimal(octets: &[u8]) -> String {
    let texts: Vec<String> = octets.iter().map(|octet| format!("{octet:02x}")).collect();
    texts.join(" ")
}

impl fmt::Display for Reply {
    fn fmt(&self, f: &mut fmt::Formatter<'_>) -> fmt::Result {
        write!(f, "{} {} {}", self.refusal, self.first, self.second)
    }
}
