//! What each call of a list counts as, from the events alone: a Frame "that is not refused with 17 and becomes an Arrive in its list counts there as
//! that Arrive", and a control write as the tick or the transmit that it makes, since "any list of control writes does to the port what the named
//! calls do". A control write with both bits is in no list: its one reply does not say what the tick replied. A list that would hold one holds in its
//! place two writes, one with each bit, played one after the other; that these are that write is held in `comparing::tests::register_lists`. The
//! numbers of documents 01 and 02 stand here and in `ranges` as numbers, not as the model's.

use crate::call::Call;
use crate::guarantee::list::Event;
use crate::guarantee::ranges::{BESIDE_LENGTH, LENGTHS};
use crate::guarantee::taken::{Pair, Taken};

/// "17 frame outside" its range of lengths.
const OUTSIDE: u8 = 17;
/// The octets of a header up to those of the VID.
const HEADER: usize = 16;

/// What each call of a list counts as: a Frame that is not refused with 17 as the Arrive or Best effort that it becomes by the bindings of then, a
/// control write of one bit as the call that it makes, any other call as itself.
pub fn counted(events: &[Event]) -> Vec<Call> {
    let mut taken = Taken::default();
    let count = |event: &Event| match (made(&event.call), event.reply.refusal) {
        (Call::Frame { octets, tag }, refusal) if refusal != OUTSIDE => becomes(&taken, &octets, tag),
        (call, 0) => {
            taken.follow(&call);
            call
        }
        (call, _) => call,
    };
    events.iter().map(count).collect()
}

/// "Offset 0 is control".
const CONTROL: u32 = 0;
/// "writing bit 0 ticks, then bit 1 transmits".
const TICKS: u32 = 1;
const TRANSMITS: u32 = 2;

/// The call that a control write of one bit makes, or the call itself.
pub fn made(call: &Call) -> Call {
    match *call {
        Call::WriteRegister { offset: CONTROL, value } if value & (TICKS | TRANSMITS) == TICKS => Call::Tick,
        Call::WriteRegister { offset: CONTROL, value } if value & (TICKS | TRANSMITS) == TRANSMITS => Call::Transmit,
        _ => call.clone(),
    }
}

/// Whether a call makes both a Tick and a Transmit.
pub fn makes_both(call: &Call) -> bool {
    matches!(*call, Call::WriteRegister { offset: CONTROL, value } if value & TICKS != 0 && value & TRANSMITS != 0)
}

/// What a list holds in the place of a call: of a control write with both bits a write with each, else the call.
pub fn one_by_one(call: Call) -> Vec<Call> {
    match call {
        Call::WriteRegister { offset, value } if makes_both(&call) => {
            [value & !TRANSMITS, value & !TICKS].map(|value| Call::WriteRegister { offset, value }).to_vec()
        }
        call => vec![call],
    }
}

/// A control write that makes a Tick or a Transmit, whatever its bits above; any other call as it is.
pub fn by_control(call: Call, above: u32) -> Call {
    let above = above & !(TICKS | TRANSMITS);
    match call {
        Call::Tick => Call::WriteRegister { offset: CONTROL, value: above | TICKS },
        Call::Transmit => Call::WriteRegister { offset: CONTROL, value: above | TRANSMITS },
        call => call,
    }
}

/// "A bound pair is an Arrive on its stream; all else is best effort."
fn becomes(taken: &Taken, octets: &[u8], tag: u32) -> Call {
    let charge = octets.len() as u32 + BESIDE_LENGTH;
    match pair(octets).and_then(|pair| taken.bound_to(&pair)) {
        Some(stream) => Call::Arrive { stream, charge, tag },
        None => Call::BestEffort { charge, tag },
    }
}

/// "octets 0 to 5 are the destination. If octets 12 and 13 are 81 00 (hexadecimal), the VID is the low 12 bits of octets 14 and 15, high octet
/// first."
fn pair(octets: &[u8]) -> Option<Pair> {
    let header: &[u8; HEADER] = octets.first_chunk()?;
    let destination = *header.first_chunk()?;
    let vid = u32::from(header[14] & 0x0f) << 8 | u32::from(header[15]);
    (header[12..14] == [0x81, 0x00]).then_some((destination, vid))
}

/// Whether a Frame is refused with 17 though its length is in the range, or is not though its length is outside.
pub fn is_judged_wrongly(event: &Event) -> bool {
    match &event.call {
        Call::Frame { octets, .. } => LENGTHS.contains(&octets.len()) == (event.reply.refusal == OUTSIDE),
        _ => false,
    }
}
