//! Documents 01 and 02 through a port of this package, as a user calls it, with the replies that the documents state.

mod cases;
mod counting;
mod envelope;
mod lookups;
mod names;
mod refusals;
mod registers;
mod threads;
mod withdrawing;

use std::fmt::Debug;

use bunnysolder::{Joined, Port, Queue, Refusal, Reserved, Waiting, LONGEST_FRAME};

/// The stream of the documents' cases.
const STREAM: u8 = 5;
/// An address to bind to.
const ADDRESS: [u8; 6] = [0x01, 0x80, 0xC2, 0x00, 0x00, 0x0E];

/// An open port without reservations: "L = 2,620, K = 1, unless said otherwise".
fn opened() -> Port {
    let port = Port::open(2_620, 1).expect("L and K are in their ranges");
    assert_eq!(port.share(), 600);
    port
}

/// That port with the cases' stream: "Stream P = 200".
fn reserved() -> Port {
    let mut port = opened();
    assert_eq!(port.reserve(STREAM, 200), Ok(Reserved { free: 400 }));
    port
}

/// The reply of an arrival that joined a queue and left so many octets.
fn joined(queue: Queue, left: u32) -> Result<Joined, Refusal> {
    Ok(Joined { queue, left })
}

/// The reply of a best-effort frame after which so many octets wait.
fn waiting(octets: u32) -> Result<Waiting, Refusal> {
    Ok(Waiting { octets })
}

/// A call must be refused with a number, which has this name.
fn refused<T: Debug>(reply: Result<T, Refusal>, name: Refusal, number: u8) {
    let refusal = reply.expect_err("the call is refused");
    assert_eq!((refusal, refusal.number()), (name, number));
}

/// Octets with a VLAN tag to the address of these tests, one more than a frame may have.
fn frame(vid: u8) -> [u8; LONGEST_FRAME + 1] {
    let mut octets = [0; LONGEST_FRAME + 1];
    octets[..6].copy_from_slice(&ADDRESS);
    octets[12..16].copy_from_slice(&[0x81, 0x00, 0x00, vid]);
    octets
}
