//! The model's own tests of Bind and Frame: what a header says, what each call writes and replies, and its refusals in their order.

use super::frame::{charge, pair, Pair};
use super::tests::{Lent, ENTRY, STREAM};
use crate::call::Call;

/// An address, and another that differs in its last octet.
pub const ADDRESS: [u8; 6] = [1, 2, 3, 4, 5, 6];
const OTHER: [u8; 6] = [1, 2, 3, 4, 5, 7];
/// Octets 14 and 15 for VID 291.
pub const CONTROL: [u8; 2] = [0x01, 0x23];

impl Lent {
    /// Plays a Bind.
    pub fn bind(&mut self, stream: u8, address: [u8; 6], vid: u32) -> (u8, u32, u32) {
        self.play(Call::Bind { stream, address, vid })
    }

    /// Plays a Frame of a length to the first address, with these octets 12 to 15.
    pub fn frame(&mut self, protocol: [u8; 2], control: [u8; 2], length: usize) -> (u8, u32, u32) {
        self.play(Call::Frame { octets: octets(protocol, control, length).into(), tag: 0x0102_0304 })
    }

    /// Plays a tagged Frame.
    pub fn tagged(&mut self, control: [u8; 2], length: usize) -> (u8, u32, u32) {
        self.frame([0x81, 0x00], control, length)
    }
}

/// A frame of a length to the first address, with these octets 12 to 15 as far as it has them, and zeros else.
fn octets(protocol: [u8; 2], control: [u8; 2], length: usize) -> Vec<u8> {
    let mut octets = [&ADDRESS[..], &[0; 6], &protocol, &control].concat();
    octets.resize(length, 0);
    octets
}

/// The charge is 24 octets more than the length.
#[test]
fn charges_of_frames() {
    assert_eq!(charge(&[0; 60]), 84);
    assert_eq!(charge(&[0; 1_996]), 2_020);
}

/// The pair is destination and VID, the low 12 bits of octets 14 and 15, of a frame whose octets 12 and 13 are 81 00.
#[test]
fn pairs_of_frames() {
    for (control, vid) in [([0x01, 0x23], 0x123), ([0xf1, 0x23], 0x123), ([0x10, 0x00], 0), ([0xff, 0xff], 4_095), ([0x2f, 0xfe], 4_094)] {
        assert_eq!(pair(&octets([0x81, 0x00], control, 60)), Some(Pair { address: ADDRESS, vid }));
    }
    for protocol in [[0x80, 0x00], [0x81, 0x01], [0x00, 0x81], [0x88, 0xa8], [0x08, 0x00], [0x01, 0x00]] {
        assert_eq!(pair(&octets(protocol, CONTROL, 60)), None);
    }
}

/// Bind writes bound mark, VID and address of its stream, and replies two zeros.
#[test]
fn bind_writes_what_its_rule_names() {
    let mut lent = Lent::of_the_cases();
    lent.record[ENTRY + 7..ENTRY + 16].fill(0xee);
    let mut after = lent.clone();
    assert_eq!(lent.bind(STREAM, ADDRESS, 0x0abc), (0, 0, 0));
    after.record[ENTRY + 7..ENTRY + 16].copy_from_slice(&[1, 0x0a, 0xbc, 1, 2, 3, 4, 5, 6]);
    assert_eq!(lent, after);
    assert_eq!(lent.unfit(), []);
}

/// Bind's checks run 1, 5, 12, 9, 10, 11.
#[test]
fn bind_checks_in_order() {
    let mut lent = Lent::of_the_cases();
    assert_eq!(lent.reserve(6, 200), (0, 200, 0));
    assert_eq!(lent.bind(STREAM, ADDRESS, 7), (0, 0, 0));
    let before = lent.clone();
    for (stream, address, vid, refusal) in [
        (64, ADDRESS, 0, 5),
        (255, ADDRESS, 7, 5),
        (7, ADDRESS, 0, 12),
        (7, ADDRESS, 7, 12),
        (STREAM, ADDRESS, 0, 9),
        (6, ADDRESS, 4_095, 9),
        (6, ADDRESS, 65_536 + 7, 9),
        (STREAM, ADDRESS, 7, 10),
        (STREAM, OTHER, 7, 10),
        (6, ADDRESS, 7, 11),
    ] {
        assert_eq!(lent.bind(stream, address, vid), (refusal, 0, 0));
        assert_eq!(lent, before);
    }
    assert_eq!(lent.clone().bind(6, OTHER, 7), (0, 0, 0));
    assert_eq!(lent.clone().bind(6, ADDRESS, 8), (0, 0, 0));
    lent.record[0] = 0;
    assert_eq!(lent.bind(64, ADDRESS, 0), (1, 0, 0));
}

/// The ends of the VIDs.
#[test]
fn vids_at_the_ends() {
    for (vid, refusal) in [(0, 9), (1, 0), (4_094, 0), (4_095, 9), (4_097, 9), (65_537, 9), (u32::MAX, 9)] {
        assert_eq!(Lent::of_the_cases().bind(STREAM, ADDRESS, vid), (refusal, 0, 0));
    }
}

/// The sample by frames: a bound pair is an Arrive on its stream.
#[test]
fn bound_frames_arrive() {
    let mut lent = Lent::of_the_cases();
    lent.bind(STREAM, ADDRESS, 0x123);
    let mut arrived = lent.clone();
    assert_eq!(lent.tagged(CONTROL, 96), (0, 1, 80));
    assert_eq!(arrived.arrive(120, 0x0102_0304), (0, 1, 80));
    assert_eq!(lent, arrived);
    assert_eq!(lent.tagged([0xf1, 0x23], 76), (0, 2, 100));
    assert_eq!(lent.transmit(), (0, 5, 0x0102_0304));
}

/// All else is best effort.
#[test]
fn other_frames_are_best_effort() {
    let mut lent = Lent::of_the_cases();
    lent.bind(STREAM, OTHER, 0x123);
    lent.record[ENTRY + 16 + 8..ENTRY + 32].copy_from_slice(&[0x01, 0x23, 1, 2, 3, 4, 5, 6]);
    for protocol in [[0x81, 0x00], [0x88, 0xa8], [0x08, 0x00]] {
        let (mut framed, mut charged) = (lent.clone(), lent.clone());
        assert_eq!(framed.frame(protocol, CONTROL, 60), (0, 84, 0));
        assert_eq!(charged.best_effort(84, 0x0102_0304), (0, 84, 0));
        assert_eq!(framed, charged);
    }
    let mut lent = Lent::of_the_cases();
    lent.bind(STREAM, ADDRESS, 0x123);
    for (control, waits) in [([0, 0], 84), ([0x0f, 0xff], 168), ([0x23, 0x01], 252), ([0x01, 0x22], 336)] {
        assert_eq!(lent.tagged(control, 60), (0, waits, 0));
    }
}

/// Frame's checks run 1, 17, then those of what it becomes.
#[test]
fn frame_checks_in_order() {
    let mut lent = Lent::of_the_cases();
    lent.bind(STREAM, ADDRESS, 0x123);
    assert_eq!(lent.tagged(CONTROL, 177), (14, 0, 0));
    assert_eq!(lent.place(), (3, 0));
    assert_eq!(lent.best_effort(2_020, 1), (0, 2_020, 0));
    assert_eq!(lent.best_effort(400, 1), (0, 2_420, 0));
    for length in [0, 1, 15, 59, 1_997, 65_536 + 60] {
        assert_eq!(lent.tagged(CONTROL, length), (17, 0, 0));
        assert_eq!(lent.tagged([0, 0], length), (17, 0, 0));
    }
    assert_eq!(lent.tagged(CONTROL, 60), (14, 0, 0));
    assert_eq!(lent.tagged([0, 0], 60), (16, 0, 0));
    lent.fill_best_effort(3, 256);
    assert_eq!(lent.tagged([0, 0], 1_996), (15, 0, 0));
    lent.put_place(2, 200);
    lent.fill(2, 0);
    assert_eq!(lent.tagged(CONTROL, 60), (20, 0, 0));
    lent.record[0] = 0;
    assert_eq!(lent.tagged(CONTROL, 0), (1, 0, 0));
}

/// Open drops all bindings.
#[test]
fn open_drops_bindings() {
    let mut lent = Lent::of_the_cases();
    lent.bind(STREAM, ADDRESS, 0x123);
    lent.record[0] = 0;
    assert_eq!(lent.open(2_620, 1), (0, 600, 0));
    assert_eq!(lent.reserve(6, 200), (0, 400, 0));
    assert_eq!(lent.tagged(CONTROL, 60), (0, 84, 0));
    assert_eq!(lent.bind(6, ADDRESS, 0x123), (0, 0, 0));
    assert_eq!(lent.tagged(CONTROL, 60), (0, 1, 116));
}
