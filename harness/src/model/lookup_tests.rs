//! The model's own tests of the lookup: its numbers worked out by hand from the sentences of document 02, "Compare the VLAN id first", and their
//! reading, on ports that are fit and on others.

use super::tests::{Lent, STREAM};
use crate::call::Call;

/// The addresses of the reading, "Two bindings ending 66 and 67".
const ENDING_66: [u8; 6] = [2, 0, 0x5e, 0x10, 0x20, 66];
const ENDING_67: [u8; 6] = [2, 0, 0x5e, 0x10, 0x20, 67];
/// The VID of most bindings.
const VID: u32 = 7;
/// What stands for the stream where none is found.
const NONE: u32 = 255;

impl Lent {
    /// Plays a Lookup.
    fn lookup(&mut self, address: [u8; 6], vid: u32) -> (u8, u32, u32) {
        self.play(Call::Lookup { address, vid })
    }

    /// A closed port whose entries have bindings, of streams that are not reserved.
    fn bound(bindings: &[(usize, [u8; 6], u16)]) -> Lent {
        let mut lent = Lent::zeroed();
        for &(stream, address, vid) in bindings {
            let entry = 64 + 16 * stream;
            lent.record[entry + 7] = 1;
            lent.put(entry + 8, vid);
            lent.record[entry + 10..entry + 16].copy_from_slice(&address);
        }
        lent
    }

    /// The port of the cases, with its stream and the next bound to the addresses of the reading.
    fn of_the_reading() -> Lent {
        let mut lent = Lent::of_the_cases();
        assert_eq!(lent.reserve(STREAM + 1, 200), (0, 200, 0));
        assert_eq!(lent.bind(STREAM, ENDING_66, VID), (0, 0, 0));
        assert_eq!(lent.bind(STREAM + 1, ENDING_67, VID), (0, 0, 0));
        lent
    }
}

/// The address with one octet changed.
fn apart_in(place: usize) -> [u8; 6] {
    let mut address = ENDING_66;
    address[place] ^= 0x80;
    address
}

/// "Two bindings ending 66 and 67, same VID, looking for the second: 7": one octet of the first, six of the second. For the first: six.
#[test]
fn the_numbers_of_the_reading() {
    let mut lent = Lent::of_the_reading();
    assert_eq!(lent.lookup(ENDING_67, VID), (0, 6, 7));
    assert_eq!(lent.lookup(ENDING_66, VID), (0, 5, 6));
}

/// "comparing the VID and, only where that is equal, the address": where the VID differs no octet is compared.
#[test]
fn another_vid_costs_nothing() {
    let mut lent = Lent::of_the_reading();
    for vid in [6, 8, 256 * 7, 256 + 7, 0] {
        assert_eq!(lent.lookup(ENDING_67, vid), (0, NONE, 0));
    }
    let mut lent = Lent::bound(&[(3, ENDING_66, 6), (4, ENDING_66, 8), (5, ENDING_66, 7)]);
    assert_eq!(lent.lookup(ENDING_66, 7), (0, 5, 6));
}

/// "the address from its last octet back, up to the first octet that differs", which "has been compared and counts".
#[test]
fn octets_up_to_the_first_that_differs() {
    for (place, compared) in [(5, 1), (4, 2), (3, 3), (2, 4), (1, 5), (0, 6)] {
        let mut lent = Lent::bound(&[(3, apart_in(place), 7), (9, ENDING_66, 7)]);
        assert_eq!(lent.lookup(ENDING_66, VID), (0, 9, compared + 6));
        let mut lent = Lent::bound(&[(3, apart_in(place), 7)]);
        assert_eq!(lent.lookup(ENDING_66, VID), (0, NONE, compared));
    }
    let mut lent = Lent::bound(&[(3, [9, 9, 9, 9, 0x20, 66], 7)]);
    assert_eq!(lent.lookup(ENDING_66, VID), (0, NONE, 3));
}

/// "the number is the sum over all bindings gone through, found or not": 1 + 2 + 3 + 4 + 5 + 6 octets, and those of 64 bindings.
#[test]
fn the_sum_over_all_gone_through() {
    let each: Vec<_> = (0..6).map(|place| (10 * place, apart_in(place), 7)).collect();
    assert_eq!(Lent::bound(&each).lookup(ENDING_66, VID), (0, NONE, 21));
    let ends: Vec<_> = (0..64).map(|stream| (stream, [0, 0, 0, 0, 0, stream as u8], 7)).collect();
    assert_eq!(Lent::bound(&ends).lookup([0, 0, 0, 0, 0, 64], VID), (0, NONE, 64));
    assert_eq!(Lent::bound(&ends).lookup([0, 0, 0, 0, 0, 63], VID), (0, 63, 69));
    let starts: Vec<_> = (0..64).map(|stream| (stream, [stream as u8, 0, 0, 0, 0, 0], 7)).collect();
    assert_eq!(Lent::bound(&starts).lookup([64, 0, 0, 0, 0, 0], VID), (0, NONE, 384));
    assert_eq!(Lent::bound(&starts).lookup([63, 0, 0, 0, 0, 0], VID), (0, 63, 384));
    assert_eq!(Lent::bound(&starts).lookup([0; 6], VID), (0, 0, 6));
}

/// "by rising stream up to the one that matches": of two streams with one pair the lower one is found, and nothing after it is compared.
#[test]
fn the_first_of_several() {
    let mut lent = Lent::bound(&[(3, ENDING_67, 7), (20, ENDING_66, 7), (21, ENDING_67, 7), (40, ENDING_66, 7)]);
    assert_eq!(lent.lookup(ENDING_66, VID), (0, 20, 7));
}

/// "Draining streams' bindings are among them", up to the fourth tick, with which the binding is gone.
#[test]
fn bindings_of_draining_streams() {
    let mut lent = Lent::of_the_reading();
    assert_eq!(lent.play(Call::Withdraw { stream: STREAM }), (0, 0, 0));
    for _ in 0..4 {
        assert_eq!(lent.lookup(ENDING_67, VID), (0, 6, 7));
        assert_eq!(lent.lookup(ENDING_66, VID), (0, 5, 6));
        assert_eq!(lent.tick(), (0, 0, 0));
    }
    assert_eq!(lent.lookup(ENDING_67, VID), (0, 6, 6));
    assert_eq!(lent.lookup(ENDING_66, VID), (0, NONE, 1));
}

/// A binding is one where the bound mark is 1, whatever the other marks say.
#[test]
fn the_bound_mark_alone() {
    for mark in [0, 2, 0x81, 255] {
        let mut lent = Lent::bound(&[(3, ENDING_66, 7), (9, ENDING_66, 7)]);
        lent.record[64 + 16 * 3 + 7] = mark;
        assert_eq!(lent.lookup(ENDING_66, VID), (0, 9, 6));
    }
    let mut lent = Lent::bound(&[(3, ENDING_67, 7), (9, ENDING_66, 7)]);
    lent.record[64 + 16 * 9] = 1;
    lent.record[64 + 16 * 9 + 6] = 200;
    assert_eq!(lent.lookup(ENDING_66, VID), (0, 9, 7));
}

/// A VID has no range here: what two octets hold is found, and a larger one never.
#[test]
fn vids_of_any_size() {
    for vid in [0, 1, 4_094, 4_095, 4_096, 65_535] {
        let mut lent = Lent::bound(&[(63, ENDING_66, vid)]);
        assert_eq!(lent.lookup(ENDING_66, vid.into()), (0, 63, 6));
        assert_eq!(lent.lookup(ENDING_66, 65_536 + u32::from(vid)), (0, NONE, 0));
        assert_eq!(lent.lookup(ENDING_66, u32::MAX), (0, NONE, 0));
    }
}

/// A port that is too short is 19; nothing else is refused: no memory, a closed port, a record that is not fit.
#[test]
fn short_ports_alone_are_refused() {
    let lent = Lent::bound(&[(3, ENDING_67, 7), (63, ENDING_66, 7)]);
    for (length, reply) in
        [(0, (19, 0, 0)), (1_087, (19, 0, 0)), (1_088, (19, 0, 0)), (1_615, (19, 0, 0)), (1_616, (0, 63, 7)), (1_617, (0, 63, 7))]
    {
        let mut cut = Lent { record: lent.record.clone(), memory: Vec::new() };
        cut.record.resize(length, 0);
        assert_eq!(cut.lookup(ENDING_66, VID), reply);
    }
    let mut unfit = lent.clone();
    unfit.record[..2].copy_from_slice(&[1, 9]);
    assert_eq!(unfit.tick(), (19, 0, 0));
    assert_eq!(unfit.lookup(ENDING_66, VID), (0, 63, 7));
}

/// A lookup writes nothing, and no register notes it.
#[test]
fn nothing_is_written() {
    let mut lent = Lent::of_the_reading();
    let before = lent.clone();
    lent.lookup(ENDING_66, VID);
    lent.lookup(ENDING_67, 8);
    assert_eq!(lent, before);
}

/// "Callers get the very stream they got before": a frame joins on the stream that is found, and a pair that is found is 11.
#[test]
fn callers_get_the_stream() {
    let mut lent = Lent::of_the_reading();
    assert_eq!(lent.reserve(STREAM + 2, 200), (0, 0, 0));
    assert_eq!(lent.bind(STREAM + 2, ENDING_67, VID), (11, 0, 0));
    assert_eq!(lent.clone().bind(STREAM + 2, ENDING_67, VID + 1), (0, 0, 0));
    assert_eq!(lent.clone().bind(STREAM + 2, apart_in(0), VID), (0, 0, 0));
    let mut octets = [&ENDING_67[..], &[0; 6], &[0x81, 0x00, 0x00, VID as u8]].concat();
    octets.resize(60, 0);
    assert_eq!(lent.play(Call::Frame { octets: octets.into(), tag: 3 }), (0, 1, 116));
    assert_eq!(lent.transmit(), (0, 6, 3));
}
