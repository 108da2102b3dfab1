//! Request 4 of document 02, "Compare the VLAN id first": which stream a lookup finds, and "exactly the number of address octets so compared", with
//! numbers derived by hand. A closed port and one that is too short are met by `harness/header.c`.

use bunnysolder::{Address, Framed, Lookup, Port, Purged, Queue, Refusal, Sent, SHORTEST_FRAME};

use crate::{frame, joined, ADDRESS, STREAM};

/// The VID of most bindings here.
const VID: u32 = 100;
/// A stream after that of the cases, and one that is not bound.
const LATER: u8 = 6;
const UNBOUND: u8 = 7;
/// The octets of an address.
const OCTETS: u32 = 6;

/// The address of these tests with another last octet.
fn ending(last: u8) -> Address {
    let mut address = ADDRESS;
    address[5] = last;
    address
}

/// A lookup that finds a stream after so many octets.
fn found(stream: u8, compared: u32) -> Lookup {
    Lookup { stream: Some(stream), compared }
}

/// A lookup that finds none after so many octets.
fn none(compared: u32) -> Lookup {
    Lookup { stream: None, compared }
}

/// A port with the three streams, none of them bound.
fn unbound() -> Port {
    let mut port = Port::open(2_620, 1).expect("L and K are in their ranges");
    for stream in [STREAM, LATER, UNBOUND] {
        assert!(port.reserve(stream, 200).is_ok());
    }
    port
}

/// "Two bindings ending 66 and 67, same VID".
fn two_bound() -> Port {
    let mut port = unbound();
    assert_eq!(port.bind(STREAM, &ending(66), VID), Ok(()));
    assert_eq!(port.bind(LATER, &ending(67), VID), Ok(()));
    port
}

/// "looking for the second: 7": the last octet of the first, which differs, and all six of the second. Looking for the first ends at it.
#[test]
fn two_bindings_of_one_vid() {
    let port = two_bound();
    assert_eq!(port.lookup(&ending(67), VID), found(LATER, 1 + OCTETS));
    assert_eq!(port.lookup(&ending(66), VID), found(STREAM, OCTETS));
}

/// "by rising stream", in whichever order they were bound.
#[test]
fn bindings_are_gone_through_by_rising_stream() {
    let mut port = unbound();
    assert_eq!(port.bind(LATER, &ending(66), VID), Ok(()));
    assert_eq!(port.lookup(&ending(66), VID), found(LATER, OCTETS));
    assert_eq!(port.bind(STREAM, &ending(67), VID), Ok(()));
    assert_eq!(port.lookup(&ending(66), VID), found(LATER, 1 + OCTETS));
    assert_eq!(port.lookup(&ending(67), VID), found(STREAM, OCTETS));
}

/// "comparing the VID and, only where that is equal, the address": of a binding with another VID no octet is compared, whatever its address.
#[test]
fn another_vid_costs_no_octet() {
    let mut port = unbound();
    assert_eq!(port.bind(STREAM, &ADDRESS, VID), Ok(()));
    assert_eq!(port.bind(LATER, &ADDRESS, VID + 1), Ok(()));
    assert_eq!(port.lookup(&ADDRESS, VID), found(STREAM, OCTETS));
    assert_eq!(port.lookup(&ADDRESS, VID + 1), found(LATER, OCTETS));
    assert_eq!(port.lookup(&ADDRESS, VID + 2), none(0));
}

/// Numbers that no binding has find no stream, also those whose low 8, 12 or 16 bits are a binding's VID, and 0 where streams are not bound.
#[test]
fn every_vid_is_taken() {
    let mut port = unbound();
    assert_eq!(port.lookup(&[0; 6], 0), none(0));
    assert_eq!(port.bind(STREAM, &ADDRESS, VID), Ok(()));
    for vid in [0, 1, 4_095, 65_535, VID + (1 << 8), VID + (1 << 12), VID + (1 << 16), VID + (1 << 31), u32::MAX] {
        assert_eq!(port.lookup(&ADDRESS, vid), none(0), "{vid}");
    }
}

/// "the address from its last octet back, up to the first octet that differs", which "has been compared and counts": with octet 5 another, one octet
/// is compared; with octet 0 another, six.
#[test]
fn addresses_are_compared_from_the_last_octet_back() {
    let mut port = unbound();
    assert_eq!(port.bind(STREAM, &ADDRESS, VID), Ok(()));
    for (octet, compared) in [(5, 1), (4, 2), (3, 3), (2, 4), (1, 5), (0, 6)] {
        let mut other = ADDRESS;
        other[octet] ^= 0x80;
        assert_eq!(port.lookup(&other, VID), none(compared));
        other[..octet].fill(0xFF);
        assert_eq!(port.lookup(&other, VID), none(compared), "octets before it do not matter");
    }
}

/// "the number is the sum over all bindings gone through, found or not".
#[test]
fn octets_are_counted_where_none_is_found() {
    assert_eq!(two_bound().lookup(&ending(68), VID), none(1 + 1));
    assert_eq!(two_bound().lookup(&[0xFF; 6], VID), none(1 + 1));
    assert_eq!(unbound().lookup(&ADDRESS, VID), none(0));
}

/// "Draining streams' bindings are among them", until the tick that frees the stream.
#[test]
fn bindings_of_draining_streams_are_gone_through() {
    let mut port = two_bound();
    assert_eq!(port.withdraw(STREAM), Ok(()));
    for _ in 0..4 {
        assert_eq!(port.lookup(&ending(66), VID), found(STREAM, OCTETS));
        assert_eq!(port.lookup(&ending(67), VID), found(LATER, 1 + OCTETS));
        assert_eq!(port.tick(), Ok(Purged { frames: 0, octets: 0 }));
    }
    assert_eq!(port.lookup(&ending(66), VID), none(1));
    assert_eq!(port.lookup(&ending(67), VID), found(LATER, OCTETS));
}

/// A frame arrives on the stream that the lookup finds, and is best effort where that finds none.
#[test]
fn a_frame_has_the_stream_of_its_lookup() {
    for (vid, last) in [(1, 66), (1, 67), (1, 68), (2, 66), (2, 67), (3, 66)] {
        let mut port = unbound();
        assert_eq!(port.bind(STREAM, &ending(66), 1), Ok(()));
        assert_eq!(port.bind(LATER, &ending(67), 2), Ok(()));
        let mut octets = frame(vid);
        octets[..6].copy_from_slice(&ending(last));
        assert!(port.frame(&octets[..SHORTEST_FRAME], 9).is_ok());
        let sent = match port.lookup(&ending(last), u32::from(vid)).stream {
            Some(stream) => Sent::Reserved { stream, tag: 9 },
            None => Sent::BestEffort { tag: 9 },
        };
        assert_eq!(port.transmit(), Ok(sent), "VID {vid}, address ending {last}");
    }
}

/// A binding is refused (11) where the lookup finds a stream, a draining one too, and from its grant on the lookup finds its stream.
#[test]
fn a_binding_is_refused_where_the_lookup_finds_a_stream() {
    for (last, vid, bound) in [(66, VID, true), (67, VID, true), (68, VID, false), (66, VID + 1, false)] {
        let mut port = two_bound();
        assert_eq!(port.withdraw(STREAM), Ok(()));
        assert_eq!(port.lookup(&ending(last), vid).stream.is_some(), bound);
        let reply = port.bind(UNBOUND, &ending(last), vid);
        assert_eq!(reply, if bound { Err(Refusal::PairBoundAlready) } else { Ok(()) });
        assert_eq!(port.lookup(&ending(last), vid).stream == Some(UNBOUND), !bound);
    }
}

/// "Callers get the very stream they got before": a frame between lookups joins as without them, and no register tells of them.
#[test]
fn a_lookup_changes_nothing() {
    let (mut asked, mut other) = (two_bound(), two_bound());
    let mut octets = frame(VID as u8);
    octets[..6].copy_from_slice(&ending(67));
    assert_eq!(asked.lookup(&ending(67), VID), found(LATER, 1 + OCTETS));
    for port in [&mut asked, &mut other] {
        assert_eq!(port.frame(&octets[..SHORTEST_FRAME], 9), joined(Queue::Current, 116).map(Framed::Arrived));
    }
    assert_eq!(asked.lookup(&ending(68), VID), none(2));
    let registers = |port: &Port| (port.status(), port.flags(), port.mask(), port.stream_counts(), port.frames_sent(), port.choice());
    assert_eq!(registers(&asked), registers(&other));
    assert_eq!((asked.transmit(), asked.transmit()), (other.transmit(), other.transmit()));
}

/// The address of a stream among 64: in octet i bit i of its number, so that any two differ, and each octet tells some apart.
fn by_bits(stream: u8) -> Address {
    std::array::from_fn(|octet| stream >> octet & 1)
}

/// The VID of a stream among 64, which has one of three.
fn by_thirds(stream: u8) -> u32 {
    VID + u32::from(stream % 3)
}

/// A port with all 64 streams, each bound to its address and its VID.
fn all_bound(address: impl Fn(u8) -> Address, vid: impl Fn(u8) -> u32) -> Port {
    let mut port = Port::open(23_524, 1).expect("L and K are in their ranges");
    for stream in 0..64 {
        assert!(port.reserve(stream, 84).is_ok());
        assert_eq!(port.bind(stream, &address(stream), vid(stream)), Ok(()));
    }
    port
}

/// The octets compared of two addresses: those at the end that are equal, and the one before them, if there is one.
fn compared(bound: &Address, wanted: &Address) -> u32 {
    let equal = bound.iter().rev().zip(wanted.iter().rev()).take_while(|(one, other)| one == other).count() as u32;
    OCTETS.min(equal + 1)
}

/// 64 bindings: each lookup counts, of the bindings with its VID up to the one that matches, what two addresses take.
#[test]
fn the_sum_is_that_of_all_bindings_gone_through() {
    let port = all_bound(by_bits, by_thirds);
    for (wanted, vid) in (0..64).flat_map(|wanted| (0..4).map(move |third| (wanted, VID + third))) {
        let stream = (by_thirds(wanted) == vid).then_some(wanted);
        let gone_through = (0..=stream.unwrap_or(63)).filter(|bound| by_thirds(*bound) == vid);
        let sum = gone_through.map(|bound| compared(&by_bits(bound), &by_bits(wanted))).sum();
        assert_eq!(port.lookup(&by_bits(wanted), vid), Lookup { stream, compared: sum }, "{wanted} {vid}");
    }
}

/// The most octets, 64 × 6 = 384, where all addresses differ in the first octet alone; where they differ in the last alone, 63 + 6 for stream 63.
#[test]
fn the_most_octets_are_compared() {
    let first = |stream: u8| [stream, 1, 2, 3, 4, 5];
    let last = |stream: u8| [1, 2, 3, 4, 5, stream];
    let (by_first, by_last) = (all_bound(first, |_| VID), all_bound(last, |_| VID));
    assert_eq!((by_first.lookup(&first(63), VID), by_first.lookup(&first(64), VID)), (found(63, 384), none(384)));
    assert_eq!((by_last.lookup(&last(63), VID), by_last.lookup(&last(64), VID)), (found(63, 63 + OCTETS), none(64)));
}
