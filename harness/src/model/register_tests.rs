//! The model's own tests of the registers: the sentences of document 02's request "Register block" and of its reading, which octets of the block
//! each call writes, and the refusals in their order. Those of "Counts per stream" are in `count_tests`; here one stream is chosen, whose counts are
//! read.

use super::frame_tests::ADDRESS;
use super::tests::{Lent, BLOCK, COUNTS, ENTRY, STREAM};
use crate::call::Call;

/// The offsets of the registers.
const CONTROL: u32 = 0;
const STATUS: u32 = 4;
pub const FLAGS: u32 = 8;
const MASK: u32 = 12;
pub const ACCEPTED: u32 = 16;
pub const DISCARDED: u32 = 20;
pub const SENT: u32 = 24;
pub const CHOICE: u32 = 28;

/// Where the marks of the three flags stand in a lent port, and where the other registers and the counts of the tests' stream do.
const MARKS: usize = BLOCK;
const MASK_AT: usize = BLOCK + 4;
const SENT_AT: usize = BLOCK + 8;
const ACCEPTED_AT: usize = COUNTS;
const DISCARDED_AT: usize = COUNTS + 4;
/// The octets of the register block.
pub const BLOCK_OCTETS: usize = 528;

impl Lent {
    /// Reads a register.
    pub fn read(&mut self, offset: u32) -> (u8, u32, u32) {
        self.play(Call::ReadRegister { offset })
    }

    /// Writes a register.
    pub fn write(&mut self, offset: u32, value: u32) -> (u8, u32, u32) {
        self.play(Call::WriteRegister { offset, value })
    }

    /// The port of the cases, with its stream chosen.
    fn chosen() -> Lent {
        let mut lent = Lent::of_the_cases();
        assert_eq!(lent.write(CHOICE, STREAM.into()), (0, 0, 0));
        lent
    }

    /// The value of a register, by a read, which replies it "and 0" and changes nothing.
    pub fn register(&mut self, offset: u32) -> u32 {
        let before = self.clone();
        let (refusal, value, second) = self.read(offset);
        assert_eq!((refusal, second), (0, 0));
        assert!(*self == before);
        value
    }

    /// Flags, accepted and discards of the chosen stream, and sent, by reads.
    fn counts(&mut self) -> (u32, u32, u32, u32) {
        (self.register(FLAGS), self.register(ACCEPTED), self.register(DISCARDED), self.register(SENT))
    }

    /// Writes a 32-bit number into the lent port.
    pub fn put_four(&mut self, at: usize, value: u32) {
        self.record[at..at + 4].copy_from_slice(&value.to_be_bytes());
    }

    /// The port of the cases, with its stream chosen, closed by the host.
    fn closed() -> Lent {
        let mut lent = Lent::chosen();
        lent.record[0] = 0;
        lent
    }
}

/// "Offset 0 is control, which reads zero"; "Other offsets read zero", whatever the block holds where no register is.
#[test]
fn control_and_other_offsets_read_zero() {
    let mut lent = Lent::of_the_cases();
    lent.record[BLOCK..BLOCK + BLOCK_OCTETS].fill(0xEE);
    assert_eq!(lent.register(CONTROL), 0);
    for offset in (32..=60).step_by(4) {
        assert_eq!(lent.register(offset), 0);
    }
}

/// "status (bit 0, the lowest, open; bit 1 the interrupt line)", and the line is up "exactly when flags and mask share a one".
#[test]
fn status_is_open_and_the_line() {
    for flags in 0..8_u32 {
        for mask in [0, 1, 2, 3, 4, 5, 6, 7, 8, 0x8000_0000, 0xffff_fff8, 0xffff_ffff] {
            let mut lent = Lent::of_the_cases();
            for bit in 0..3 {
                lent.record[MARKS + bit] = (flags >> bit & 1) as u8;
            }
            lent.put_four(MASK_AT, mask);
            let line = if flags & mask & 7 != 0 { 2 } else { 0 };
            assert_eq!(lent.register(STATUS), 1 + line);
            assert_eq!(lent.register(FLAGS), flags);
            lent.record[0] = 2;
            assert_eq!(lent.register(STATUS), line);
        }
    }
}

/// "the interrupt mask, kept as written": all 32 bits, high octet first, and no octet besides.
#[test]
fn the_mask_is_kept_as_written() {
    let mut lent = Lent::of_the_cases();
    for value in [0x0102_0304, 0, 7, 8, 0x8000_0000, u32::MAX] {
        let mut after = lent.clone();
        assert_eq!(lent.write(MASK, value), (0, 0, 0));
        after.put_four(MASK_AT, value);
        assert!(lent == after);
        assert_eq!(lent.register(MASK), value);
    }
    assert_eq!(lent.write(MASK, 0x0102_0304), (0, 0, 0));
    assert_eq!(lent.record[MASK_AT..MASK_AT + 4], [1, 2, 3, 4]);
}

/// "Writing a one to a flag clears it": that one, and a zero clears none.
#[test]
fn ones_clear_flags() {
    for value in (0..16).chain([0xffff_fff8, 0xffff_ffff, 0x8000_0001]) {
        let mut lent = Lent::of_the_cases();
        lent.record[MARKS..MARKS + 3].fill(1);
        let mut after = lent.clone();
        assert_eq!(lent.write(FLAGS, value), (0, 0, 0));
        for bit in (0..3).filter(|bit| value >> bit & 1 == 1) {
            after.record[MARKS + bit] = 0;
        }
        assert!(lent == after);
        assert_eq!(lent.register(FLAGS), 7 & !value);
    }
}

/// A mark that is not 1 is a flag that is down; one that is not cleared keeps its mark, one that is cleared gets 0, one that is set gets 1.
#[test]
fn marks_of_any_content() {
    for mark in [0, 2, 3, 128, 255] {
        let mut lent = Lent::of_the_cases();
        lent.record[MARKS..MARKS + 3].fill(mark);
        lent.put_four(MASK_AT, 7);
        assert_eq!((lent.register(FLAGS), lent.register(STATUS)), (0, 1));
        lent.write(FLAGS, 2);
        assert_eq!(lent.record[MARKS..MARKS + 3], [mark, 0, mark]);
        assert_eq!(lent.transmit(), (0, 254, 0));
        assert_eq!(lent.record[MARKS..MARKS + 3], [mark, 0, 1]);
        assert_eq!((lent.register(FLAGS), lent.register(STATUS)), (4, 3));
        assert_eq!(lent.arrive(201, 1), (14, 0, 0));
        assert_eq!(lent.record[MARKS..MARKS + 3], [1, 0, 1]);
    }
}

/// Offsets 16 and 20 count a stream's frames accepted and its "discards (14)", 24 "frames of both sorts sent", by every call on the port, with the
/// flags "bit 0 discard, bit 1 purge of at least one frame, bit 2 nothing to send".
#[test]
fn calls_set_flags_and_count() {
    let mut lent = Lent::chosen();
    assert_eq!(lent.counts(), (0, 0, 0, 0));
    assert_eq!(lent.arrive(120, 1), (0, 1, 80));
    assert_eq!(lent.counts(), (0, 1, 0, 0));
    assert_eq!(lent.best_effort(100, 2), (0, 100, 0));
    assert_eq!(lent.counts(), (0, 1, 0, 0));
    assert_eq!(lent.arrive(201, 3), (14, 0, 0));
    assert_eq!(lent.counts(), (1, 1, 1, 0));
    assert_eq!(lent.transmit(), (0, 5, 1));
    assert_eq!(lent.counts(), (1, 1, 1, 1));
    assert_eq!(lent.transmit(), (0, 255, 2));
    assert_eq!(lent.counts(), (1, 1, 1, 2));
    assert_eq!(lent.transmit(), (0, 254, 0));
    assert_eq!(lent.counts(), (5, 1, 1, 2));
    assert_eq!(lent.tick(), (0, 0, 0));
    assert_eq!(lent.counts(), (5, 1, 1, 2));
}

/// "purge of at least one frame": a tick that purges none sets no flag, one that purges one or several does, and counts nothing.
#[test]
fn a_purge_sets_its_flag() {
    let mut lent = Lent::chosen();
    lent.arrive(100, 1);
    lent.arrive(100, 2);
    assert_eq!(lent.tick(), (0, 0, 0));
    assert_eq!(lent.counts(), (0, 2, 0, 0));
    assert_eq!(lent.tick(), (0, 2, 200));
    assert_eq!(lent.counts(), (2, 2, 0, 0));
}

/// A Frame counts as the call that it becomes, by its reply: an arrival, a discard, or a best effort and another refusal, which count nothing.
#[test]
fn frames_count_by_their_reply() {
    let mut lent = Lent::chosen();
    assert_eq!(lent.bind(STREAM, ADDRESS, 7), (0, 0, 0));
    assert_eq!(lent.tagged([0, 7], 60), (0, 1, 116));
    assert_eq!(lent.counts(), (0, 1, 0, 0));
    assert_eq!(lent.tagged([0, 8], 60), (0, 84, 0));
    assert_eq!(lent.counts(), (0, 1, 0, 0));
    assert_eq!(lent.tagged([0, 7], 177), (14, 0, 0));
    assert_eq!(lent.counts(), (1, 1, 1, 0));
    assert_eq!(lent.tagged([0, 7], 59), (17, 0, 0));
    assert_eq!(lent.tagged([0, 8], 1_996), (0, 2_104, 0));
    assert_eq!(lent.tagged([0, 8], 1_996), (16, 0, 0));
    assert_eq!(lent.counts(), (1, 1, 1, 0));
}

/// "Of refusals only 14 sets a flag or count": all others keep the whole port, the block with it.
#[test]
fn other_refusals_set_nothing() {
    let mut lent = Lent::chosen();
    lent.fill_best_effort(9, 256);
    lent.fill(1, 3);
    lent.record[ENTRY + 16] = 1;
    lent.record[ENTRY + 17] = 1;
    lent.record[ENTRY + 22] = 4;
    lent.put(ENTRY + 20, 84);
    let before = lent.clone();
    let refused = [
        (Call::Open { link: 2_620, delay: 1 }, 2),
        (Call::Reserve { stream: 64, permitted: 84 }, 5),
        (Call::Reserve { stream: 6, permitted: 84 }, 25),
        (Call::Reserve { stream: STREAM, permitted: 84 }, 6),
        (Call::Reserve { stream: 7, permitted: 83 }, 7),
        (Call::Reserve { stream: 7, permitted: 601 }, 8),
        (Call::Arrive { stream: 7, charge: 84, tag: 0 }, 12),
        (Call::Arrive { stream: STREAM, charge: 83, tag: 0 }, 13),
        (Call::Arrive { stream: STREAM, charge: 84, tag: 0 }, 20),
        (Call::Arrive { stream: 6, charge: 84, tag: 0 }, 25),
        (Call::BestEffort { charge: 83, tag: 0 }, 13),
        (Call::BestEffort { charge: 84, tag: 0 }, 15),
        (Call::Frame { octets: [0; 59].to_vec().into(), tag: 0 }, 17),
        (Call::Frame { octets: [0; 60].to_vec().into(), tag: 0 }, 15),
        (Call::Bind { stream: STREAM, address: [0; 6], vid: 0 }, 9),
        (Call::Withdraw { stream: 7 }, 12),
        (Call::ReadRegister { offset: 2 }, 26),
        (Call::WriteRegister { offset: 64, value: 3 }, 26),
    ];
    for (call, refusal) in refused {
        assert_eq!(lent.play(call), (refusal, 0, 0));
        assert!(lent == before);
    }
    assert_eq!(lent.best_effort(84, 1), (15, 0, 0));
    assert_eq!(lent.transmit().0, 0);
    assert_eq!(lent.counts(), (0, 0, 0, 1));
}

/// "The counter registers wrap from 4,294,967,295 to 0", each by itself, and no octet beside it changes.
#[test]
fn counters_wrap() {
    for (at, offset) in [(ACCEPTED_AT, ACCEPTED), (DISCARDED_AT, DISCARDED), (SENT_AT, SENT)] {
        let mut lent = Lent::chosen();
        lent.arrive(84, 1);
        for at in [ACCEPTED_AT, DISCARDED_AT, SENT_AT] {
            lent.put_four(at, 0x0101_0101);
        }
        lent.put_four(at, 4_294_967_294);
        for value in [4_294_967_295, 0, 1] {
            match offset {
                ACCEPTED => assert_eq!(lent.arrive(100, 1).0, 0),
                DISCARDED => assert_eq!(lent.arrive(201, 1).0, 14),
                _ => {
                    lent.put(16 + 4 + 2, 1);
                    assert_eq!(lent.transmit(), (0, 5, 1));
                    lent.put(16 + 4, 0);
                }
            }
            assert_eq!(lent.register(offset), value);
        }
        let others = [ACCEPTED, DISCARDED, SENT].into_iter().filter(|other| *other != offset);
        others.for_each(|other| assert_eq!(lent.register(other), 0x0101_0101));
        assert_eq!(lent.record[BLOCK + 12..BLOCK + 16], [0, 0, 0, STREAM]);
        assert!(lent.record[BLOCK + 16..ACCEPTED_AT].iter().all(|octet| *octet == 0));
        assert!(lent.record[DISCARDED_AT + 4..BLOCK + BLOCK_OCTETS].iter().all(|octet| *octet == 0));
    }
}

/// "writing bit 0 ticks, then bit 1 transmits": the reply is "as its last call", and the port what the named calls leave.
#[test]
fn control_writes_are_the_named_calls() {
    let mut lent = Lent::chosen();
    lent.arrive(200, 1);
    lent.arrive(200, 2);
    lent.best_effort(84, 3);
    lent.tick();
    let begin = lent.clone();
    for above in [0, 4, 8, 0xffff_fffc] {
        let (mut named, mut written) = (begin.clone(), begin.clone());
        assert_eq!(named.tick(), (0, 1, 200));
        assert_eq!(written.write(CONTROL, above | 1), (0, 1, 200));
        assert!(named == written);
        let (mut named, mut written) = (begin.clone(), begin.clone());
        assert_eq!(named.transmit(), (0, 5, 1));
        assert_eq!(written.write(CONTROL, above | 2), (0, 5, 1));
        assert!(named == written);
        let (mut named, mut written) = (begin.clone(), begin.clone());
        assert_eq!((named.tick(), named.transmit()), ((0, 1, 200), (0, 5, 2)));
        assert_eq!(written.write(CONTROL, above | 3), (0, 5, 2));
        assert!(named == written);
        assert_eq!(written.counts(), (2, 2, 0, 1));
        let mut neither = begin.clone();
        assert_eq!(neither.write(CONTROL, above), (0, 0, 0));
        assert!(neither == begin);
    }
}

/// "writes to them, 4 and the counters do nothing", and reply two zeros.
#[test]
fn writes_that_do_nothing() {
    let mut lent = Lent::chosen();
    lent.arrive(201, 1);
    lent.arrive(84, 1);
    lent.transmit();
    lent.record[BLOCK + 3] = 0xEE;
    let before = lent.clone();
    for offset in [STATUS, ACCEPTED, DISCARDED, SENT].into_iter().chain((32..=60).step_by(4)) {
        for value in [0, 1, 3, 7, u32::MAX] {
            assert_eq!(lent.write(offset, value), (0, 0, 0));
            assert!(lent == before);
        }
    }
}

/// The counts are "from 0 at opening, as flags and mask" are: a granted Open writes zeros to all octets of the block, "a refused one nothing".
/// "Open's emptying is no purge."
#[test]
fn opening_zeroes_the_block() {
    let mut lent = Lent::of_the_cases();
    lent.arrive(100, 1);
    lent.tick();
    lent.record[BLOCK..BLOCK + BLOCK_OCTETS].fill(1);
    lent.record.extend([1; 3]);
    let block = lent.record[BLOCK..].to_vec();
    assert_eq!(lent.open(2_620, 1), (2, 0, 0));
    lent.record[0] = 0;
    assert_eq!(lent.open(2_103, 1), (3, 0, 0));
    assert_eq!(lent.open(2_620, 17), (4, 0, 0));
    assert_eq!(lent.record[BLOCK..], block);
    assert_eq!(lent.open(2_620, 1), (0, 600, 0));
    assert_eq!(lent.record[BLOCK..BLOCK + BLOCK_OCTETS], [0; BLOCK_OCTETS]);
    assert_eq!(lent.record[BLOCK + BLOCK_OCTETS..], [1; 3]);
    assert_eq!((lent.register(MASK), lent.register(CHOICE), lent.counts()), (0, 0, (0, 0, 0, 0)));
}

/// "A closed port keeps mask writes and flag clears", and "1 stops only ticks and transmits".
#[test]
fn a_closed_port_has_registers() {
    let mut lent = Lent::closed();
    lent.record[MARKS..MARKS + 3].fill(1);
    assert_eq!(lent.write(MASK, 6), (0, 0, 0));
    assert_eq!((lent.register(MASK), lent.register(STATUS)), (6, 2));
    assert_eq!(lent.write(FLAGS, 6), (0, 0, 0));
    assert_eq!((lent.register(FLAGS), lent.register(STATUS)), (1, 0));
    let before = lent.clone();
    for (value, refusal) in [(0, 0), (1, 1), (2, 1), (3, 1), (4, 0), (0xffff_fffc, 0), (0xffff_ffff, 1)] {
        assert_eq!(lent.write(CONTROL, value), (refusal, 0, 0));
        assert!(lent == before);
    }
    for offset in [STATUS, ACCEPTED, DISCARDED, SENT, 32, 60] {
        assert_eq!(lent.write(offset, u32::MAX), (0, 0, 0));
        assert_eq!(lent.read(offset).0, 0);
    }
    assert!(lent == before);
}

/// "It refuses with 26 an offset that is no multiple of 4 or is above 60".
#[test]
fn offsets_outside() {
    let mut lent = Lent::of_the_cases();
    let before = lent.clone();
    for offset in (0..200).chain([255, 256, 284, 65_536, 65_564, 1 << 31, u32::MAX - 3, u32::MAX]) {
        let refusal = if offset % 4 == 0 && offset <= 60 { 0 } else { 26 };
        assert_eq!(lent.read(offset).0, refusal, "{offset}");
        assert_eq!(lent.write(offset, 0), (refusal, 0, 0), "{offset}");
    }
    assert!(lent == before);
}

/// The checks run 26, "before 18", 18, 19, and 1 for a control write with bit 0 or 1.
#[test]
fn checks_in_order() {
    for case in 0..16 {
        let [outside, memory_short, unfit, closed] = [1, 2, 4, 8].map(|bit| case & bit != 0);
        let mut lent = Lent::of_the_cases();
        lent.record[0] = u8::from(!closed);
        lent.record[1] = if unfit { 4 } else { 0 };
        lent.memory.truncate(if memory_short { 10_239 } else { 10_240 });
        let before = lent.clone();
        let offset = if outside { 1 } else { CONTROL };
        let found = [(outside, 26), (memory_short, 18), (unfit, 19), (closed, 1)].into_iter().find(|(holds, _)| *holds);
        let refusal = found.map_or(0, |(_, refusal)| refusal);
        assert_eq!(lent.write(offset, 1).0, refusal);
        assert!(refusal == 0 || lent == before);
        let refusal = if refusal == 1 { 0 } else { refusal };
        assert_eq!(lent.read(offset).0, refusal);
        assert_eq!(lent.write(if outside { 14 } else { MASK }, 1).0, refusal);
    }
}

/// A lent port under 1,616 octets is 19, after 26 and 18; octets past that are neither read nor written.
#[test]
fn lengths_of_a_lent_port() {
    for (length, refusal) in [(0, 19), (1, 19), (1_087, 19), (1_088, 19), (1_089, 19), (1_615, 19), (1_616, 0), (1_617, 0), (3_000, 0)] {
        let mut lent = Lent::of_the_cases();
        lent.record.resize(length, 0xEE);
        for offset in [MASK, FLAGS, STATUS, 60] {
            assert_eq!(lent.read(offset).0, refusal);
            assert_eq!(lent.write(offset, u32::MAX), (refusal, 0, 0));
            assert_eq!(lent.read(offset + 1).0, 26);
        }
        assert_eq!(lent.tick().0, refusal);
        assert!(lent.record.iter().skip(1_616).all(|octet| *octet == 0xEE));
        lent.memory.pop();
        assert_eq!([lent.read(MASK).0, lent.write(MASK, 1).0, lent.tick().0], [18; 3]);
    }
}

/// "The block has no clause in 19": any content of it is fit, and calls go by it.
#[test]
fn any_block_is_fit() {
    let mut lent = Lent::of_the_cases();
    lent.record[BLOCK..BLOCK + BLOCK_OCTETS].fill(0xEE);
    assert_eq!(lent.unfit(), []);
    assert_eq!(lent.arrive(84, 1), (0, 1, 116));
    assert_eq!(lent.register(CHOICE), 0xEEEE_EEEE);
    assert_eq!((lent.register(ACCEPTED), lent.register(DISCARDED)), (0, 0));
    assert_eq!(lent.record[ACCEPTED_AT..DISCARDED_AT], [0xEE, 0xEE, 0xEE, 0xEF]);
    assert!(lent.record[BLOCK..ACCEPTED_AT].iter().all(|octet| *octet == 0xEE));
    assert!(lent.record[DISCARDED_AT..BLOCK + BLOCK_OCTETS].iter().all(|octet| *octet == 0xEE));
}
