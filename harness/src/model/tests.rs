//! The model's own tests: cases of document 01 with what they leave in the record, its refusals, and which octets each call writes. The sample and
//! all cases are played in `comparing::tests::sample`; the tests of Bind and Frame are in `frame_tests`, those of Withdraw in `withdraw_tests`,
//! those of the ranges that "Envelope frames" names in `envelope_tests`, those of the registers in `register_tests`, those of the counts per stream in
//! `count_tests`.

use super::fitness::{unfit, Clause};
use super::*;
use crate::call::Call;

/// The octets of a lent port in these tests: a record and a register block.
const PORT: usize = 1_616;
/// Where the register block of a lent port begins.
pub const BLOCK: usize = 1_088;
/// Where the counts of the stream that most tests speak of stand in a lent port, accepted, then discarded.
pub const COUNTS: usize = BLOCK + 16 + 8 * STREAM as usize;
/// The octets of a memory in these tests.
const MEMORY: usize = 10_240;
/// The stream that most tests speak of.
pub const STREAM: u8 = 5;
/// Where the entry of that stream stands in the record.
pub const ENTRY: usize = 64 + 16 * STREAM as usize;

/// A port, record and register block, and a memory as a caller lends them.
#[derive(Clone, Debug, PartialEq)]
pub struct Lent {
    pub record: Vec<u8>,
    pub memory: Vec<u8>,
}

impl Lent {
    /// A record and memory of zeros: a closed port.
    pub fn zeroed() -> Lent {
        Lent { record: vec![0; PORT], memory: vec![0; MEMORY] }
    }

    /// The port of the cases: "Stream P = 200, L = 2,620, K = 1, unless said otherwise".
    pub fn of_the_cases() -> Lent {
        let mut lent = Lent::zeroed();
        assert_eq!(lent.open(2_620, 1), (0, 600, 0));
        assert_eq!(lent.reserve(STREAM, 200), (0, 400, 0));
        lent
    }

    /// Plays a call; the reply as refusal, first and second number.
    pub fn play(&mut self, the_call: Call) -> (u8, u32, u32) {
        let reply = call(&the_call.given(), &mut self.record, &mut self.memory);
        (reply.refusal, reply.first, reply.second)
    }

    /// Plays an Open.
    pub fn open(&mut self, link: u32, delay: u32) -> (u8, u32, u32) {
        self.play(Call::Open { link, delay })
    }

    /// Plays a Reserve.
    pub fn reserve(&mut self, stream: u8, permitted: u32) -> (u8, u32, u32) {
        self.play(Call::Reserve { stream, permitted })
    }

    /// Plays an Arrive on the stream of the tests.
    pub fn arrive(&mut self, charge: u32, tag: u32) -> (u8, u32, u32) {
        self.play(Call::Arrive { stream: STREAM, charge, tag })
    }

    /// Plays a Tick.
    pub fn tick(&mut self) -> (u8, u32, u32) {
        self.play(Call::Tick)
    }

    /// Plays a Transmit.
    pub fn transmit(&mut self) -> (u8, u32, u32) {
        self.play(Call::Transmit)
    }

    /// Plays a Best effort.
    pub fn best_effort(&mut self, charge: u32, tag: u32) -> (u8, u32, u32) {
        self.play(Call::BestEffort { charge, tag })
    }

    /// Writes a 16-bit number into the record.
    pub fn put(&mut self, at: usize, value: u16) {
        self.record[at..at + 2].copy_from_slice(&value.to_be_bytes());
    }

    /// Writes a frame into a place of memory.
    pub fn put_frame(&mut self, queue: usize, place: usize, stream: u16, charge: u16, tag: u32) {
        let at = 8 * (256 * queue + place);
        self.memory[at..at + 2].copy_from_slice(&stream.to_be_bytes());
        self.memory[at + 2..at + 4].copy_from_slice(&charge.to_be_bytes());
        self.memory[at + 4..at + 8].copy_from_slice(&tag.to_be_bytes());
    }

    /// Gives a queue the most frames that it can hold, from the given start on, tagged by their order.
    pub fn fill(&mut self, queue: usize, start: u16) {
        self.put(16 + 4 * queue, start);
        self.put(18 + 4 * queue, 256);
        for waiting in 0..256 {
            self.put_frame(queue, (usize::from(start) + waiting) % 256, STREAM.into(), 84, waiting as u32);
        }
    }

    /// Gives best effort so many frames of 84 octets, from the given start on, tagged by their order.
    pub fn fill_best_effort(&mut self, start: u16, count: usize) {
        self.put(32, start);
        self.put(34, count as u16);
        for waiting in 0..count {
            self.put_frame(4, (usize::from(start) + waiting) % 256, 255, 84, waiting as u32);
        }
        self.put_waits(84 * count as u32);
    }

    /// Writes W.
    fn put_waits(&mut self, waits: u32) {
        self.record[8..12].copy_from_slice(&waits.to_be_bytes());
    }

    /// Gives the stream of the tests a place and a left.
    pub fn put_place(&mut self, place: u8, left: u16) {
        self.record[ENTRY + 1] = place;
        self.put(ENTRY + 2, left);
    }

    /// The place and left of the stream of the tests.
    pub fn place(&self) -> (u8, u16) {
        (self.record[ENTRY + 1], u16::from_be_bytes([self.record[ENTRY + 2], self.record[ENTRY + 3]]))
    }

    /// The start and count of a queue.
    fn queue(&self, queue: usize) -> (u16, u16) {
        let at = 16 + 4 * queue;
        (u16::from_be_bytes([self.record[at], self.record[at + 1]]), u16::from_be_bytes([self.record[at + 2], self.record[at + 3]]))
    }

    /// W.
    fn waits(&self) -> u32 {
        u32::from_be_bytes([self.record[8], self.record[9], self.record[10], self.record[11]])
    }

    /// The clauses of 19 that the record breaks; the call agrees with them.
    pub fn unfit(&self) -> Vec<Clause> {
        let broken = unfit(&self.record, &self.memory);
        let mut after = self.clone();
        let reply = after.tick();
        assert_eq!(reply.0 == 19, !broken.is_empty());
        assert!(broken.is_empty() || after == *self);
        broken
    }
}

/// C1, C2 and the ends of K.
#[test]
fn c1_c2_link_ends() {
    assert_eq!(Lent::zeroed().open(2_103, 1), (3, 0, 0));
    assert_eq!(Lent::zeroed().open(2_104, 1), (0, 84, 0));
    assert_eq!(Lent::zeroed().open(23_524, 1), (0, 21_504, 0));
    assert_eq!(Lent::zeroed().open(23_525, 1), (3, 0, 0));
    assert_eq!(Lent::zeroed().open(u32::MAX, 0), (3, 0, 0));
    assert_eq!(Lent::zeroed().open(2_620, 0), (4, 0, 0));
    assert_eq!(Lent::zeroed().open(2_620, 16), (0, 600, 0));
    assert_eq!(Lent::zeroed().open(2_620, 17), (4, 0, 0));
    assert_eq!(Lent::zeroed().open(2_620, 257), (4, 0, 0));
    assert_eq!(Lent::of_the_cases().open(0, 0), (2, 0, 0));
}

/// C3 and C4.
#[test]
fn c3_c4_permitted_and_share() {
    let mut lent = Lent::zeroed();
    lent.open(2_620, 1);
    assert_eq!(lent.reserve(5, 83), (7, 0, 0));
    assert_eq!(lent.reserve(5, 84), (0, 516, 0));
    let mut lent = Lent::of_the_cases();
    assert_eq!(lent.reserve(6, 401), (8, 0, 0));
    assert_eq!(lent.reserve(6, u32::MAX), (8, 0, 0));
    assert_eq!(lent.reserve(6, 400), (0, 0, 0));
}

/// Reserve's checks run 1, 5, 6, 7.
#[test]
fn reserve_checks_in_order() {
    let mut lent = Lent::of_the_cases();
    assert_eq!(lent.reserve(64, 0), (5, 0, 0));
    assert_eq!(lent.reserve(255, 200), (5, 0, 0));
    assert_eq!(lent.reserve(5, 0), (6, 0, 0));
    assert_eq!(Lent::zeroed().reserve(64, 0), (1, 0, 0));
}

/// C5: an exact fit at current leaves the stream at next with left P.
#[test]
fn c5_exact_fit_advances() {
    let mut lent = Lent::of_the_cases();
    assert_eq!(lent.arrive(200, 1), (0, 1, 200));
    assert_eq!(lent.place(), (2, 200));
}

/// C8 and C9: an exact fit at last does not advance.
#[test]
fn c8_c9_three_full_epochs_and_a_tick() {
    let mut lent = Lent::of_the_cases();
    assert_eq!(lent.arrive(200, 1), (0, 1, 200));
    assert_eq!(lent.arrive(200, 2), (0, 2, 200));
    assert_eq!(lent.arrive(200, 3), (0, 3, 0));
    assert_eq!(lent.arrive(84, 4), (14, 0, 0));
    assert_eq!(lent.place(), (3, 0));
    assert_eq!(lent.tick(), (0, 0, 0));
    assert_eq!(lent.place(), (2, 0));
    assert_eq!(lent.arrive(84, 5), (0, 3, 116));
}

/// C10: "Number 14 alone changes its stream: place last, left 0."
#[test]
fn c10_discard_changes_its_stream_alone() {
    let mut lent = Lent::of_the_cases();
    let mut before = lent.clone();
    assert_eq!(lent.arrive(201, 1), (14, 0, 0));
    before.put_place(3, 0);
    before.record[BLOCK] = 1;
    before.record[COUNTS + 7] = 1;
    assert_eq!(lent, before);
    assert_eq!(lent.arrive(84, 2), (14, 0, 0));
    before.record[COUNTS + 7] = 2;
    assert_eq!(lent, before);
}

/// C11, and Arrive's checks run 5, 12, 13.
#[test]
fn c11_charges_outside() {
    let mut lent = Lent::of_the_cases();
    let before = lent.clone();
    assert_eq!(lent.arrive(83, 1), (13, 0, 0));
    assert_eq!(lent.arrive(2_021, 1), (13, 0, 0));
    assert_eq!(lent.arrive(u32::MAX, 1), (13, 0, 0));
    assert_eq!(lent.play(Call::Arrive { stream: 64, charge: 0, tag: 0 }), (5, 0, 0));
    assert_eq!(lent.play(Call::Arrive { stream: 6, charge: 0, tag: 0 }), (12, 0, 0));
    assert_eq!(lent, before);
}

/// An open mark that is neither 0 nor 1 is a closed port, and every call but Open is 1 before its own checks.
#[test]
fn closed_port_is_1() {
    let mut lent = Lent::zeroed();
    lent.record[0] = 2;
    let before = lent.clone();
    assert_eq!(lent.arrive(0, 0), (1, 0, 0));
    assert_eq!(lent.reserve(64, 0), (1, 0, 0));
    assert_eq!(lent.tick(), (1, 0, 0));
    assert_eq!(lent.transmit(), (1, 0, 0));
    assert_eq!(lent.best_effort(0, 0), (1, 0, 0));
    assert_eq!(lent, before);
}

/// 20 is asked of the queue that left alone chooses, and leaves place and left as they were.
#[test]
fn full_queue_is_20_and_not_passed_over() {
    for (place, left, charge, full) in [(1, 200, 100, 1), (1, 10, 100, 2), (2, 200, 200, 2), (2, 10, 100, 3), (3, 84, 84, 3)] {
        let mut lent = Lent::of_the_cases();
        lent.put_place(place, left);
        lent.fill(full, 0);
        let before = lent.clone();
        assert_eq!(lent.arrive(charge, 1), (20, 0, 0));
        assert_eq!(lent, before);
    }
}

/// A full queue that the frame passes over refuses nothing.
#[test]
fn full_queue_that_is_passed_over_refuses_nothing() {
    let mut lent = Lent::of_the_cases();
    lent.put_place(1, 10);
    lent.fill(1, 9);
    assert_eq!(lent.arrive(100, 1), (0, 2, 100));
    assert_eq!(lent.queue(1), (9, 256));
    assert_eq!(lent.queue(2), (0, 1));
}

/// "14 and 20 never compete: a discarded frame has no chosen queue."
#[test]
fn discard_with_full_queues_is_14() {
    let mut lent = Lent::of_the_cases();
    for queue in 0..4 {
        lent.fill(queue, 0);
    }
    assert_eq!(lent.arrive(201, 1), (14, 0, 0));
    assert_eq!(lent.place(), (3, 0));
    assert_eq!(lent.arrive(84, 1), (14, 0, 0));
}

/// Roles are counted on from prior, 3 to 0.
#[test]
fn full_queue_is_judged_at_the_roles_of_now() {
    let mut lent = Lent::of_the_cases();
    lent.record[1] = 3;
    lent.fill(0, 255);
    assert_eq!(lent.arrive(100, 1), (20, 0, 0));
    lent.fill(3, 1);
    assert_eq!(lent.transmit(), (0, 5, 0));
    assert_eq!(lent.queue(3), (2, 255));
    assert_eq!(lent.arrive(100, 1), (20, 0, 0));
}

/// "A frame joins at place (start + count) modulo 256 of its queue", and no other place of memory changes.
#[test]
fn queue_wraps_within_its_places() {
    let mut lent = Lent::of_the_cases();
    lent.fill(1, 255);
    assert_eq!(lent.transmit(), (0, 5, 0));
    assert_eq!(lent.queue(1), (0, 255));
    let mut before = lent.memory.clone();
    assert_eq!(lent.arrive(120, 0x0102_0304), (0, 1, 80));
    let at = 8 * (256 + 255);
    before[at..at + 8].copy_from_slice(&[0, 5, 0, 120, 1, 2, 3, 4]);
    assert_eq!(lent.memory, before);
    assert_eq!(lent.transmit(), (0, 5, 1));
}

/// Frames that nobody sends are purged, epoch after epoch, by the ticks.
#[test]
fn ticks_purge_prior_and_nothing_else() {
    let mut lent = Lent::of_the_cases();
    lent.arrive(90, 1);
    lent.arrive(100, 2);
    lent.arrive(150, 3);
    lent.arrive(200, 4);
    let memory = lent.memory.clone();
    assert_eq!(lent.tick(), (0, 0, 0));
    assert_eq!(lent.tick(), (0, 2, 190));
    assert_eq!(lent.tick(), (0, 1, 150));
    assert_eq!(lent.tick(), (0, 1, 200));
    assert_eq!(lent.tick(), (0, 0, 0));
    assert_eq!(lent.record[1], 1);
    assert_eq!(lent.memory, memory);
}

/// A tick keeps the left of a stream at next or last, and gives P to one at current.
#[test]
fn tick_moves_places_and_lefts() {
    for (before, after) in [((1, 7), (1, 200)), ((2, 7), (1, 7)), ((3, 7), (2, 7))] {
        let mut lent = Lent::of_the_cases();
        lent.put_place(before.0, before.1);
        assert_eq!(lent.tick(), (0, 0, 0));
        assert_eq!(lent.place(), after);
    }
}

/// A tick writes nothing of an unreserved stream.
#[test]
fn tick_leaves_unreserved_streams_alone() {
    let mut lent = Lent::of_the_cases();
    lent.record[ENTRY] = 2;
    lent.put_place(9, 65_535);
    let mut before = lent.clone();
    assert_eq!(lent.tick(), (0, 0, 0));
    before.record[1] = 1;
    assert_eq!(lent, before);
}

/// "Tick always purges prior, also an empty one: its start becomes 0. A queue emptied by sending keeps its start."
#[test]
fn tick_purges_an_empty_prior_too() {
    let mut lent = Lent::of_the_cases();
    lent.arrive(120, 7);
    assert_eq!(lent.transmit(), (0, 5, 7));
    assert_eq!(lent.queue(1), (1, 0));
    assert_eq!(lent.tick(), (0, 0, 0));
    assert_eq!(lent.queue(1), (1, 0));
    assert_eq!(lent.tick(), (0, 0, 0));
    assert_eq!(lent.queue(1), (0, 0));
}

/// A full prior is purged with all its frames and octets.
#[test]
fn purge_of_a_full_prior() {
    let mut lent = Lent::of_the_cases();
    lent.fill(0, 77);
    assert_eq!(lent.tick(), (0, 256, 21_504));
    assert_eq!(lent.queue(0), (0, 0));
}

/// Transmit's order, the starts that it moves, and W.
#[test]
fn transmit_takes_prior_then_current_then_best_effort() {
    let mut lent = Lent::of_the_cases();
    lent.put_frame(0, 3, 63, 84, 10);
    lent.put_frame(1, 255, 0, 84, 11);
    lent.put_frame(2, 0, 1, 84, 12);
    lent.put_frame(4, 255, 255, 2_020, 13);
    lent.put_frame(4, 0, 255, 84, 14);
    for (queue, start, count) in [(0, 3, 1), (1, 255, 1), (2, 0, 1), (4, 255, 2)] {
        lent.put(16 + 4 * queue, start);
        lent.put(18 + 4 * queue, count);
    }
    lent.put(10, 2_104);
    let memory = lent.memory.clone();
    assert_eq!(lent.transmit(), (0, 63, 10));
    assert_eq!(lent.transmit(), (0, 0, 11));
    assert_eq!(lent.transmit(), (0, 255, 13));
    assert_eq!(lent.record[8..12], [0, 0, 0, 84]);
    assert_eq!(lent.transmit(), (0, 255, 14));
    assert_eq!(lent.record[8..12], [0, 0, 0, 0]);
    assert_eq!(lent.transmit(), (0, 254, 0));
    assert_eq!([lent.queue(0), lent.queue(1), lent.queue(2), lent.queue(4)], [(4, 0), (0, 0), (0, 1), (1, 0)]);
    assert_eq!(lent.memory, memory);
}

/// C12: W + a may be all of K × (L − R), and no more.
#[test]
fn c12_best_effort_to_the_limit() {
    let mut lent = Lent::of_the_cases();
    assert_eq!(lent.best_effort(2_020, 1), (0, 2_020, 0));
    assert_eq!(lent.best_effort(401, 2), (16, 0, 0));
    assert_eq!(lent.best_effort(400, 2), (0, 2_420, 0));
    let before = lent.clone();
    assert_eq!(lent.best_effort(84, 3), (16, 0, 0));
    assert_eq!(lent, before);
}

/// Best effort's checks run 1, 13, 15, 16.
#[test]
fn best_effort_checks_in_order() {
    let mut lent = Lent::of_the_cases();
    lent.fill_best_effort(9, 256);
    let before = lent.clone();
    for charge in [0, 83, 2_021, 65_536 + 84, u32::MAX] {
        assert_eq!(lent.best_effort(charge, 1), (13, 0, 0));
    }
    assert_eq!(lent.best_effort(84, 1), (15, 0, 0));
    assert_eq!(lent.best_effort(2_020, 1), (15, 0, 0));
    assert_eq!(lent, before);
    assert_eq!(lent.transmit(), (0, 255, 0));
    assert_eq!(lent.best_effort(84, 1), (16, 0, 0));
}

/// A best-effort frame is written at place (start + count) modulo 256 of queue 4, with W and the queue's count; no register counts it, and nothing else
/// changes.
#[test]
fn best_effort_writes_what_its_rule_names() {
    let mut lent = Lent::zeroed();
    lent.open(23_524, 16);
    lent.fill_best_effort(250, 6);
    let mut after = lent.clone();
    assert_eq!(lent.best_effort(2_020, 0x0102_0304), (0, 2_524, 0));
    after.put(10, 2_524);
    after.put(34, 7);
    after.memory[8 * 1_024..8 * 1_025].copy_from_slice(&[0, 255, 7, 228, 1, 2, 3, 4]);
    assert_eq!(lent, after);
}

/// K × (L − R) at K 1, 2 and 16: so many frames of 2,020, then one octet more than the rest, then the rest.
#[test]
fn best_effort_limit_by_delay() {
    for (delay, largest, rest) in [(1, 1, 400), (2, 2, 800), (16, 19, 340)] {
        let mut lent = Lent::zeroed();
        lent.open(2_620, delay);
        lent.reserve(STREAM, 200);
        for sent in 1..=largest {
            assert_eq!(lent.best_effort(2_020, sent), (0, 2_020 * sent, 0));
        }
        assert_eq!(lent.best_effort(rest + 1, 0), (16, 0, 0));
        assert_eq!(lent.best_effort(rest, 0), (0, delay * 2_420, 0));
        assert_eq!(lent.best_effort(84, 0), (16, 0, 0));
        assert_eq!(lent.unfit(), []);
    }
}

/// R may grow after frames wait: W is then above the limit, the record fit, and nothing accepted until enough is sent.
#[test]
fn reservation_after_best_effort_lowers_the_limit() {
    let mut lent = Lent::of_the_cases();
    assert_eq!(lent.best_effort(100, 1), (0, 100, 0));
    assert_eq!(lent.best_effort(2_020, 2), (0, 2_120, 0));
    assert_eq!(lent.best_effort(300, 3), (0, 2_420, 0));
    assert_eq!(lent.reserve(6, 400), (0, 0, 0));
    assert_eq!(lent.unfit(), []);
    assert_eq!(lent.best_effort(84, 4), (16, 0, 0));
    assert_eq!(lent.transmit(), (0, 255, 1));
    assert_eq!(lent.best_effort(84, 4), (16, 0, 0));
    assert_eq!(lent.transmit(), (0, 255, 2));
    assert_eq!(lent.waits(), 300);
    assert_eq!(lent.best_effort(1_720, 5), (0, 2_020, 0));
}

/// Of an unreserved stream nothing counts in R, whatever its entry holds.
#[test]
fn best_effort_counts_reserved_streams_alone() {
    let mut lent = Lent::of_the_cases();
    lent.record[ENTRY + 16] = 2;
    lent.put(ENTRY + 20, 65_535);
    assert_eq!(lent.best_effort(2_020, 1), (0, 2_020, 0));
    assert_eq!(lent.best_effort(400, 2), (0, 2_420, 0));
}

/// Open writes its fields, zeros to the register block and no memory, also on a record whose spare octets and marks hold anything.
#[test]
fn open_writes_what_its_rule_names() {
    let mut lent = Lent { record: vec![0xEE; PORT + 3], memory: vec![0xEE; MEMORY + 3] };
    lent.record[1] = 3;
    lent.record[8..12].fill(0);
    lent.record[16..36].fill(0);
    lent.fill(2, 40);
    lent.record[ENTRY] = 1;
    lent.record[ENTRY + 6] = 4;
    lent.put_place(2, 0);
    let mut after = lent.clone();
    assert_eq!(lent.open(2_620, 16), (0, 600, 0));
    after.record[0..3].copy_from_slice(&[1, 0, 16]);
    after.put(6, 2_620);
    after.record[16..36].fill(0);
    for stream in 0..64 {
        after.record[64 + 16 * stream] = 0;
        after.record[64 + 16 * stream + 6..64 + 16 * stream + 8].fill(0);
    }
    after.record[BLOCK..PORT].fill(0);
    assert_eq!(lent, after);
}

/// Reserve writes reserved, place, left, P and the draining count of its stream.
#[test]
fn reserve_writes_what_its_rule_names() {
    let mut lent = Lent::zeroed();
    lent.open(2_620, 1);
    lent.record[ENTRY..ENTRY + 16].fill(0xEE);
    let mut after = lent.clone();
    assert_eq!(lent.reserve(STREAM, 300), (0, 300, 0));
    after.record[ENTRY..ENTRY + 7].copy_from_slice(&[1, 1, 1, 44, 1, 44, 0]);
    assert_eq!(lent, after);
}

/// 18 comes before 19, and longer slices are fine.
#[test]
fn lengths() {
    let reply = |record: usize, memory: usize| Lent { record: vec![0; record], memory: vec![0; memory] }.open(2_620, 1).0;
    assert_eq!(reply(0, 0), 18);
    assert_eq!(reply(PORT, MEMORY - 1), 18);
    assert_eq!(reply(PORT - 1, MEMORY - 1), 18);
    assert_eq!(reply(PORT - 1, MEMORY), 19);
    assert_eq!(reply(0, MEMORY), 19);
    assert_eq!(reply(PORT, MEMORY), 0);
    assert_eq!(reply(PORT + 1, MEMORY + 1), 0);
    assert_eq!(unfit(&[], &[]), [Clause::ShortRecord]);
    assert_eq!(unfit(&[0; PORT], &[]), []);
}

/// 19: prior, start and count, and Open tests the record that it was given.
#[test]
fn unfit_head_and_queues() {
    let mut lent = Lent::of_the_cases();
    assert_eq!(lent.unfit(), []);
    lent.record[1] = 4;
    assert_eq!(lent.unfit(), [Clause::Prior]);
    lent.put(16, 256);
    assert_eq!(lent.unfit(), [Clause::Prior, Clause::Start]);
    lent.put(18 + 16, 257);
    assert_eq!(lent.unfit(), [Clause::Prior, Clause::Start, Clause::Count]);
    let mut closed = Lent::zeroed();
    closed.record[1] = 4;
    assert_eq!(closed.open(2_620, 1), (19, 0, 0));
}

/// 19: place and left of reserved streams, on a closed port too, and nothing of unreserved ones.
#[test]
fn unfit_streams() {
    let mut lent = Lent::of_the_cases();
    lent.put_place(0, 200);
    assert_eq!(lent.unfit(), [Clause::Place]);
    lent.put_place(4, 201);
    assert_eq!(lent.unfit(), [Clause::Place, Clause::Left]);
    lent.put_place(3, 201);
    lent.record[0] = 0;
    assert_eq!(lent.unfit(), [Clause::Left]);
    lent.record[ENTRY] = 255;
    assert_eq!(lent.unfit(), []);
}

/// 19: the three clauses on bindings.
#[test]
fn unfit_bindings() {
    let mut lent = Lent::of_the_cases();
    lent.reserve(6, 100);
    for entry in [ENTRY, ENTRY + 16] {
        lent.record[entry + 7] = 1;
        lent.put(entry + 8, 4_094);
    }
    assert_eq!(lent.unfit(), [Clause::BindingRepeats]);
    lent.put(ENTRY + 8, 1);
    assert_eq!(lent.unfit(), []);
    lent.put(ENTRY + 8, 4_094);
    lent.record[ENTRY + 15] = 1;
    assert_eq!(lent.unfit(), []);
    lent.put(ENTRY + 8, 4_095);
    assert_eq!(lent.unfit(), [Clause::BindingVid]);
    lent.put(ENTRY + 8, 0);
    assert_eq!(lent.unfit(), [Clause::BindingVid]);
    lent.record[ENTRY] = 0;
    assert_eq!(lent.unfit(), [Clause::BindingUnreserved]);
    lent.record[ENTRY + 7] = 2;
    assert_eq!(lent.unfit(), []);
}

/// 19: the clauses on waiting frames and on W.
#[test]
fn unfit_waiting_frames() {
    let mut lent = Lent::of_the_cases();
    lent.put_frame(3, 200, 64, 84, 0);
    lent.put(16 + 12, 200);
    lent.put(18 + 12, 1);
    assert_eq!(lent.unfit(), [Clause::WaitingStream]);
    lent.put_frame(3, 200, 63, 83, 0);
    assert_eq!(lent.unfit(), [Clause::WaitingCharge]);
    lent.put_frame(3, 200, 63, 2_020, 0);
    assert_eq!(lent.unfit(), []);
    lent.put_frame(4, 0, 254, 84, 0);
    lent.put(18 + 16, 1);
    assert_eq!(lent.unfit(), [Clause::WaitingBestEffortStream, Clause::Waits]);
    lent.put_frame(4, 0, 255, 2_021, 0);
    lent.put(10, 2_021);
    assert_eq!(lent.unfit(), [Clause::WaitingCharge]);
    lent.put_frame(4, 0, 255, 2_020, 0);
    assert_eq!(lent.unfit(), [Clause::Waits]);
    lent.put(10, 2_020);
    assert_eq!(lent.unfit(), []);
}

/// 19: the clauses that stand on an open port only.
#[test]
fn unfit_on_an_open_port_only() {
    let mut lent = Lent::of_the_cases();
    lent.put(ENTRY + 4, 601);
    assert_eq!(lent.unfit(), [Clause::PermittedSum]);
    lent.put(ENTRY + 4, 83);
    lent.put_place(1, 83);
    assert_eq!(lent.unfit(), [Clause::Permitted]);
    lent.record[2] = 17;
    assert_eq!(lent.unfit(), [Clause::Delay, Clause::Permitted]);
    lent.put(6, 2_103);
    assert_eq!(lent.unfit(), [Clause::Link, Clause::Delay, Clause::Permitted]);
    lent.record[0] = 0;
    assert_eq!(lent.unfit(), []);
}

/// A plain generator of numbers without pattern, the same in each run.
fn draw(seed: &mut u64) -> u32 {
    *seed = seed.wrapping_mul(6_364_136_223_846_793_005).wrapping_add(1_442_695_040_888_963_407);
    (*seed >> 33) as u32
}

/// One call of any kind, most of them with arguments that are near their ranges.
fn any_call(seed: &mut u64) -> Call {
    let stream = (draw(seed) % 3) as u8 * 63;
    match draw(seed) % 19 {
        0 => Call::Open { link: 2_000 + draw(seed) % 22_000, delay: draw(seed) % 18 },
        1 => Call::Reserve { stream, permitted: draw(seed) % 2_500 },
        2 => Call::Tick,
        3 => Call::Transmit,
        4 | 5 => Call::BestEffort { charge: draw(seed) % 2_100, tag: draw(seed) },
        6 => Call::Bind { stream, address: [0; 6], vid: draw(seed) % 3 },
        7..=9 => any_frame(seed),
        10 => Call::Withdraw { stream },
        11 | 12 => Call::ReadRegister { offset: draw(seed) % 70 },
        13 | 14 => Call::WriteRegister { offset: 4 * (draw(seed) % 17), value: draw(seed) % 9 },
        _ => Call::Arrive { stream, charge: draw(seed) % 2_100, tag: draw(seed) },
    }
}

/// A Frame of zeros, tagged or not, with VID 1 or 2, near its range of lengths.
fn any_frame(seed: &mut u64) -> Call {
    let mut octets = vec![0; draw(seed) as usize % 2_100];
    if let [_, _, _, _, _, _, _, _, _, _, _, _, tagged, _, _, vid, ..] = &mut octets[..] {
        (*tagged, *vid) = (0x81 * (draw(seed) % 2) as u8, 1 + (draw(seed) % 2) as u8);
    }
    Call::Frame { octets: octets.into(), tag: draw(seed) }
}

/// From opening, no call meets 18, 19 or 20, and a refusal other than 14 keeps all contents.
#[test]
fn refusals_keep_contents_and_lists_stay_fit() {
    let mut seed = 1;
    for _ in 0..40 {
        let mut lent = Lent::zeroed();
        for _ in 0..100 {
            let before = lent.clone();
            let reply = lent.play(any_call(&mut seed));
            assert!(reply.0 < 18 || [25, 26].contains(&reply.0));
            assert!(reply.0 == 0 || (reply.1, reply.2) == (0, 0));
            assert!(reply.0 == 0 || reply.0 == 14 || lent == before);
        }
    }
}

/// Any octets at any length are borne without a panic.
#[test]
fn any_octets_are_borne() {
    let mut seed = 2;
    for round in 0..400 {
        let lengths = [(PORT, MEMORY), (PORT + 9, MEMORY + 9), (PORT - 1, MEMORY), (PORT, draw(&mut seed) as usize % MEMORY)];
        let (record, memory) = lengths[round % 4];
        let mut lent = Lent { record: Vec::new(), memory: Vec::new() };
        lent.record.extend((0..record).map(|_| draw(&mut seed) as u8 % (1 + (round % 5) as u8)));
        lent.memory.extend((0..memory).map(|_| draw(&mut seed) as u8));
        let before = lent.clone();
        let reply = lent.play(any_call(&mut seed));
        assert!(reply.0 == 0 || reply.0 == 14 || lent == before);
        unfit(&lent.record, &lent.memory);
    }
}
