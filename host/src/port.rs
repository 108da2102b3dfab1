//! A port that owns its record, its register block and its memory.

use std::fmt;

use crate::exports::{self, Address, Memory, PortOctets, CLOSED_PORT, EMPTY_MEMORY};
use crate::refusal::Refusal;
use crate::register::{self, Control, Controlled, Flags, Mask, Register, Status, StreamCounts};
use crate::reply::{self, never_refused, Framed, Joined, Lookup, Numbers, Purged, Reserved, Sent, Waiting};
use crate::STREAMS;

#[cfg(test)]
mod comparing;
#[cfg(test)]
mod wrapping;

/// An open port, with its record, its register block and the memory for its frames.
///
/// A port comes to be by a granted Open alone, and is open from then on; another L or K is another port. Its octets and its memory, about twelve
/// thousand octets, lie where the host puts it: in a variable, a field or a `Box`.
///
/// # Whose replies these are
///
/// Open is the exported call that tests the record; [`lookup`](Port::lookup), [`stream_counts`](Port::stream_counts) and
/// [`counts_of`](Port::counts_of) are those that have no test of it. All other methods are the *quick* calls, which scan nothing. Their replies are
/// the rule's own all the same, and that is proved:
///
/// - each export does what its definition says, for every record, memory and argument (the contracts in `crates/exports/src`);
/// - a lookup finds the lowest stream that is bound to the pair, and its number is the rule's (`finds-same`, `exact-number` and `number-within`,
///   `crates/binding/proofs/FindingLaws.antt`);
/// - a record of zeros, on which [`open`](Port::open) calls Open, is fit (`fresh-fits`, `crates/port_laws/proofs/FreshFit.antt`);
/// - every call leaves a fit record fit, the granted Open among them (`stays-fit`, `crates/port_laws/proofs/StayLaws.antt`);
/// - on a fit record the quick call equals the call in reply, record and memory (`quick-call`, `crates/port_laws/proofs/QuickLaws.antt`), so over
///   every list of calls the quick calls reply as the calls do (`quick-replies`, `crates/port_laws/proofs/StayLaws.antt`);
/// - on a fit record the quick register accesses equal the accesses (`quick-read`, `quick-write`,
///   `crates/register_laws/proofs/QuickRegisters.antt`);
/// - any list of control writes does to the port what the calls do that they name (`controls-named`,
///   `crates/register_laws/proofs/ControlLaws.antt`);
/// - a stream's counts are the number of its frames that were accepted and of those that were discarded since the opening or its latest granted
///   withdrawal, modulo 4,294,967,296 (`counts-tell`, `crates/register_laws/proofs/ReadLaws.antt`), and nothing of other streams is in them
///   (`counts-alike`, `crates/register_laws/proofs/AlikeLaws.antt`).
///
/// What these ask of the host is that nobody else writes the port's octets or the memory, and that the two are always lent together. Here they are
/// private fields of one value, so no safe program can do otherwise.
///
/// No method meets 18, 19 or 20 (`demand-3`, its `not-by-host`, and `quick-events`, `crates/guarantee/proofs/Theorem.antt`), nor 1, since no call
/// closes a port (`holds-next`, `crates/guarantee/proofs/Play.antt`), nor 2, since Open is called once, on a closed port. Each method says which it
/// can meet, in the order in which they are asked: of those that apply, the first is the reply.
///
/// # Threads
///
/// A port is a plain value, and the library has no state of its own, so a port may be sent to another thread. A method that changes the port asks
/// for `&mut`, so no two run on it at a time, and none beside one that reads registers or counts or looks up a stream; these ask for `&`, and may run
/// beside each other.
///
/// # Registers
///
/// A node's controller sees a port as [`Register`]s. Flags and counts follow every call on the port, by whichever method it comes, from 0 at the
/// opening on; of the refusals [`Discard`](Refusal::Discard) alone sets a flag or a count. The interrupt line is up exactly when flags and mask
/// share a one. A host that has the port to itself uses the methods with types; one that hands a controller's offsets and values through uses
/// [`read_register`](Port::read_register) and [`write_register`](Port::write_register).
///
/// Accepted and discarded frames are counted for each stream by itself, and [`stream_counts`](Port::stream_counts) has the counts of all streams. A
/// controller sees those of one stream at a time, which it chooses by a register ([`set_choice`](Port::set_choice),
/// [`chosen_counts`](Port::chosen_counts)); reading by these methods leaves its choice as it is.
///
/// ```
/// use bunnysolder::{Control, Controlled, Flags, Port, Refusal, Sent, StreamCounts};
///
/// let mut port = Port::open(2_620, 1)?;
/// port.reserve(5, 200)?;
/// port.set_mask(Flags { discard: true, purge: true, nothing: false });
///
/// // A frame joins current; the next one has a charge over P, is discarded, and the line goes up.
/// port.arrive(5, 120, 7)?;
/// assert!(!port.status().interrupt);
/// assert_eq!(port.arrive(5, 201, 8), Err(Refusal::Discard));
/// assert!(port.status().interrupt);
///
/// // The host sees what it was and of which stream, and clears what it has seen: the line is down.
/// let flags = port.flags();
/// assert_eq!(flags, Flags { discard: true, purge: false, nothing: false });
/// assert_eq!(port.counts_of(5)?, StreamCounts { accepted: 1, discarded: 1 });
/// port.clear(flags);
/// assert!(!port.status().interrupt);
///
/// // One write ends the epoch and sends: frame 7 is in prior then.
/// let sent = Sent::Reserved { stream: 5, tag: 7 };
/// assert_eq!(port.control(Control { tick: true, transmit: true })?, Controlled::Transmitted(sent));
/// assert_eq!(port.frames_sent(), 1);
/// # Ok::<(), Refusal>(())
/// ```
///
/// # Panics
///
/// A reply that is none of the rule's cannot come, since the contracts say what comes. Should one come all the same, then the library that is
/// linked is not the proved one, or something else has written the program's memory: the method panics with that reply in its message, and hands on
/// no value.
///
/// # Example
///
/// ```
/// use bunnysolder::{Joined, Port, Queue, Refusal, Sent, Waiting};
///
/// let mut port = Port::open(2_620, 1)?;
/// assert_eq!(port.share(), 600); // 2,620 − 2,020
/// port.reserve(5, 200)?;
/// assert_eq!(port.best_effort(300, 1)?, Waiting { octets: 300 });
/// assert_eq!(port.arrive(5, 120, 2)?, Joined { queue: Queue::Current, left: 80 }); // 200 − 120
/// assert_eq!(port.transmit()?, Sent::Reserved { stream: 5, tag: 2 }); // before best effort
/// assert_eq!(port.transmit()?, Sent::BestEffort { tag: 1 });
/// assert_eq!(port.transmit()?, Sent::Nothing);
/// assert_eq!(port.arrive(6, 120, 3), Err(Refusal::NotReserved));
/// # Ok::<(), Refusal>(())
/// ```
pub struct Port {
    /// The port record, fit and open, and after it the register block.
    octets: PortOctets,
    /// The memory for the waiting frames.
    memory: Memory,
    /// What Open replied.
    share: u32,
}

impl Port {
    /// Open(L, K): a port without reservations, bindings and frames, with flags, mask and counters 0. `link` is L, the link octets in an epoch;
    /// `delay` is K, the best-effort delay bound in epochs.
    ///
    /// Refusals, in this order: [`LinkRange`](Refusal::LinkRange) (3), [`DelayRange`](Refusal::DelayRange) (4).
    pub fn open(link: u32, delay: u32) -> Result<Port, Refusal> {
        let mut port = Port { octets: CLOSED_PORT, memory: EMPTY_MEMORY, share: 0 };
        port.share = exports::open(&mut port.octets, &port.memory, link, delay).map(reply::share)?;
        Ok(port)
    }

    /// What Open replied: the share, L − 2,020, the most that all reservations can have together.
    pub fn share(&self) -> u32 {
        self.share
    }

    /// Reserve(s, P): the stream has `permitted` octets, P, in each epoch, and is at current with all of them left. Replies the share still free.
    ///
    /// Refusals, in this order: [`StreamRange`](Refusal::StreamRange) (5), [`Draining`](Refusal::Draining) (25),
    /// [`ReservedAlready`](Refusal::ReservedAlready) (6), [`PermittedRange`](Refusal::PermittedRange) (7),
    /// [`ShareExceeded`](Refusal::ShareExceeded) (8).
    pub fn reserve(&mut self, stream: u8, permitted: u32) -> Result<Reserved, Refusal> {
        exports::reserve(&mut self.octets, &self.memory, stream, permitted).map(Reserved::of)
    }

    /// Arrive(s, a, tag): a frame arrives on a reserved stream. `charge` is a, the octets that it costs on the wire: its length without check
    /// sequence plus 24. `tag` is the host's own number for it. Replies the queue that it has joined, and what is left.
    ///
    /// Refusals, in this order: [`StreamRange`](Refusal::StreamRange) (5), [`Draining`](Refusal::Draining) (25),
    /// [`NotReserved`](Refusal::NotReserved) (12), [`ChargeRange`](Refusal::ChargeRange) (13), [`Discard`](Refusal::Discard) (14), which leaves the
    /// stream at last with nothing left. A grant and a discard are counted for the stream ([`counts_of`](Port::counts_of)).
    pub fn arrive(&mut self, stream: u8, charge: u32, tag: u32) -> Result<Joined, Refusal> {
        exports::arrive(&mut self.octets, &mut self.memory, stream, charge, tag).map(Joined::of)
    }

    /// Tick: an epoch of this port ends. Replies what was purged: the frames that still waited in prior. It frees each stream whose draining ends
    /// with it ([`withdraw`](Port::withdraw)).
    ///
    /// Refusals: none. The rule has 18, 19 and 1 here, in this order, and a port of this type never meets them.
    pub fn tick(&mut self) -> Result<Purged, Refusal> {
        exports::tick(&mut self.octets, &self.memory).map(Purged::of)
    }

    /// Transmit: the link can send a frame. Replies which one it is to send, and the port has it no longer: the oldest of prior; if none, of current;
    /// if none, of best effort.
    ///
    /// Refusals: none. The rule has 18, 19 and 1 here, in this order, and a port of this type never meets them.
    pub fn transmit(&mut self) -> Result<Sent, Refusal> {
        exports::transmit(&mut self.octets, &self.memory).map(Sent::of)
    }

    /// Best effort(a, tag): a frame of no stream arrives; `charge` and `tag` are as in [`arrive`](Port::arrive). It waits until neither prior nor
    /// current has a frame. It is counted nowhere before it is sent. Replies W.
    ///
    /// Refusals, in this order: [`ChargeRange`](Refusal::ChargeRange) (13), [`BestEffortFull`](Refusal::BestEffortFull) (15),
    /// [`LimitExceeded`](Refusal::LimitExceeded) (16).
    pub fn best_effort(&mut self, charge: u32, tag: u32) -> Result<Waiting, Refusal> {
        exports::best_effort(&mut self.octets, &mut self.memory, charge, tag).map(Waiting::of)
    }

    /// Bind(s, address, VID): from now on a [`frame`](Port::frame) with this destination and this VLAN id arrives on this reserved stream. A stream
    /// has one binding, and keeps it until it is free again ([`withdraw`](Port::withdraw)).
    ///
    /// Refusals, in this order: [`StreamRange`](Refusal::StreamRange) (5), [`Draining`](Refusal::Draining) (25),
    /// [`NotReserved`](Refusal::NotReserved) (12), [`VidRange`](Refusal::VidRange) (9), [`BoundAlready`](Refusal::BoundAlready) (10),
    /// [`PairBoundAlready`](Refusal::PairBoundAlready) (11).
    ///
    /// ```
    /// use bunnysolder::{Port, Refusal};
    ///
    /// let address = [0x01, 0x00, 0x5E, 0x00, 0x00, 0x05];
    /// let mut port = Port::open(2_620, 1)?;
    /// port.reserve(5, 200)?;
    /// assert_eq!(port.bind(6, &address, 100), Err(Refusal::NotReserved));
    /// port.bind(5, &address, 100)?;
    /// port.reserve(6, 200)?;
    /// assert_eq!(port.bind(6, &address, 100), Err(Refusal::PairBoundAlready));
    /// port.bind(6, &address, 101)?; // the same address with another VID is another pair
    /// # Ok::<(), Refusal>(())
    /// ```
    pub fn bind(&mut self, stream: u8, address: &Address, vid: u32) -> Result<(), Refusal> {
        exports::bind(&mut self.octets, &self.memory, stream, address, vid).map(reply::bound)
    }

    /// Frame(octets, tag): a frame arrives, given by its octets from the destination on, without check sequence. Octets 0 to 5 are its destination;
    /// where octets 12 and 13 are 81 00 (hexadecimal), its VID is the low 12 bits of octets 14 and 15, high octet first. Where the two are bound to
    /// a stream it is an Arrive on that stream, otherwise a Best effort, with its length plus 24 as its charge. Replies and is counted as that call.
    /// Nothing is kept of the octets: the host keeps the frame, under its tag. A frame has [`SHORTEST_FRAME`](crate::SHORTEST_FRAME) to
    /// [`LONGEST_FRAME`](crate::LONGEST_FRAME) octets.
    ///
    /// Refusals, in this order: [`FrameLength`](Refusal::FrameLength) (17); then of an arrival [`Draining`](Refusal::Draining) (25),
    /// [`Discard`](Refusal::Discard) (14), of a best-effort frame [`BestEffortFull`](Refusal::BestEffortFull) (15),
    /// [`LimitExceeded`](Refusal::LimitExceeded) (16).
    ///
    /// ```
    /// use bunnysolder::{Framed, Joined, Port, Queue, Refusal, Waiting, LONGEST_FRAME, SHORTEST_FRAME};
    ///
    /// let address = [0x01, 0x00, 0x5E, 0x00, 0x00, 0x05];
    /// let mut port = Port::open(2_620, 1)?;
    /// port.reserve(5, 200)?;
    /// port.bind(5, &address, 100)?;
    ///
    /// // A frame of 96 octets to that address, with priority 7 and VID 100 in its VLAN tag: a charge of 96 + 24 = 120, and 200 − 120 = 80.
    /// let mut buffer = [0; LONGEST_FRAME];
    /// buffer[..6].copy_from_slice(&address);
    /// buffer[12..16].copy_from_slice(&[0x81, 0x00, 0xE0, 0x64]);
    /// assert_eq!(port.frame(&buffer[..96], 7)?, Framed::Arrived(Joined { queue: Queue::Current, left: 80 }));
    ///
    /// // With VID 101 the pair is bound to no stream: the frame is best effort. A gateway's frame may fill the buffer: 1,996 + 24 = 2,020.
    /// buffer[15] = 0x65;
    /// assert_eq!(port.frame(&buffer, 8)?, Framed::BestEffort(Waiting { octets: 2_020 }));
    ///
    /// assert_eq!(port.frame(&buffer[..SHORTEST_FRAME - 1], 9), Err(Refusal::FrameLength));
    /// # Ok::<(), Refusal>(())
    /// ```
    pub fn frame(&mut self, octets: &[u8], tag: u32) -> Result<Framed, Refusal> {
        exports::frame(&mut self.octets, &mut self.memory, octets, tag).map(Framed::of)
    }

    /// Lookup(address, VID): finds the stream that is bound to a pair as [`bind`](Port::bind) does before it refuses with 11, and as
    /// [`frame`](Port::frame) does for a frame with a VLAN tag. It goes through the bindings by rising stream up to the one that matches, those of
    /// draining streams among them; it compares the VID and, only where that is equal, the address from its last octet back, up to the first octet
    /// that differs. Replies the stream, and how many address octets were compared. A VID that no binding has finds no stream. It changes nothing, no
    /// register either.
    ///
    /// Refusals: none.
    ///
    /// ```
    /// use bunnysolder::{Lookup, Port, Refusal};
    ///
    /// let (first, second) = ([0x01, 0x00, 0x5E, 0x00, 0x00, 0x66], [0x01, 0x00, 0x5E, 0x00, 0x00, 0x67]);
    /// let mut port = Port::open(2_620, 1)?;
    /// port.reserve(5, 200)?;
    /// port.reserve(6, 200)?;
    /// port.bind(5, &first, 100)?;
    /// port.bind(6, &second, 100)?;
    ///
    /// // Of the first binding the last octet differs, 67 from 66; of the second all six are equal: 1 + 6 = 7.
    /// assert_eq!(port.lookup(&second, 100), Lookup { stream: Some(6), compared: 7 });
    ///
    /// // With another VID no octet of an address is compared.
    /// assert_eq!(port.lookup(&second, 101), Lookup { stream: None, compared: 0 });
    /// # Ok::<(), Refusal>(())
    /// ```
    pub fn lookup(&self, address: &Address, vid: u32) -> Lookup {
        Lookup::of(never_refused(exports::lookup(&self.octets, address, vid), "a lookup"))
    }

    /// Withdraw(s): takes a reserved stream off the line. Its frames that wait stay in their queues and are sent as before; it takes no more. It
    /// drains for as many ticks as the port has queues for reserved traffic, which are four. Meanwhile every call that names it is refused with
    /// [`Draining`](Refusal::Draining), and so is a frame that would arrive on it; its P still counts in R and has its part of the share, and its
    /// binding stands against others. The last of these ticks frees it: its number may be reserved again, its part of the share is free, and its
    /// binding is gone. Both its counts ([`counts_of`](Port::counts_of)) are 0 as soon as the withdrawal is granted.
    ///
    /// Refusals, in this order: [`StreamRange`](Refusal::StreamRange) (5), [`Draining`](Refusal::Draining) (25),
    /// [`NotReserved`](Refusal::NotReserved) (12).
    ///
    /// ```
    /// use bunnysolder::{Joined, Port, Queue, Refusal, Reserved, Sent};
    ///
    /// // Stream 5 has the whole share, 600, and a frame that waits.
    /// let mut port = Port::open(2_620, 1)?;
    /// port.reserve(5, 600)?;
    /// assert_eq!(port.arrive(5, 120, 7)?, Joined { queue: Queue::Current, left: 480 });
    ///
    /// // It is taken off the line: it takes no frame any more, and the one that waits is sent.
    /// port.withdraw(5)?;
    /// assert_eq!(port.arrive(5, 100, 8), Err(Refusal::Draining));
    /// assert_eq!(port.transmit()?, Sent::Reserved { stream: 5, tag: 7 });
    ///
    /// // Until the fourth tick it still has the share, so nothing is free for stream 6; then all is.
    /// for _ in 0..3 {
    ///     port.tick()?;
    ///     assert_eq!(port.reserve(6, 600), Err(Refusal::ShareExceeded));
    /// }
    /// port.tick()?;
    /// assert_eq!(port.reserve(6, 600)?, Reserved { free: 0 });
    /// assert_eq!(port.arrive(5, 100, 8), Err(Refusal::NotReserved));
    /// # Ok::<(), Refusal>(())
    /// ```
    pub fn withdraw(&mut self, stream: u8) -> Result<(), Refusal> {
        exports::withdraw(&mut self.octets, &self.memory, stream).map(reply::withdrawn)
    }

    /// Writes control: [`tick`](Port::tick) where that is asked for, then [`transmit`](Port::transmit) where that is. Replies as the last of these
    /// calls.
    ///
    /// Refusals: none. The rule has 18, 19 and 1 here, in this order, and a port of this type never meets them.
    ///
    /// ```
    /// use bunnysolder::{Control, Controlled, Port, Purged, Refusal, Sent};
    ///
    /// let mut port = Port::open(2_620, 1)?;
    /// let (tick, transmit) = (true, true);
    /// assert_eq!(port.control(Control { tick, transmit: false })?, Controlled::Ticked(Purged { frames: 0, octets: 0 }));
    /// assert_eq!(port.control(Control { tick, transmit })?, Controlled::Transmitted(Sent::Nothing));
    /// assert_eq!(port.control(Control::default())?, Controlled::Neither);
    /// # Ok::<(), Refusal>(())
    /// ```
    pub fn control(&mut self, control: Control) -> Result<Controlled, Refusal> {
        self.write_register(Register::Control.offset(), control.bits()).map(|numbers| Controlled::of(control, numbers))
    }

    /// Reads status: whether the port is open, and whether the interrupt line is up.
    pub fn status(&self) -> Status {
        Status::of(self.read(Register::Status))
    }

    /// Reads the flags: what has happened since the opening, or since a flag was last cleared.
    pub fn flags(&self) -> Flags {
        Flags::of(self.read(Register::Flags))
    }

    /// Writes the flags: clears those that are given, and leaves the others. A host that gives those that it has read clears no other.
    pub fn clear(&mut self, flags: Flags) {
        register::written(self.write(Register::Flags, flags.bits()));
    }

    /// Reads the interrupt mask, as it was written.
    pub fn mask(&self) -> Mask {
        Mask(register::read(self.read(Register::Mask)))
    }

    /// Writes the interrupt mask, given by the flags that are to raise the interrupt line, or by all its bits as a [`Mask`].
    ///
    /// ```
    /// use bunnysolder::{Flags, Mask, Port, Refusal};
    ///
    /// let mut port = Port::open(2_620, 1)?;
    /// port.set_mask(Flags { nothing: true, ..Flags::default() });
    /// assert_eq!(port.mask(), Mask(0b100));
    /// port.set_mask(Mask(0xABCD_EF12));
    /// assert_eq!(port.mask(), Mask(0xABCD_EF12));
    /// # Ok::<(), Refusal>(())
    /// ```
    pub fn set_mask(&mut self, mask: impl Into<Mask>) {
        register::written(self.write(Register::Mask, mask.into().0));
    }

    /// The counts of all streams, that of stream s at index s: which machine is talking too much. The choice does not matter for them, and stays.
    ///
    /// ```
    /// use bunnysolder::{Port, Refusal, StreamCounts, STREAMS};
    ///
    /// let mut port = Port::open(2_620, 1)?;
    /// port.reserve(5, 200)?;
    /// port.reserve(63, 200)?;
    /// port.arrive(5, 120, 7)?;
    /// assert_eq!(port.arrive(63, 201, 8), Err(Refusal::Discard)); // 201 octets are above P
    ///
    /// let counts = port.stream_counts();
    /// assert_eq!(counts[5], StreamCounts { accepted: 1, discarded: 0 });
    /// let talkers: Vec<usize> = (0..STREAMS).filter(|&stream| counts[stream].discarded > 0).collect();
    /// assert_eq!(talkers, [63]);
    ///
    /// // Once a stream is withdrawn it has no counts.
    /// port.withdraw(63)?;
    /// assert_eq!(port.stream_counts()[63], StreamCounts::default());
    /// # Ok::<(), Refusal>(())
    /// ```
    pub fn stream_counts(&self) -> [StreamCounts; STREAMS] {
        std::array::from_fn(|stream| {
            let counts = exports::stream_counts(&self.octets, stream as u8);
            StreamCounts::of(never_refused(counts, "the counts of a stream"))
        })
    }

    /// Stream counts(s): the counts of one stream, reserved or not. The choice does not matter for them, and stays.
    ///
    /// Refusals: [`StreamRange`](Refusal::StreamRange) (5).
    ///
    /// ```
    /// use bunnysolder::{Port, Refusal, StreamCounts};
    ///
    /// let mut port = Port::open(2_620, 1)?;
    /// port.reserve(5, 200)?;
    /// port.arrive(5, 120, 7)?;
    /// port.best_effort(84, 8)?; // a frame of no stream
    /// assert_eq!(port.counts_of(5)?, StreamCounts { accepted: 1, discarded: 0 });
    /// assert_eq!(port.counts_of(6)?, StreamCounts::default());
    /// assert_eq!(port.counts_of(64), Err(Refusal::StreamRange));
    /// # Ok::<(), Refusal>(())
    /// ```
    pub fn counts_of(&self, stream: u8) -> Result<StreamCounts, Refusal> {
        exports::stream_counts(&self.octets, stream).map(StreamCounts::of)
    }

    /// Reads what a controller sees of the counts: those of the stream that it has [chosen](Port::set_choice), at first stream 0, and two zeros where
    /// its choice is no stream's number. A host that wants a certain stream's counts asks [`counts_of`](Port::counts_of).
    ///
    /// ```
    /// use bunnysolder::{Port, Refusal, StreamCounts};
    ///
    /// let mut port = Port::open(2_620, 1)?;
    /// port.reserve(5, 200)?;
    /// port.arrive(5, 120, 7)?;
    /// assert_eq!(port.chosen_counts(), StreamCounts::default()); // of stream 0
    /// port.set_choice(5);
    /// assert_eq!(port.chosen_counts(), StreamCounts { accepted: 1, discarded: 0 });
    /// port.set_choice(64);
    /// assert_eq!(port.chosen_counts(), StreamCounts::default()); // of no stream
    /// # Ok::<(), Refusal>(())
    /// ```
    pub fn chosen_counts(&self) -> StreamCounts {
        let count = |register: Register| register::read(self.read(register));
        StreamCounts { accepted: count(Register::Accepted), discarded: count(Register::Discarded) }
    }

    /// Reads how many frames the port has sent since the opening, those of all streams and those of best effort; after 4,294,967,295 comes 0.
    pub fn frames_sent(&self) -> u32 {
        register::read(self.read(Register::Sent))
    }

    /// Reads the choice, as it was written: the number of the stream whose counts a controller sees, or one that is no stream's.
    pub fn choice(&self) -> u32 {
        register::read(self.read(Register::Choice))
    }

    /// Writes the choice: the stream whose counts a controller sees ([`chosen_counts`](Port::chosen_counts)). Every number is kept; with one above 63
    /// it sees two zeros.
    pub fn set_choice(&mut self, choice: u32) {
        register::written(self.write(Register::Choice, choice));
    }

    /// Register read(offset): the register at an offset that a controller gives; zero where there is none ([`Register`]).
    ///
    /// Refusals: [`OffsetRange`](Refusal::OffsetRange) (26).
    ///
    /// ```
    /// use bunnysolder::{Port, Refusal, Register, Status};
    ///
    /// let port = Port::open(2_620, 1)?;
    /// let status = port.read_register(Register::Status.offset())?;
    /// assert_eq!(Status::from_bits(status), Status { open: true, interrupt: false });
    /// assert_eq!(status.to_be_bytes(), [0, 0, 0, 1]); // as octets, the high one first
    /// assert_eq!(port.read_register(60)?, 0);
    /// assert_eq!(port.read_register(61), Err(Refusal::OffsetRange));
    /// assert_eq!(port.read_register(64), Err(Refusal::OffsetRange));
    /// # Ok::<(), Refusal>(())
    /// ```
    pub fn read_register(&self, offset: u32) -> Result<u32, Refusal> {
        exports::register_read(&self.octets, &self.memory, offset).map(register::read)
    }

    /// Register write(offset, value): a controller's write to the register at an offset. Control, flags, mask and choice take it as
    /// [`control`](Port::control), [`clear`](Port::clear), [`set_mask`](Port::set_mask) and [`set_choice`](Port::set_choice) do; everywhere else it
    /// does nothing. A one in a bit that control or the flags do not have is ignored. Replies the two numbers of the last call that a write to control
    /// asks for, otherwise two zeros.
    ///
    /// Refusals: [`OffsetRange`](Refusal::OffsetRange) (26).
    ///
    /// ```
    /// use bunnysolder::{Control, Flags, Port, Refusal, Register};
    ///
    /// let mut port = Port::open(2_620, 1)?;
    /// let (control, flags) = (Register::Control.offset(), Register::Flags.offset());
    /// let transmit = Control { tick: false, transmit: true };
    /// assert_eq!(port.write_register(control, transmit.bits())?, (254, 0)); // nothing to send
    /// assert_eq!(port.read_register(flags)?, Flags { nothing: true, ..Flags::default() }.bits());
    /// assert_eq!(port.write_register(flags, u32::MAX)?, (0, 0));
    /// assert_eq!(port.read_register(flags)?, 0);
    /// assert_eq!(port.write_register(2, 0), Err(Refusal::OffsetRange));
    /// # Ok::<(), Refusal>(())
    /// ```
    pub fn write_register(&mut self, offset: u32, value: u32) -> Result<(u32, u32), Refusal> {
        exports::register_write(&mut self.octets, &self.memory, offset, value)
    }

    /// What a read of a register replies.
    fn read(&self, register: Register) -> Numbers {
        never_refused(exports::register_read(&self.octets, &self.memory, register.offset()), "a register read")
    }

    /// What a write to a register other than control replies.
    fn write(&mut self, register: Register, value: u32) -> Numbers {
        never_refused(exports::register_write(&mut self.octets, &self.memory, register.offset(), value), "a register write")
    }
}

impl fmt::Debug for Port {
    fn fmt(&self, f: &mut fmt::Formatter<'_>) -> fmt::Result {
        f.debug_struct("Port").field("share", &self.share).finish_non_exhaustive()
    }
}
