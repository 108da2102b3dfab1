//! A list of Binds, Frames, Withdraws, accesses to registers and other calls whose replies are written down, from documents 01 and 02 or for records
//! that are not fit from the quick calls' definition, played on two sides.

use crate::call::{Call, Reply, ADDRESS_OCTETS};
use crate::comparing::compared::Compared;
use crate::comparing::fit::Octets;
use crate::comparing::frames::Header;
use crate::comparing::random::Random;
use crate::comparing::sides::Side;
use crate::comparing::test::Run;
use crate::layout;
use crate::model::octets::{MEMORY_OCTETS, PORT_OCTETS};
use crate::model::port::share;
use crate::model::refusal::{MEMORY_SHORT, PORT_CLOSED, RECORD_UNFIT};

/// The proved calls beside the model, and the proved quick calls beside their own definition: on fit records both reply the same.
pub const BOTH_SORTS: [[Side; 2]; 2] = [[Side::Exports, Side::Model], [Side::Quick, Side::InPlace]];

/// A destination address and a VID.
pub type Pair = ([u8; ADDRESS_OCTETS], u32);

/// Such a list as it is being played.
pub struct Stated<'a, 'r> {
    run: &'a mut Run<'r>,
    compared: Compared,
    pub random: Random,
}

impl<'a, 'r> Stated<'a, 'r> {
    /// A list that begins on a record and memory.
    pub fn on(run: &'a mut Run<'r>, sides: [Side; 2], begin: &Octets) -> Stated<'a, 'r> {
        let random = run.next_list();
        let compared = Compared::guarded(sides, run, &begin.record, &begin.memory);
        Stated { run, compared, random }
    }

    /// A list that begins with Open(L, K) on a used record that is closed, and reserves streams, each with its P.
    pub fn opened(run: &'a mut Run<'r>, sides: [Side; 2], link: u32, delay: u32, streams: &[(u8, u32)]) -> Result<Stated<'a, 'r>, String> {
        let mut random = run.next_list();
        let used = Octets::fit(&mut random, false);
        let compared = Compared::guarded(sides, run, &used.record, &used.memory);
        let mut list = Stated { run, compared, random };
        let mut free = share(link);
        list.call(Call::Open { link, delay }, Reply::granted(free, 0))?;
        for &(stream, permitted) in streams {
            free -= permitted;
            list.call(Call::Reserve { stream, permitted }, Reply::granted(free, 0))?;
        }
        Ok(list)
    }

    /// A call that must reply as is written down.
    pub fn call(&mut self, call: Call, reply: Reply) -> Result<(), String> {
        self.compared.expect(self.run, &call, |got| *got == reply, &reply.to_string())
    }

    /// A Bind.
    pub fn bind(&mut self, stream: u8, (address, vid): Pair, reply: Reply) -> Result<(), String> {
        self.call(Call::Bind { stream, address, vid }, reply)
    }

    /// A Bind that is granted, "Bind replies two zeros", and writes the bound mark, VID and address of its stream and no octet besides.
    pub fn bound(&mut self, stream: u8, pair: Pair) -> Result<(), String> {
        let mut after = self.record();
        self.bind(stream, pair, Reply::granted(0, 0))?;
        let at = layout::entry(usize::from(stream));
        after[at + 7] = 1;
        after[at + 8..at + 10].copy_from_slice(&(pair.1 as u16).to_be_bytes());
        after[at + 10..at + 16].copy_from_slice(&pair.0);
        match self.record() == after {
            true => Ok(()),
            false => Err(format!("{}: a granted bind of stream {stream} writes other octets than its binding", self.run.place)),
        }
    }

    /// A Withdraw that is granted, "A withdrawal replies two zeros", and writes the draining count of its stream, zeros to the stream's counts, and no
    /// octet besides.
    pub fn withdrawn(&mut self, stream: u8) -> Result<(), String> {
        let mut after = self.octets();
        self.call(Call::Withdraw { stream }, Reply::granted(0, 0))?;
        after.record[layout::entry(usize::from(stream)) + 6] = 4;
        after.record[layout::in_block(layout::counts(usize::from(stream)))..][..8].fill(0);
        match self.octets() == after {
            true => Ok(()),
            false => Err(format!("{}: a granted withdrawal of stream {stream} writes other octets than are named", self.run.place)),
        }
    }

    /// A Frame of a length with a header.
    pub fn frame(&mut self, header: &Header, length: usize, tag: u32, reply: Reply) -> Result<(), String> {
        let octets = header.octets(&mut self.random, length);
        self.call(Call::Frame { octets, tag }, reply)
    }

    /// A Frame of 60 octets and the Transmit that sends it: on a stream that has 84 octets left after it, or in best effort, where none waits.
    pub fn frame_of(&mut self, header: &Header, stream: Option<u8>) -> Result<(), String> {
        let octets = header.octets(&mut self.random, 60);
        self.octets_of(octets.to_vec(), stream)
    }

    /// The same of given octets.
    pub fn octets_of(&mut self, octets: Vec<u8>, stream: Option<u8>) -> Result<(), String> {
        let tag = self.random.number();
        let reply = if stream.is_some() { Reply::granted(1, 84) } else { Reply::granted(84, 0) };
        self.call(Call::Frame { octets: octets.into(), tag }, reply)?;
        self.call(Call::Transmit, Reply::granted(u32::from(stream.unwrap_or(255)), tag))?;
        self.call(Call::Tick, Reply::granted(0, 0))
    }

    /// The record as the calls so far left it.
    pub fn record(&self) -> Vec<u8> {
        self.compared.record().to_vec()
    }

    /// Record and memory as the calls so far left them.
    pub fn octets(&self) -> Octets {
        Octets { record: self.record(), memory: self.compared.memory().to_vec() }
    }

    /// The host closes the port.
    pub fn close(&mut self) {
        self.compared.host_writes(layout::OPEN, 0);
    }

    /// Lends other octets of the same lengths.
    pub fn lend_again(&mut self, octets: &Octets) {
        self.compared.lend_again(&octets.record, &octets.memory);
    }
}

/// An open port as it is, closed, with its port or its memory cut by an octet, and with several of these at once; each with what every call but
/// Open is refused with there, "18 19 1", before its own checks.
pub fn refused_before_all_else(port: &Octets) -> Vec<(Octets, Option<u8>)> {
    let cases = (0..8).map(|case| (case & 1 != 0, case & 2 != 0, case & 4 != 0));
    let made = cases.map(|(closed, cut_record, cut_memory)| {
        let mut octets = port.clone();
        octets.record[layout::OPEN] = u8::from(!closed);
        octets.record.truncate(PORT_OCTETS - usize::from(cut_record));
        octets.memory.truncate(MEMORY_OCTETS - usize::from(cut_memory));
        let refusals = [(cut_memory, MEMORY_SHORT), (cut_record, RECORD_UNFIT), (closed, PORT_CLOSED)];
        let first = refusals.into_iter().find(|(holds, _)| *holds).map(|(_, refusal)| refusal);
        (octets, first)
    });
    made.collect()
}
