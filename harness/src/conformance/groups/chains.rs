//! Chains laid through the records of a file: which port each record belongs to, where a chain ends or goes on, and the octets of the file.

use crate::call::Call;
use crate::capture::file::{self, Record};
use crate::comparing::random::Random;
use crate::model::capture::PORTS;

/// The records of a file after record 0, each with its event and its next index, and the first index of each port.
pub struct Chains {
    pub first: [usize; PORTS],
    pub records: Vec<Link>,
}

/// Stands in the place of a port where a record is on no chain.
pub const NO_PORT: usize = PORTS;

/// One record: its event, or none where it is on no chain, and its next index.
#[derive(Clone)]
pub struct Link {
    pub event: Option<Call>,
    pub next: usize,
}

impl Chains {
    /// Chains of the ports' events, whose records the ports take in this order.
    pub fn of(mut ports: [Vec<Call>; PORTS], order: &[usize]) -> Chains {
        let mut chains = Chains { first: [0; PORTS], records: vec![Link { event: None, next: 0 }; order.len()] };
        for (before, &port) in order.iter().enumerate().rev() {
            if let Some(event) = ports.get_mut(port).and_then(Vec::pop) {
                chains.records[before] = Link { event: Some(event), next: chains.first[port] };
                chains.first[port] = before + 1;
            }
        }
        chains
    }

    /// Lets the chain of a port go on at an index after its last record.
    pub fn goes_on(&mut self, port: usize, at: usize) {
        match self.indices(port).last() {
            None => self.first[port] = at,
            Some(&last) => self.records[last - 1].next = at,
        }
    }

    /// The indices of a port's records, in the order of its chain.
    pub fn indices(&self, port: usize) -> Vec<usize> {
        let start = Some(self.first[port]).filter(|&index| index > 0);
        std::iter::successors(start, |&index| Some(self.records[index - 1].next).filter(|&next| next > 0)).collect()
    }

    /// The octets of the file; a record on no chain has any.
    pub fn octets(&self, random: &mut Random) -> Vec<u8> {
        let mut octets = file::header(self.first.map(|index| index as u16)).to_vec();
        for link in &self.records {
            octets.extend(match &link.event {
                Some(event) => file::record(event, link.next as u16),
                None => any_record(random),
            });
        }
        octets
    }
}

/// A record of any octets.
fn any_record(random: &mut Random) -> Record {
    let mut record = Record::default();
    random.fill(&mut record);
    record
}

/// The order in which each port takes its records one after another, the ports in this order.
pub fn one_after_another(ports: &[Vec<Call>; PORTS], order: &[usize]) -> Vec<usize> {
    order.iter().flat_map(|&port| vec![port; ports[port].len()]).collect()
}

/// An order in which the ports take their records among each other, with so many records on no chain between them.
pub fn among_each_other(random: &mut Random, ports: &[Vec<Call>; PORTS], unused: usize) -> Vec<usize> {
    let mut owners = one_after_another(ports, &[0, 1, 2, 3]);
    owners.extend(vec![NO_PORT; unused]);
    random.shuffled(owners.len()).into_iter().map(|place| owners[place]).collect()
}
