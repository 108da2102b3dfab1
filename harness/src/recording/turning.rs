//! Makes the capture of a recording: packet after packet becomes a call on port 0 at its time, with the plan's withdrawals at theirs.

use std::collections::VecDeque;
use std::io::Read;

use crate::call::Call;
use crate::capture::file;
use crate::model::capture::PORTS;
use crate::recording::frames::{frame, Frame};
use crate::recording::link::{Full, Link};
use crate::recording::pcap::{BadRecording, Packet, Recording};
use crate::recording::plan::{Plan, Withdrawal};
use crate::recording::report::Report;

/// Which ports start: port 0.
const STARTS: [bool; PORTS] = [true, false, false, false];

/// The capture of a recording under a plan, and what became of the packets.
pub fn capture<R: Read>(plan: Plan, recording: Recording<R>) -> Result<(Vec<u8>, Report), BadRecording> {
    let withdrawals = plan.withdrawals.clone().into();
    let mut turning = Turning { link: Link::of(plan), withdrawals, times: None, full: false, report: Report::default() };
    for packet in recording {
        turning.packet(&packet?);
    }
    Ok(turning.ended())
}

/// A capture that is being made.
struct Turning {
    link: Link,
    /// The withdrawals that are still to come, by their times.
    withdrawals: VecDeque<Withdrawal>,
    /// The time of the first packet, when epoch 0 begins, and the latest so far.
    times: Option<(u64, u64)>,
    /// Whether an event had no room.
    full: bool,
    report: Report,
}

impl Turning {
    /// Takes the next packet.
    fn packet(&mut self, packet: &Packet) {
        self.report.packets += 1;
        let time = self.time(packet);
        if self.full {
            return self.report.left_out.add(packet.number);
        }
        match frame(packet) {
            None => self.report.refused.add(packet.number),
            Some(frame) => self.frame(packet.number, time, &frame),
        }
    }

    /// The nanoseconds from the first packet to a packet; one that is earlier than the latest so far counts as arriving with that.
    fn time(&mut self, packet: &Packet) -> u64 {
        let (first, latest) = self.times.unwrap_or((packet.time, packet.time));
        if packet.time < latest {
            self.report.earlier.add(packet.number);
        }
        let time = packet.time.max(latest);
        self.times = Some((first, time));
        time - first
    }

    /// Brings the frame of a packet to the port at its time; the tag is the packet's number, its low 32 bits.
    fn frame(&mut self, number: u64, time: u64, frame: &Frame) {
        let brought = self.withdraw_up_to(time).and_then(|()| self.link.bring(time, &frame.octets, number as u32));
        match brought {
            Err(Full) => {
                self.full = true;
                return self.report.left_out.add(number);
            }
            Ok(Call::Arrive { .. }) => self.report.arrivals += 1,
            Ok(_) => self.report.best_effort += 1,
        }
        if frame.padded {
            self.report.padded.add(number);
        }
    }

    /// The withdrawals up to a time, those of the time itself among them.
    fn withdraw_up_to(&mut self, time: u64) -> Result<(), Full> {
        while let Some(&Withdrawal { time, stream }) = self.withdrawals.front().filter(|next| next.time <= time) {
            self.link.withdraw(time, stream)?;
            self.withdrawals.pop_front();
        }
        Ok(())
    }

    /// Sends what waits once no packet follows, with the withdrawals up to the last packet, and later ones while a frame waits.
    fn send_all(&mut self) -> Result<(), Full> {
        let Some((first, latest)) = self.times else { return Ok(()) };
        self.withdraw_up_to(latest - first)?;
        while let Some(&Withdrawal { time, .. }) = self.withdrawals.front().filter(|_| self.link.frames() > 0) {
            self.link.send_up_to(time)?;
            if self.link.frames() > 0 {
                self.withdraw_up_to(time)?;
            }
        }
        self.link.send_all()
    }

    /// The capture and the report, once no packet follows.
    fn ended(mut self) -> (Vec<u8>, Report) {
        if !self.full && self.send_all() == Err(Full) {
            self.report.waiting = self.link.frames();
        }
        if self.report.packets > 0 {
            self.report.epochs = self.link.ticks() + 1;
        }
        self.report.not_withdrawn = self.withdrawals.iter().map(|withdrawal| withdrawal.stream).collect();
        self.report.events = self.link.events().len();
        (file::chain(STARTS, self.link.events()), self.report)
    }
}
