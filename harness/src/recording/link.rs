//! The link and the epochs: a port of the model to which calls come at their times, with a tick at each epoch's end and a transmit as often as the
//! link could send.
//!
//! Times are exact. They count from the first packet in parts of a nanosecond, of which it has L. So an epoch has as many parts as its nanoseconds
//! times L; and since the link carries L octets in an epoch, a frame keeps it busy for its charge times the epoch's nanoseconds.
//!
//! Where several things happen at one time, the tick comes first, since what happens just at an epoch's end is in the next one; then the transmit
//! of a link that became free, then the withdrawals, then the packets. An idle link transmits right after each packet, and right after each tick,
//! which may have made a frame current. So between two ticks some transmit sends no reserved frame, or reserved frames get all octets of the epoch
//! but fewer than the largest charge, and so the share: the link condition of demand 3.

use crate::call::Call;
use crate::capture::file::MOST_RECORDS;
use crate::model::port::Port;
use crate::model::rule;
use crate::recording::plan::Plan;

/// A time, or a length of it, in parts of a nanosecond.
type Parts = u128;

/// That a capture has no room for one more event.
#[derive(Debug, PartialEq, Eq)]
pub struct Full;

/// A port with its link, and its events so far.
pub struct Link {
    port: Port,
    events: Vec<Call>,
    /// The epoch's length in nanoseconds.
    epoch: Parts,
    /// L, which is also the parts of a nanosecond.
    link: Parts,
    /// How many epochs ended.
    ticks: u64,
    /// When the next transmit is due: when the frame on the link has been sent, or at once after a packet or tick that finds the link idle. None
    /// while it is idle.
    due: Option<Parts>,
}

impl Link {
    /// The port of a plan, opened and with its reservations, at the begin of epoch 0.
    pub fn of(plan: Plan) -> Link {
        let link = plan.port.link.into();
        Link { port: plan.port, events: plan.calls, epoch: plan.epoch.into(), link, ticks: 0, due: None }
    }

    /// The events so far.
    pub fn events(&self) -> &[Call] {
        &self.events
    }

    /// How many epochs ended so far.
    pub fn ticks(&self) -> u64 {
        self.ticks
    }

    /// The call that a frame becomes, so many nanoseconds after the first packet and not before the last call; it is handed on.
    pub fn bring(&mut self, nanoseconds: u64, octets: &[u8], tag: u32) -> Result<Call, Full> {
        self.go_on(nanoseconds)?;
        let call = rule::becomes(&self.port, octets, tag);
        self.play(&call)?;
        self.due.get_or_insert(Parts::from(nanoseconds) * self.link);
        Ok(call)
    }

    /// The withdrawal of a stream, so many nanoseconds after the first packet and not before the last call.
    pub fn withdraw(&mut self, nanoseconds: u64, stream: u8) -> Result<(), Full> {
        self.go_on(nanoseconds)?;
        self.play(&Call::Withdraw { stream })
    }

    /// The ticks and transmits up to a time, those of the time itself among them.
    fn go_on(&mut self, nanoseconds: u64) -> Result<(), Full> {
        let time = Parts::from(nanoseconds) * self.link;
        while let Some((at, call)) = Some(self.next()).filter(|(at, _)| *at <= time) {
            self.step(at, &call)?;
        }
        Ok(())
    }

    /// The ticks and transmits until no frame waits.
    pub fn send_all(&mut self) -> Result<(), Full> {
        self.send_until(Parts::MAX)
    }

    /// The ticks and transmits until no frame waits, or up to a time where one still does.
    pub fn send_up_to(&mut self, nanoseconds: u64) -> Result<(), Full> {
        self.send_until(Parts::from(nanoseconds) * self.link)
    }

    /// The ticks and transmits up to a time while frames wait.
    fn send_until(&mut self, time: Parts) -> Result<(), Full> {
        while let Some((at, call)) = Some(self.next()).filter(|(at, _)| *at <= time && self.frames() > 0) {
            self.step(at, &call)?;
        }
        Ok(())
    }

    /// The next transmit or tick, and its time.
    fn next(&self) -> (Parts, Call) {
        let epoch_ends = (Parts::from(self.ticks) + 1) * self.epoch * self.link;
        match self.due {
            Some(due) if due < epoch_ends => (due, Call::Transmit),
            _ => (epoch_ends, Call::Tick),
        }
    }

    /// A tick or a transmit at its time.
    fn step(&mut self, at: Parts, call: &Call) -> Result<(), Full> {
        let waited = self.octets();
        self.play(call)?;
        if *call == Call::Tick {
            self.ticks += 1;
            self.due.get_or_insert(at);
        } else {
            let sent = waited - self.octets();
            self.due = (sent > 0).then(|| at + Parts::from(sent) * self.epoch);
        }
        Ok(())
    }

    /// Plays a call, if the capture has room for its event.
    fn play(&mut self, call: &Call) -> Result<(), Full> {
        if self.events.len() == MOST_RECORDS {
            return Err(Full);
        }
        self.events.push(call.clone());
        rule::step(&call.given(), &mut self.port);
        Ok(())
    }

    /// How many frames wait.
    pub fn frames(&self) -> usize {
        self.port.queues.iter().map(|queue| queue.frames.len()).sum()
    }

    /// The sum of all charges that wait.
    fn octets(&self) -> u32 {
        self.port.queues.iter().map(|queue| queue.octets()).sum()
    }
}
