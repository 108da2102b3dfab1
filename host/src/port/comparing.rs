//! Random lists of calls through a port, held against the independent model: each reply in the rule's numbers, and after each call every octet of
//! record, register block and memory.

use std::path::Path;

use harness::call::{Call, Reply, ADDRESS_OCTETS};
use harness::comparing::calls::{Charges, Profile, Weights, NEVER, ORDINARY};
use harness::comparing::compared::Step;
use harness::comparing::counts::{questions, Counting};
use harness::comparing::coverage::{prior_waits, Asked, Seen};
use harness::comparing::draining::{ending, Freed};
use harness::comparing::fit::Octets;
use harness::comparing::lookups::{lookups_near, Looked, NONE};
use harness::comparing::profiles::{
    self, any_profile, FEW_STREAMS, FULL_LINK, HARDLY_ANY_TRANSMITS, MANY_STREAMS, REGISTERS, WITHDRAWING, WRONG_ARGUMENTS,
};
use harness::comparing::random::Random;
use harness::comparing::registers::{Held, EVERY_COUNT, EVERY_FLAG};
use harness::comparing::sides::Sides;
use harness::comparing::test::Run;
use harness::comparing::tests::lists::at_each_place;
use harness::model;

use super::Port;
use crate::{Control, Controlled, Flags, Framed, Joined, Lookup, Queue, Refusal, Register, Sent, StreamCounts};

/// The seed of the lists.
const SEED: u64 = 1;
/// The refusals that no port meets once it is open.
const NEVER_MET: [u8; 5] = [1, 2, 18, 19, 20];

/// L and K at the ends of their ranges and outside them.
#[test]
fn opened_at_the_ends() -> Result<(), String> {
    let mut run = run("opened_at_the_ends");
    let mut random = run.next_list();
    for _ in 0..400 {
        Both::open(&mut run, &ORDINARY.open(&mut random, true));
    }
    run.demand(&[(Seen::Opened, 100), (Seen::Refused(3), 50), (Seen::Refused(4), 50)])
}

/// Few streams, which arrivals press at every place.
#[test]
fn few_streams_pressed() -> Result<(), String> {
    let run = play("few_streams_pressed", 8, 400, |_| FEW_STREAMS)?;
    run.demand(&at_each_place(Seen::JoinedAt, 100))?;
    run.demand(&at_each_place(Seen::ExactFitAt, 25))?;
    run.demand(&[(Seen::Refused(14), 300), (Seen::FrameRefused(14), 50), (Seen::FrameArrived, 50)])
}

/// All 64 streams, with reservations up to the share and past it.
#[test]
fn many_streams_pressed_to_the_share() -> Result<(), String> {
    let run = play("many_streams_pressed_to_the_share", 8, 500, |_| MANY_STREAMS)?;
    run.demand(&[(Seen::Refused(8), 100), (Seen::ShareFilled, 1), (Seen::AllReserved, 1), (Seen::Reserved, 100), (Seen::Bound, 100)])
}

/// Queues of 256 frames.
#[test]
fn full_queues() -> Result<(), String> {
    let run = play("full_queues", 2, 2_500, profiles::full_queues)?;
    run.demand(&[(Seen::QueueFilled, 1), (Seen::Refused(14), 100), (Seen::PurgedFrame, 200)])
}

/// Hardly any transmits, so that ticks purge.
#[test]
fn withheld_transmits() -> Result<(), String> {
    let run = play("withheld_transmits", 8, 400, |_| HARDLY_ANY_TRANSMITS)?;
    run.demand(&[(Seen::PurgedFrame, 500), (Seen::SentFromPrior, 25), (Seen::Ticked, 400)])
}

/// Best effort of 256 frames and one more.
#[test]
fn best_effort_filled() -> Result<(), String> {
    let weights = Weights { tick: 1, transmit: 20, best_effort: 100, frame: 10, ..NEVER };
    let profile = Profile { weights, links: FULL_LINK..=FULL_LINK, charges: Charges::Least, ..ORDINARY };
    let run = play("best_effort_filled", 2, 700, |_| profile.clone())?;
    run.demand(&[(Seen::BestEffortFilled, 20), (Seen::Refused(15), 200), (Seen::FrameRefused(15), 10), (Seen::SentFromBestEffort, 100)])
}

/// Streams that are withdrawn again and again, drain and are reserved again, also right after the tick that frees them.
#[test]
fn withdrawn_streams() -> Result<(), String> {
    let run = play("withdrawn_streams", 16, 800, |_| WITHDRAWING)?;
    run.demand(&[(Seen::Withdrawn, 200), (Seen::Freed, 200), (Seen::FreedBound, 50), (Seen::FrameRefused(25), 50)])?;
    run.demand(&[(Seen::GrantedAgain, 100), (Seen::GrantedAgainAtOnce, 25)])?;
    let asked = [Asked::Reservation, Asked::Arrival, Asked::Binding, Asked::Withdrawal];
    run.demand(&asked.map(|asked| (Seen::RefusedDraining(asked), 25)))
}

/// Lookups of a bound pair and of all that is near to it, after each call of lists that bind and withdraw.
#[test]
fn pairs_looked_up() -> Result<(), String> {
    let run = play_asking("pairs_looked_up", 8, 150, WITHDRAWING, lookups_near);
    run.demand_none(Seen::Lookup(Looked::Refused))?;
    let found = [Looked::Found, Looked::FoundDraining, Looked::NoneByVid, Looked::NoneByAddress, Looked::VidAbove];
    let passed = [Looked::PastSameAddress, Looked::PastDraining].into_iter().chain((0..ADDRESS_OCTETS).map(Looked::PastAddressOctet));
    let looked: Vec<_> = found.into_iter().chain(passed).map(|looked| (Seen::Lookup(looked), 100)).collect();
    run.demand(&looked)
}

/// The counts of streams, after each call of lists that discard, withdraw, choose streams and read what is shown of them.
#[test]
fn counts_asked_for() -> Result<(), String> {
    let weights = Weights { read_register: 40, write_register: 50, ..WITHDRAWING.weights };
    let run = play_asking("counts_asked_for", 8, 400, Profile { weights, ..WITHDRAWING }, questions);
    let met = [Counting::Shown, Counting::OfUnchosen, Counting::Zeroed, Counting::ChosenAbove];
    run.demand(&met.map(|counting| (Seen::Counting(counting), 10)))?;
    let asked = [Counting::Asked, Counting::AskedUnchosen, Counting::RefusedAbove, Counting::Chosen];
    run.demand(&asked.map(|counting| (Seen::Counting(counting), 25)))?;
    run.demand_none(Seen::Counting(Counting::RefusedShort))
}

/// Registers that are read and written again and again, beside calls that raise each flag and each count.
#[test]
fn registers_accessed() -> Result<(), String> {
    let run = play("registers_accessed", 16, 600, |_| REGISTERS)?;
    run.demand(&[Seen::LineUp, Seen::LineDown, Seen::RegisterRead, Seen::FlagsWritten, Seen::MaskWritten].map(|seen| (seen, 100)))?;
    run.demand(&[Seen::ControlTicked, Seen::ControlTransmitted, Seen::ControlDidBoth, Seen::ControlDidNeither].map(|seen| (seen, 50)))?;
    run.demand(&[(Seen::OtherRegisterWritten, 100), (Seen::ReadRefused(26), 25), (Seen::WriteRefused(26), 25)])?;
    run.demand(&EVERY_FLAG.map(|(flag, _)| (Seen::FlagSet(flag), 15)))?;
    run.demand(&EVERY_FLAG.map(|(flag, _)| (Seen::FlagCleared(flag), 15)))?;
    run.demand(&EVERY_COUNT.map(|count| (Seen::Counted(count), 100)))?;
    let shown = [Counting::Chosen, Counting::ChosenAbove, Counting::Shown, Counting::NotShown];
    run.demand(&shown.map(|counting| (Seen::Counting(counting), 25)))
}

/// Every argument outside its range, at its ends and where fewer bits would hide it.
#[test]
fn arguments_out_of_range() -> Result<(), String> {
    let run = play("arguments_out_of_range", 36, 400, |_| WRONG_ARGUMENTS)?;
    run.demand(&[5, 6, 7, 8, 9, 10, 11, 12, 13, 16, 17, 25, 26].map(|refusal| (Seen::Refused(refusal), 5)))
}

/// Everything, with other weights in each list.
#[test]
fn mixture() -> Result<(), String> {
    let run = play("mixture", 20, 250, any_profile)?;
    run.demand(&[Seen::SentFromPrior, Seen::SentFromCurrent, Seen::SentFromBestEffort, Seen::SentNothing].map(|seen| (seen, 25)))?;
    run.demand(&[(Seen::Ticked, 200), (Seen::PurgedFrame, 200), (Seen::Bound, 25), (Seen::FrameArrived, 75), (Seen::FrameBestEffort, 200)])
}

/// A run of a test, in which only the model and a port are played.
fn run(test: &'static str) -> Run<'static> {
    Run::new(test, SEED, 100, Sides::SOUND, Path::new(""))
}

/// Plays lists of calls, each from a granted Open on; none is refused for what a host lends, or as on a closed port.
fn play(test: &'static str, lists: usize, calls: usize, profile: impl Fn(&mut Random) -> Profile) -> Result<Run<'static>, String> {
    let mut run = run(test);
    for _ in 0..lists {
        let mut random = run.next_list();
        let profile = once_opened(profile(&mut random));
        let mut both = Both::open(&mut run, &profile.open(&mut random, false)).expect("L and K are in their ranges");
        both.play_list(&mut run, &mut random, &profile, calls);
    }
    NEVER_MET.iter().try_for_each(|&refusal| run.demand_none(Seen::Refused(refusal)))?;
    Ok(run)
}

/// Plays lists of calls of one profile, each from a granted Open on, and after each call questions that leave the record as it is.
fn play_asking(
    test: &'static str,
    lists: usize,
    calls: usize,
    profile: Profile,
    asked: impl Fn(&mut Random, &[u8]) -> Vec<Call>,
) -> Run<'static> {
    let (mut run, profile) = (run(test), once_opened(profile));
    for _ in 0..lists {
        let mut random = run.next_list();
        let mut both = Both::open(&mut run, &profile.open(&mut random, false)).expect("L and K are in their ranges");
        for _ in 0..calls {
            both.play_list(&mut run, &mut random, &profile, 1);
            asked(&mut random, &both.octets.record).iter().for_each(|call| both.play(&mut run, call));
        }
    }
    run
}

/// The profile with the steps of a host that owns a port: it opens it once, and writes none of its octets.
fn once_opened(profile: Profile) -> Profile {
    Profile { weights: Weights { open: 0, close: 0, ..profile.weights }, ..profile }
}

/// A port, and the octets that the model leaves of the same calls; and the streams that ticks have freed.
struct Both {
    port: Port,
    octets: Octets,
    freed: Freed,
}

impl Both {
    /// Opens both, the model's on octets of zeros, which must do the same; nothing where the Open is refused.
    fn open(run: &mut Run, call: &Call) -> Option<Both> {
        let Call::Open { link, delay } = *call else { unreachable!("a list begins with an Open") };
        let mut octets = Octets::zero();
        let reply = model::call(&call.given(), &mut octets.record, &mut octets.memory);
        run.count_call(call, &reply, &octets.record, false);
        let opened = Port::open(link, delay);
        let share = opened.as_ref().map(Port::share).map_err(|refusal| *refusal);
        assert_eq!(numbers(share, |share| (share, 0)), reply, "{}: {call}", run.place);
        let both = Both { port: opened.ok()?, octets, freed: Freed::default() };
        both.assert_same_octets(run, call);
        Some(both)
    }

    /// Plays the calls of one list.
    fn play_list(&mut self, run: &mut Run, random: &mut Random, profile: &Profile, calls: usize) {
        for _ in 0..calls {
            let Step::Call(call) = profile.step(random, &self.octets.record) else { unreachable!("the host writes no octet") };
            self.play(run, &call);
        }
    }

    /// Plays a call on both, which must do the same.
    fn play(&mut self, run: &mut Run, call: &Call) {
        let (prior_waited, ending) = (prior_waits(&self.octets.record), ending(call, &self.octets.record));
        let before = self.held();
        let reply = model::call(&call.given(), &mut self.octets.record, &mut self.octets.memory);
        assert_eq!(through(&mut self.port, call), reply, "{}, call {}: {call}", run.place, run.calls);
        self.assert_same_octets(run, call);
        run.count_call(call, &reply, &self.octets.record, prior_waited);
        self.freed.follow(&mut run.coverage, call, &reply, &ending);
        before.count_changes(&mut run.coverage, call, &self.held());
        before.count_withdrawal(&mut run.coverage, call, &reply);
    }

    /// What the register block holds.
    fn held(&self) -> Held {
        Held::of(&self.octets.record).expect("the port is long enough")
    }

    /// The port's record, register block and memory are the model's, octet for octet.
    fn assert_same_octets(&self, run: &Run, call: &Call) {
        assert!(self.port.octets[..] == self.octets.record, "{}, call {}: {call}: the ports differ", run.place, run.calls);
        assert!(self.port.memory[..] == self.octets.memory, "{}, call {}: {call}: the memories differ", run.place, run.calls);
    }
}

/// Calls the port's method for a call; its reply in the rule's numbers.
fn through(port: &mut Port, call: &Call) -> Reply {
    match *call {
        Call::Open { .. } => unreachable!("a port is opened once"),
        Call::Reserve { stream, permitted } => numbers(port.reserve(stream, permitted), |reserved| (reserved.free, 0)),
        Call::Arrive { stream, charge, tag } => numbers(port.arrive(stream, charge, tag), of_arrival),
        Call::Tick => numbers(port.tick(), |purged| (purged.frames, purged.octets)),
        Call::Transmit => numbers(port.transmit(), of_sent),
        Call::BestEffort { charge, tag } => numbers(port.best_effort(charge, tag), |waiting| (waiting.octets, 0)),
        Call::Bind { stream, ref address, vid } => numbers(port.bind(stream, address, vid), |()| (0, 0)),
        Call::Frame { ref octets, tag } => numbers(port.frame(octets, tag), |framed| match framed {
            Framed::Arrived(joined) => of_arrival(joined),
            Framed::BestEffort(waiting) => (waiting.octets, 0),
        }),
        Call::Withdraw { stream } => numbers(port.withdraw(stream), |()| (0, 0)),
        Call::ReadRegister { offset } => numbers(read(port, offset), |register| (register, 0)),
        Call::WriteRegister { offset, value } => numbers(write(port, offset, value), |numbers| numbers),
        Call::Lookup { ref address, vid } => numbers(Ok(port.lookup(address, vid)), of_lookup),
        Call::StreamCounts { stream } => numbers(stream_counts(port, stream), |counts| (counts.accepted, counts.discarded)),
    }
}

/// Asks for the counts of one stream, and where there is one for those of all, which must say the same.
fn stream_counts(port: &Port, stream: u8) -> Result<StreamCounts, Refusal> {
    let counts = port.counts_of(stream);
    if let Some(among_all) = port.stream_counts().get(usize::from(stream)) {
        assert_eq!(counts, Ok(*among_all), "{stream}");
    }
    counts
}

/// Reads by an offset, and where it is a register's by the method with its type, which must say the same.
fn read(port: &Port, offset: u32) -> Result<u32, Refusal> {
    let read = port.read_register(offset);
    if let Some(register) = Register::from_offset(offset) {
        assert_eq!(read, Ok(of_register(port, register)), "{register:?}");
    }
    read
}

/// What the method with a register's type reads, as the register's value; control, which has none, reads zero.
fn of_register(port: &Port, register: Register) -> u32 {
    match register {
        Register::Control => 0,
        Register::Status => port.status().bits(),
        Register::Flags => port.flags().bits(),
        Register::Mask => port.mask().0,
        Register::Accepted => port.chosen_counts().accepted,
        Register::Discarded => port.chosen_counts().discarded,
        Register::Sent => port.frames_sent(),
        Register::Choice => port.choice(),
    }
}

/// Writes by the method with the register's type where the type has all bits of the value, otherwise by the offset.
fn write(port: &mut Port, offset: u32, value: u32) -> Result<(u32, u32), Refusal> {
    let (control, flags) = (Control::from_bits(value), Flags::from_bits(value));
    match Register::from_offset(offset) {
        Some(Register::Control) if control.bits() == value => return port.control(control).map(of_control),
        Some(Register::Flags) if flags.bits() == value => port.clear(flags),
        Some(Register::Mask) if flags.bits() == value => port.set_mask(flags),
        Some(Register::Choice) => port.set_choice(value),
        _ => return port.write_register(offset, value),
    }
    Ok((0, 0))
}

/// "A control write as its last call, with neither bit two zeros".
fn of_control(controlled: Controlled) -> (u32, u32) {
    match controlled {
        Controlled::Neither => (0, 0),
        Controlled::Ticked(purged) => (purged.frames, purged.octets),
        Controlled::Transmitted(sent) => of_sent(sent),
    }
}

/// A method's reply in the rule's numbers, those of a grant as given.
fn numbers<T>(reply: Result<T, Refusal>, granted: impl FnOnce(T) -> (u32, u32)) -> Reply {
    match reply.map(granted) {
        Ok((first, second)) => Reply::granted(first, second),
        Err(refusal) => Reply::refused(refusal.number()),
    }
}

/// "queue joined (1 current, 2 next, 3 last), left after the step".
fn of_arrival(joined: Joined) -> (u32, u32) {
    let queue = match joined.queue {
        Queue::Current => 1,
        Queue::Next => 2,
        Queue::Last => 3,
    };
    (queue, joined.left)
}

/// The stream, or 255 for none, and "the number of address octets so compared".
fn of_lookup(lookup: Lookup) -> (u32, u32) {
    (lookup.stream.map_or(NONE, u32::from), lookup.compared)
}

/// "stream (255 best effort, 254 nothing), tag (0 for nothing)".
fn of_sent(sent: Sent) -> (u32, u32) {
    match sent {
        Sent::Reserved { stream, tag } => (u32::from(stream), tag),
        Sent::BestEffort { tag } => (255, tag),
        Sent::Nothing => (254, 0),
    }
}
