//! A second list to a first that is alike in ticks and one stream's own calls, and any other in all else. An arrival may be an Arrive in one of the
//! two and in the other the Frame that becomes it. The stream's counts are asked for now and then, and at the end those of every stream.

use crate::call::Call;
use crate::comparing::calls::ORDINARY;
use crate::comparing::fit::Octets;
use crate::comparing::frames::{arrival, stream_of};
use crate::comparing::random::Random;
use crate::comparing::registers::{any_read, any_write, ticks};
use crate::comparing::sides::Play;
use crate::guarantee::becoming::{self, by_control};
use crate::guarantee::list::{Event, Playing};
use crate::guarantee::pairs::is_own;
use crate::model::port::{CHARGES, DELAYS, LARGEST_CHARGE, LEAST_PERMITTED, LINKS, STREAMS};

/// How many other calls in a hundred are kept, how many of the rest are changed, and how many calls at most are put before each call.
struct Changes {
    kept: usize,
    changed: usize,
    added: u32,
}

/// How many arrivals in a hundred are Frames, where their stream is bound in the second list.
const FRAMES: usize = 50;
/// How many ticks in a hundred are control writes in the second list.
const CONTROLLED: usize = 20;
/// After how many of the stream's own calls in a hundred its counts are asked for.
const ASKED: usize = 40;

/// Writes such a list on another record and memory, with an L and a K of its own.
pub fn write(random: &mut Random, play: Play, begin: &Octets, events: &[Event], stream: u8) -> Vec<Event> {
    let kept = random.pick(&[0, 50, 90]);
    let changes = Changes { kept, changed: random.pick(&[0, 50, 100]), added: random.pick(&[0, 1, 3]) };
    let mut playing = Playing::new(play, begin);
    playing.call(other_open(random, &events[0].call));
    for (event, counted) in events.iter().zip(becoming::counted(events)).skip(1) {
        for _ in 0..random.between(0..=changes.added) {
            any_other(random, &mut playing, stream);
        }
        if is_own(&counted, stream) {
            own(random, &mut playing, counted);
            if random.chance(ASKED) {
                playing.call(Call::StreamCounts { stream });
            }
        } else if random.chance(changes.kept) {
            other(&mut playing, event.call.clone(), stream);
        } else if random.chance(changes.changed) {
            any_other(random, &mut playing, stream);
        }
    }
    playing.ask_all();
    playing.events
}

/// An Open with any K, and any L or the same.
fn other_open(random: &mut Random, open: &Call) -> Call {
    let any = random.between(LINKS);
    let same = match *open {
        Call::Open { link, .. } => link,
        _ => any,
    };
    Call::Open { link: random.pick(&[same, *LINKS.end(), any]), delay: random.between(DELAYS) }
}

/// Plays a tick or a call of the stream's own; a Reserve is most often followed by a Bind.
fn own(random: &mut Random, playing: &mut Playing, call: Call) {
    let record = &playing.octets().record;
    match call {
        Call::Arrive { stream, charge, tag } => {
            let call = arrival(random, record, FRAMES, stream, charge, tag);
            playing.call(call);
        }
        Call::Reserve { stream, .. } if random.chance(70) => {
            let mut bind = ORDINARY.bind(random, record, false);
            if let Call::Bind { stream: bound, .. } = &mut bind {
                *bound = stream;
            }
            playing.call(call);
            playing.call(bind);
        }
        Call::Tick if random.chance(CONTROLLED) => {
            playing.call(by_control(call, random.number()));
        }
        _ => {
            playing.call(call);
        }
    }
}

/// Plays a call that is not the stream's own, unless it would be one here: a Frame that becomes an arrival on it, or a control write that ticks.
fn other(playing: &mut Playing, call: Call, stream: u8) {
    let own = match &call {
        Call::Frame { octets, .. } => stream_of(&playing.octets().record, octets) == Some(usize::from(stream)),
        call => ticks(call),
    };
    if !own {
        playing.call(call);
    }
}

/// Plays a call that is no tick and does not name the stream, but for a Bind, which may.
fn any_other(random: &mut Random, playing: &mut Playing, stream: u8) {
    let another = ((usize::from(stream) + 1 + random.below(STREAMS - 1)) % STREAMS) as u8;
    let (tag, charge) = (random.number(), random.between(CHARGES));
    let record = &playing.octets().record;
    let call = match random.weighted(&[1, 4, 20, 20, 10, 4, 2, 2, 4, 15]) {
        0 => Call::Open { link: random.between(LINKS), delay: 1 },
        1 => Call::Reserve { stream: another, permitted: random.between(LEAST_PERMITTED..=2 * LARGEST_CHARGE) },
        2 => Call::Arrive { stream: another, charge, tag },
        3 => Call::Transmit,
        4 => Call::BestEffort { charge, tag },
        5 => ORDINARY.bind(random, record, false),
        6 => Call::Withdraw { stream: another },
        7 => any_read(random, false),
        8 => any_write(random, record, false),
        _ => ORDINARY.frame(random, record, false),
    };
    other(playing, call, stream);
}
