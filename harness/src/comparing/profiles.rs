//! The profiles that several tests use, of steps that press one part of a port, and of any steps. The weights of `bind`, `frame`, `read_register`,
//! `write_register` and `close` count in lists only: a capture has no such events.

use crate::comparing::calls::{Charges, Permitted, Profile, Weights, NEVER, ORDINARY};
use crate::comparing::random::Random;
use crate::model::port::{LARGEST_CHARGE, LINKS, STREAMS};

/// L at which the share holds 256 frames of the least charge.
pub const FULL_LINK: u32 = *LINKS.end();
/// That share.
const FULL_SHARE: u32 = FULL_LINK - LARGEST_CHARGE;

/// Few streams, which arrivals press at every place: exact fits and discards.
pub const FEW_STREAMS: Profile = Profile {
    weights: Weights {
        reserve: 4,
        arrive: 70,
        tick: 15,
        transmit: 20,
        best_effort: 5,
        bind: 3,
        frame: 30,
        withdraw: 1,
        read_register: 2,
        write_register: 5,
        ..NEVER
    },
    streams: 4,
    links: 12_020..=FULL_LINK,
    permitted: Permitted::UpTo(2_500),
    ..ORDINARY
};

/// All 64 streams, with reservations up to the share and past it.
pub const MANY_STREAMS: Profile = Profile {
    weights: Weights {
        open: 1,
        reserve: 150,
        arrive: 200,
        tick: 40,
        transmit: 60,
        best_effort: 20,
        bind: 60,
        frame: 100,
        withdraw: 3,
        read_register: 10,
        write_register: 20,
        close: 1,
    },
    links: 7_500..=FULL_LINK,
    permitted: Permitted::Parts,
    ..ORDINARY
};

/// Hardly any transmits, so that ticks purge.
pub const HARDLY_ANY_TRANSMITS: Profile = Profile {
    weights: Weights {
        reserve: 4,
        arrive: 60,
        tick: 30,
        transmit: 4,
        best_effort: 4,
        bind: 3,
        frame: 20,
        withdraw: 1,
        read_register: 2,
        write_register: 2,
        ..NEVER
    },
    streams: 16,
    links: 5_000..=FULL_LINK,
    permitted: Permitted::UpTo(3_000),
    ..ORDINARY
};

/// Few streams that are withdrawn again and again, with ticks enough that they drain, and reservations that take their numbers and share again.
pub const WITHDRAWING: Profile = Profile {
    weights: Weights {
        reserve: 25,
        arrive: 40,
        tick: 30,
        transmit: 30,
        best_effort: 10,
        bind: 15,
        frame: 40,
        withdraw: 12,
        read_register: 2,
        write_register: 10,
        ..NEVER
    },
    streams: 6,
    links: 2_620..=FULL_LINK,
    edges: 5,
    ..ORDINARY
};

/// Registers read and written again and again beside calls of every sort, with ticks that purge, discards, and transmits that find nothing.
pub const REGISTERS: Profile = Profile {
    weights: Weights {
        reserve: 6,
        arrive: 40,
        tick: 3,
        transmit: 30,
        best_effort: 4,
        bind: 6,
        frame: 15,
        withdraw: 1,
        read_register: 50,
        write_register: 70,
        ..NEVER
    },
    streams: 6,
    links: 2_620..=9_000,
    edges: 5,
    ..ORDINARY
};

/// Every argument outside its range, at its ends and where fewer bits would hide it.
pub const WRONG_ARGUMENTS: Profile = Profile {
    weights: Weights {
        open: 15,
        reserve: 30,
        arrive: 40,
        tick: 3,
        transmit: 7,
        best_effort: 15,
        bind: 25,
        frame: 25,
        withdraw: 10,
        read_register: 10,
        write_register: 15,
        close: 5,
    },
    edges: 60,
    ..ORDINARY
};

/// Queues of 256 frames, each of the least charge: one stream with all of the share, or 64 with an equal part.
pub fn full_queues(random: &mut Random) -> Profile {
    let weights = Weights { reserve: 100, arrive: 1_000, tick: 2, transmit: 3, best_effort: 50, bind: 100, frame: 400, ..NEVER };
    let permitted = Permitted::Exactly(random.pick(&[FULL_SHARE, FULL_SHARE / STREAMS as u32]));
    Profile { weights, links: FULL_LINK..=FULL_LINK, permitted, charges: Charges::Least, ..ORDINARY }
}

/// Few ticks, so that queues keep the starts that they have, and fill or drain.
pub fn few_ticks(random: &mut Random) -> Profile {
    let (tick, transmit) = (random.pick(&[0, 1, 4]), random.pick(&[5, 60]));
    let weights = Weights { open: 1, reserve: 10, arrive: 60, tick, transmit, best_effort: 10, bind: 5, frame: 25, withdraw: 1, ..NEVER };
    Profile { weights, charges: random.pick(&[Charges::NearLeft, Charges::Least]), edges: 2, ..ORDINARY }
}

/// A profile of which everything is any.
pub fn any_profile(random: &mut Random) -> Profile {
    let mut any = |least: u32, most: u32| random.between(least..=most) as usize;
    let (open, reserve, arrive) = (any(0, 4), any(1, 30), any(10, 100));
    let (tick, transmit, best_effort, close) = (any(0, 30), any(0, 60), any(0, 30), any(0, 2));
    let (bind, frame, withdraw) = (any(0, 15), any(0, 60), any(0, 6));
    let (read_register, write_register) = (any(0, 10), any(0, 12));
    Profile {
        weights: Weights {
            open,
            reserve,
            arrive,
            tick,
            transmit,
            best_effort,
            bind,
            frame,
            withdraw,
            read_register,
            write_register,
            close,
        },
        streams: any(1, STREAMS as u32),
        edges: any(0, 20),
        permitted: random.pick(&[Permitted::NearFree, Permitted::UpTo(1_000), Permitted::UpTo(6_000)]),
        charges: random.pick(&[Charges::NearLeft, Charges::Least]),
        ..ORDINARY
    }
}
