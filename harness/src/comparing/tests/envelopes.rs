//! Every charge, length and L about the ends of their ranges, with the replies that documents 01 and 02 give: frames of more than 1,518 octets as
//! arrivals, as best effort and by their octets, and the share that is left where one of them is kept free.

use crate::call::{Call, Reply};
use crate::comparing::coverage::Seen;
use crate::comparing::fit::Octets;
use crate::comparing::frames::Header;
use crate::comparing::sides::Side;
use crate::comparing::stated::{Stated, BOTH_SORTS};
use crate::comparing::test::{Kind, Run, Test};
use crate::model::refusal::*;

/// The tests of this file.
pub const TESTS: [Test; 4] = [
    Test { kind: Kind::Lists, name: "charges_of_every_size", body: charges_of_every_size },
    Test { kind: Kind::Lists, name: "links_about_the_ends", body: links_about_the_ends },
    Test { kind: Kind::Lists, name: "envelope_frames_at_each_place", body: envelope_frames_at_each_place },
    Test { kind: Kind::Frames, name: "frames_of_envelope_lengths", body: frames_of_envelope_lengths },
];

/// The header of a frame that is bound to stream 5, and of one that is bound to stream 6.
const ROOMY: Header = Header { destination: [2, 0, 0, 0, 0, 5], protocol: [0x81, 0x00], control: 100 };
const NARROW: Header = Header { destination: [2, 0, 0, 0, 0, 6], protocol: [0x81, 0x00], control: 100 };

/// Every charge from 0 to 2,100 of an arrival and of best effort: 84 to 2,020 are taken, and all others are 13.
fn charges_of_every_size(run: &mut Run) -> Result<(), String> {
    for sides in BOTH_SORTS {
        let mut list = Stated::opened(run, sides, 23_524, 16, &[(5, 3_000)])?;
        let before = list.octets();
        for charge in (0..=2_100).chain([65_536 + 84, 65_536 + 2_020, u32::MAX]) {
            let taken = (84..=2_020).contains(&charge);
            let of = |reply: Reply| if taken { reply } else { Reply::refused(CHARGE_OUTSIDE) };
            list.lend_again(&before);
            list.call(Call::Arrive { stream: 5, charge, tag: 1 }, of(Reply::granted(1, 3_000_u32.saturating_sub(charge))))?;
            list.call(Call::BestEffort { charge, tag: 2 }, of(Reply::granted(charge, 0)))?;
        }
    }
    run.demand(&[(Seen::EnvelopeJoined, 956), (Seen::EnvelopeBestEffort, 956), (Seen::Refused(CHARGE_OUTSIDE), 668)])
}

/// Every L about both ends, and about those that a largest charge of 1,542 would give it: 3, or the share, which a reservation fills and one octet
/// more exceeds.
fn links_about_the_ends(run: &mut Run) -> Result<(), String> {
    for sides in BOTH_SORTS {
        let mut list = Stated::on(run, sides, &Octets::zero());
        for link in (1_620..=1_630).chain(2_015..=2_145).chain(23_040..=23_050).chain(23_515..=23_535) {
            list.lend_again(&Octets::zero());
            match (2_104..=23_524).contains(&link) {
                true => filled_to_the_share(&mut list, link)?,
                false => list.call(Call::Open { link, delay: 1 }, Reply::refused(LINK_OUTSIDE))?,
            }
        }
    }
    run.demand(&[(Seen::Opened, 126), (Seen::ShareFilled, 126), (Seen::Refused(SHARE_EXCEEDED), 126), (Seen::Refused(LINK_OUTSIDE), 222)])
}

/// An L in its range: the share is 2,020 less, all of it and no octet more can be reserved, and one frame of 2,020 fits beside it.
fn filled_to_the_share(list: &mut Stated, link: u32) -> Result<(), String> {
    let share = link - 2_020;
    list.call(Call::Open { link, delay: 1 }, Reply::granted(share, 0))?;
    list.call(Call::Reserve { stream: 5, permitted: share + 1 }, Reply::refused(SHARE_EXCEEDED))?;
    list.call(Call::Reserve { stream: 5, permitted: share }, Reply::granted(0, 0))?;
    list.call(Call::BestEffort { charge: 2_020, tag: 1 }, Reply::granted(2_020, 0))?;
    list.call(Call::BestEffort { charge: 84, tag: 1 }, Reply::refused(BEST_EFFORT_EXCEEDED))
}

/// Envelope frames at current, next and last, as exact fits and one octet above, sent and purged whole.
fn envelope_frames_at_each_place(run: &mut Run) -> Result<(), String> {
    for sides in BOTH_SORTS {
        for charge in [1_543, 1_544, 1_800, 2_019, 2_020] {
            let mut list = Stated::opened(run, sides, 23_524, 1, &[(5, charge), (6, charge - 1), (7, 2 * charge)])?;
            for (place, left) in [(1, charge), (2, charge), (3, 0)] {
                list.call(Call::Arrive { stream: 5, charge, tag: place }, Reply::granted(place, left))?;
            }
            list.call(Call::Arrive { stream: 5, charge: 84, tag: 4 }, Reply::refused(DISCARD))?;
            list.call(Call::Arrive { stream: 6, charge, tag: 5 }, Reply::refused(DISCARD))?;
            list.call(Call::Arrive { stream: 7, charge: 84, tag: 6 }, Reply::granted(1, 2 * charge - 84))?;
            list.call(Call::Arrive { stream: 7, charge, tag: 7 }, Reply::granted(1, charge - 84))?;
            list.call(Call::Arrive { stream: 7, charge, tag: 8 }, Reply::granted(2, charge))?;
            list.call(Call::Transmit, Reply::granted(5, 1))?;
            list.call(Call::Tick, Reply::granted(0, 0))?;
            list.call(Call::Tick, Reply::granted(2, 84 + charge))?;
            list.call(Call::Transmit, Reply::granted(5, 2))?;
            list.call(Call::Tick, Reply::granted(1, charge))?;
            list.call(Call::Tick, Reply::granted(1, charge))?;
        }
    }
    run.demand(&[(Seen::EnvelopeJoined, 50), (Seen::Refused(DISCARD), 20)])
}

/// A port with a stream whose P is above every charge, and one whose P is below that of an envelope frame, both bound.
fn two_bound<'a, 'r>(run: &'a mut Run<'r>, sides: [Side; 2]) -> Result<Stated<'a, 'r>, String> {
    let mut list = Stated::opened(run, sides, 6_000, 1, &[(5, 2_100), (6, 1_541)])?;
    list.bound(5, (ROOMY.destination, 100))?;
    list.bound(6, (NARROW.destination, 100))?;
    Ok(list)
}

/// Frames of 1,518 to 1,997 octets, tagged and bound or not tagged: each joins its stream where P has room, is 14 where it has not, or is best effort.
fn frames_of_envelope_lengths(run: &mut Run) -> Result<(), String> {
    let untagged = Header { protocol: [0x08, 0x00], ..ROOMY };
    for sides in BOTH_SORTS {
        for (length, charge) in [(1_518, 1_542), (1_519, 1_543), (1_520, 1_544), (1_995, 2_019), (1_996, 2_020)] {
            let mut list = two_bound(run, sides)?;
            list.frame(&ROOMY, length, 1, Reply::granted(1, 2_100 - charge))?;
            list.frame(&NARROW, length, 2, Reply::refused(DISCARD))?;
            list.frame(&untagged, length, 3, Reply::granted(charge, 0))?;
            list.frame(&ROOMY, length, 4, Reply::granted(2, 2_100 - charge))?;
            for (stream, tag) in [(5, 1), (255, 3), (254, 0)] {
                list.call(Call::Transmit, Reply::granted(stream, tag))?;
            }
            list.call(Call::Tick, Reply::granted(0, 0))?;
            list.call(Call::Transmit, Reply::granted(5, 4))?;
        }
        let mut list = two_bound(run, sides)?;
        for header in [ROOMY, NARROW, untagged] {
            for length in [1_997, 1_998, 2_000, 2_020] {
                list.frame(&header, length, 1, Reply::refused(FRAME_LENGTH))?;
            }
        }
    }
    run.demand(&[(Seen::EnvelopeFrame, 24), (Seen::FrameRefused(DISCARD), 10), (Seen::FrameRefused(FRAME_LENGTH), 24)])
}
