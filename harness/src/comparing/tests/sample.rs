//! Document 01's sample and its cases C1 to C12, with the replies that the document states, through the proved calls and the model.

use crate::call::{Call, Reply};
use crate::comparing::compared::Compared;
use crate::comparing::fit::Octets;
use crate::comparing::sides::Side;
use crate::comparing::test::{Kind, Run, Test};
use crate::model::refusal::{BEST_EFFORT_EXCEEDED, CHARGE_OUTSIDE, DISCARD, LINK_OUTSIDE, PERMITTED_BELOW, SHARE_EXCEEDED};

/// The tests of this file.
pub const TESTS: [Test; 2] = [
    Test { kind: Kind::Lists, name: "document_sample", body: document_sample },
    Test { kind: Kind::Lists, name: "document_cases_c1_to_c12", body: document_cases_c1_to_c12 },
];

/// A call and its reply as the document states it.
type Stated = (Call, Reply);

/// Open(L, 1).
const fn open(link: u32, reply: Reply) -> Stated {
    (Call::Open { link, delay: 1 }, reply)
}

/// A Reserve.
const fn reserve(stream: u8, permitted: u32, reply: Reply) -> Stated {
    (Call::Reserve { stream, permitted }, reply)
}

/// An Arrive on stream 5.
const fn arrive(charge: u32, tag: u32, reply: Reply) -> Stated {
    (Call::Arrive { stream: 5, charge, tag }, reply)
}

/// A Best effort.
const fn best_effort(charge: u32, tag: u32, reply: Reply) -> Stated {
    (Call::BestEffort { charge, tag }, reply)
}

/// Open of the cases: L 2,620.
const OPEN: Stated = open(2_620, Reply::granted(600, 0));
/// Reserve of the cases: P 200.
const RESERVE: Stated = reserve(5, 200, Reply::granted(400, 0));
/// A tick that purges nothing.
const TICK: Stated = (Call::Tick, Reply::granted(0, 0));

/// The sample output's eight calls.
const SAMPLE: [Stated; 8] = [
    OPEN,
    RESERVE,
    arrive(120, 7, Reply::granted(1, 80)),
    arrive(100, 8, Reply::granted(2, 100)),
    (Call::Transmit, Reply::granted(5, 7)),
    (Call::Transmit, Reply::granted(254, 0)),
    TICK,
    (Call::Transmit, Reply::granted(5, 8)),
];

/// C1 to C12, those of one number with each their own list.
const CASES: [(&str, &[Stated]); 14] = [
    ("C1, 2,103", &[open(2_103, Reply::refused(LINK_OUTSIDE))]),
    ("C1, 2,104", &[open(2_104, Reply::granted(84, 0))]),
    ("C2, 23,524", &[open(23_524, Reply::granted(21_504, 0))]),
    ("C2, 23,525", &[open(23_525, Reply::refused(LINK_OUTSIDE))]),
    ("C3", &[OPEN, reserve(5, 83, Reply::refused(PERMITTED_BELOW)), reserve(5, 84, Reply::granted(516, 0))]),
    ("C4", &[OPEN, RESERVE, reserve(6, 401, Reply::refused(SHARE_EXCEEDED)), reserve(6, 400, Reply::granted(0, 0))]),
    ("C5", &[OPEN, RESERVE, arrive(200, 1, Reply::granted(1, 200)), arrive(84, 2, Reply::granted(2, 116))]),
    ("C6", &[OPEN, RESERVE, arrive(120, 1, Reply::granted(1, 80)), arrive(100, 2, Reply::granted(2, 100))]),
    (
        "C7",
        &[
            OPEN,
            RESERVE,
            arrive(120, 1, Reply::granted(1, 80)),
            arrive(100, 2, Reply::granted(2, 100)),
            arrive(90, 3, Reply::granted(2, 10)),
            arrive(84, 4, Reply::granted(3, 116)),
        ],
    ),
    ("C8", &[OPEN, RESERVE, TO_CURRENT, TO_NEXT, TO_LAST, arrive(84, 4, Reply::refused(DISCARD))]),
    (
        "C9",
        &[OPEN, RESERVE, TO_CURRENT, TO_NEXT, TO_LAST, arrive(84, 4, Reply::refused(DISCARD)), TICK, arrive(84, 5, Reply::granted(3, 116))],
    ),
    ("C10", &[OPEN, RESERVE, arrive(201, 1, Reply::refused(DISCARD)), arrive(84, 2, Reply::refused(DISCARD))]),
    ("C11", &[OPEN, RESERVE, arrive(83, 1, Reply::refused(CHARGE_OUTSIDE)), arrive(2_021, 2, Reply::refused(CHARGE_OUTSIDE))]),
    (
        "C12",
        &[
            OPEN,
            RESERVE,
            best_effort(2_020, 1, Reply::granted(2_020, 0)),
            best_effort(400, 2, Reply::granted(2_420, 0)),
            best_effort(84, 3, Reply::refused(BEST_EFFORT_EXCEEDED)),
        ],
    ),
];

/// "200 three times: current, next, last".
const TO_CURRENT: Stated = arrive(200, 1, Reply::granted(1, 200));
const TO_NEXT: Stated = arrive(200, 2, Reply::granted(2, 200));
const TO_LAST: Stated = arrive(200, 3, Reply::granted(3, 0));

/// The sample output of document 01.
fn document_sample(run: &mut Run) -> Result<(), String> {
    play_stated(run, "sample", &SAMPLE)
}

/// C1 to C12 of document 01.
fn document_cases_c1_to_c12(run: &mut Run) -> Result<(), String> {
    for (name, case) in CASES {
        play_stated(run, name, case)?;
    }
    Ok(())
}

/// Plays a stated list, first on a record of zeros and then on used ones that are closed.
fn play_stated(run: &mut Run, name: &str, stated: &[Stated]) -> Result<(), String> {
    for used in [false, true, true, true] {
        let mut random = run.next_list();
        let begin = if used { Octets::fit(&mut random, false) } else { Octets::zero() };
        let mut compared = Compared::guarded([Side::Exports, Side::Model], run, &begin.record, &begin.memory);
        for (call, reply) in stated {
            compared.expect(run, call, |got| got == reply, &format!("{reply} by {name} of document 01"))?;
        }
    }
    Ok(())
}
