//! What a prover's log shows of a wrong program: that each function and law that it names is refused, and, where the log is to show it, that it is wrong.

use std::fs;
use std::path::Path;

use super::code;
use super::laws;
use super::logs::{Error, Log, OpenGoal};
use super::proving::LOG;
use super::reading::{Evidence, WrongProgram};
use super::values;

/// What the prover says before what a type computes to.
const COMPUTED: &str = "computed as far as they go, the two types ";
/// How the names of the goals begin that are of what a function ensures.
const ENSURED: &str = "returns";
/// What it says of a definition that it did not compute with.
const NOT_UNFOLDED: &str = "does not unfold here";
/// What is told of a wrong program that may be a right one.
pub const NOTHING: &str = "nothing shows that it is wrong";

/// What a prover left of an edit file: its log, and the copy of the crate that it is of.
pub struct Tried<'a> {
    of: &'a str,
    log: Log,
    copy: &'a Path,
}

/// What a log shows of a wrong program that is refused.
#[derive(Debug, PartialEq, Eq)]
pub enum Shown {
    /// That it is wrong, in these words.
    Wrong(String),
    /// Nothing, since a run of its cases must show that it is wrong.
    ByCases,
}

impl<'a> Tried<'a> {
    /// What the prover left of an edit file of a crate in a copy of that.
    pub fn read(of: &'a str, copy: &'a Path) -> Result<Tried<'a>, String> {
        let text = fs::read(copy.join(LOG)).map_err(|_| String::from("it was not tried"))?;
        Ok(Tried { of, log: Log::read(&String::from_utf8_lossy(&text)), copy })
    }

    /// That each function and law that a wrong program names is refused; or the first that is not.
    pub fn refused(&self, program: &WrongProgram) -> Result<(), String> {
        match program.refused.iter().find(|name| !self.log.refuses(self.of, name) && !self.fails(name)) {
            Some(name) if self.log.only_misfits(name) => Err(format!("{name} is refused only since its proof no longer fits the code")),
            Some(name) => Err(format!("{name} is not refused on its own account")),
            None => Ok(()),
        }
    }

    /// How an equivalent rewrite fares: that each function and law that it names is refused, or some only since its proof no longer fits; or that the crate
    /// is proved all the same.
    pub fn refused_or_proved(&self, program: &WrongProgram) -> Result<&'static str, String> {
        if self.log.is_proved() {
            return Ok("proved");
        }
        match self.refused(program) {
            Ok(()) => Ok("refused"),
            Err(_) if program.refused.iter().any(|name| self.log.only_misfits(name)) => Ok("refused since its proof no longer fits"),
            Err(why) => Err(why),
        }
    }

    /// Whether a function's proof is refused, and a goal in its code fails that the proof does not answer: it is seen to fail at some values, or it is of
    /// what the function ensures, which the proof leaves to a search.
    fn fails(&self, name: &str) -> bool {
        let read = |path: &str| fs::read_to_string(self.copy.join(path)).unwrap_or_default();
        let is_in = |goal: &OpenGoal| code::function_at(&goal.file, &read(&goal.file), goal.line).as_deref() == Some(name);
        let answers = read(&format!("proofs/{}/Answers.antt", name.replace("::", "/")));
        let is_searched = |goal: &OpenGoal| goal.name.starts_with(ENSURED) && !answers.contains(ENSURED);
        let fails = |goal: &OpenGoal| is_in(goal) && (goal.is_false || is_searched(goal));
        self.log.is_unproved(self.of, name) && self.log.open().iter().any(fails)
    }

    /// What the log shows of one of the file's wrong programs; or why it shows nothing.
    pub fn shown(&self, program: &WrongProgram) -> Result<Shown, String> {
        match &program.evidence {
            Evidence::Cases => Ok(Shown::ByCases),
            Evidence::Shown(laws) => self.computed(laws).map(Shown::Wrong),
            Evidence::Opposite(law) => self.opposite(law, program).map(Shown::Wrong),
            Evidence::None => Err(String::from(NOTHING)),
        }
    }

    /// Each of these laws computes to something else: what the first computes to.
    fn computed(&self, laws: &[String]) -> Result<String, String> {
        let told: Result<Vec<String>, String> = laws.iter().map(|law| self.computed_one(law)).collect();
        told.map(|told| told.join("; "))
    }

    /// What a law computes to that is something else.
    fn computed_one(&self, law: &str) -> Result<String, String> {
        let error = self.log.own(law).find(|error| error.name == law).ok_or_else(|| format!("{law} is not refused on its own account"))?;
        let text = fs::read_to_string(self.copy.join(&error.file)).map_err(|why| format!("{}: {why}", error.file))?;
        if !laws::by_computing(&text, law) {
            return Err(format!("{law} takes something, or is not proved by refl alone"));
        }
        let told = other_value(error, self.log.advises_on(law)).ok_or_else(|| format!("{law} is not seen to compute to another value"))?;
        Ok(format!("{law} computes to {told}"))
    }

    /// The law that says the opposite stands in the definitions, and is proved.
    fn opposite(&self, law: &str, program: &WrongProgram) -> Result<String, String> {
        let stated = format!("{law} : ");
        if !program.defined().any(|new| new.strip_prefix("pub ").unwrap_or(new).starts_with(&stated)) {
            return Err(format!("{law} is not stated in a definition's new text"));
        }
        match self.log.passed_the_definitions() && !self.log.has_error_of(law) {
            true => Ok(format!("{law} is proved")),
            false => Err(format!("{law} is not seen to be proved")),
        }
    }
}

/// What an error shows that a closed law computes to: other values on its two sides, or other values in one place of them where nothing is left to
/// compute.
fn other_value(error: &Error, advised: bool) -> Option<String> {
    let computed = error.words.split_once(COMPUTED)?.1;
    if let Some(path) = computed.strip_prefix("are `") {
        let path = path.split_once('`')?.0;
        return values::path_differs(path).then(|| format!("`{path}`"));
    }
    let expected = quoted_after(computed, "where one has `")?;
    let found = quoted_after(computed, "the other has `")?;
    let whole = !advised && !error.words.contains(NOT_UNFOLDED);
    (whole && values::differ(expected, found)).then(|| format!("`{found}` and not `{expected}`"))
}

/// The quoted term after these words.
fn quoted_after<'a>(text: &'a str, words: &str) -> Option<&'a str> {
    text.split_once(words)?.1.split_once('`').map(|(term, _)| term)
}

#[cfg(test)]
mod tests {
    use super::*;
    use crate::seeding::{self, Edit};

    /// What the prover said of closed laws, some of which are wrong, and of a law with a variable.
    const CLOSED: &str = include_str!("fixtures/closed_laws.log");
    /// The laws that it said it of.
    const LAWS: &str = include_str!("fixtures/closed_laws.txt");
    /// What it said of an equivalent rewrite of a definition of `sending`, and the laws of that crate.
    const EQUIVALENT: &str = include_str!("fixtures/equivalent_definition.log");
    const SEND_LAWS: &str = include_str!("../../../crates/sending/proofs/SendLaws.antt");

    /// A copy of a crate that the prover tried, removed when the test is over.
    struct Copy(std::path::PathBuf);

    impl Copy {
        /// The copy of a test, with a log and a file of laws.
        fn with(test: &str, log: &str, file: &str, laws: &str) -> Copy {
            let folder = std::env::temp_dir().join(format!("judging-{}-{test}", std::process::id()));
            seeding::write(&folder.join(LOG), log).expect("the log can be written");
            seeding::write(&folder.join(file), laws).expect("the laws can be written");
            Copy(folder)
        }

        /// What is shown of a wrong program that names these and is to be shown so.
        fn judged(&self, refused: &[&str], evidence: Evidence, new: &str) -> Result<Shown, String> {
            let edits = vec![Edit { file: "specs/D.antt".into(), old: "old".into(), new: new.into() }];
            let program =
                WrongProgram { words: "words".into(), refused: refused.iter().map(|name| String::from(*name)).collect(), evidence, edits };
            let tried = Tried::read("sending", &self.0)?;
            tried.refused(&program).and_then(|()| tried.shown(&program))
        }
    }

    impl Drop for Copy {
        fn drop(&mut self) {
            fs::remove_dir_all(&self.0).expect("the folder can be removed");
        }
    }

    /// What is shown by a law of the closed ones.
    fn shown_by(law: &str) -> Result<Shown, String> {
        let copy = Copy::with(&format!("closed-{law}"), CLOSED, "proofs/ClosedLaws.antt", LAWS);
        copy.judged(&[law], Evidence::Shown(vec![law.into()]), "new")
    }

    #[test]
    fn a_closed_law_that_computes_to_another_value_shows_a_wrong_program() {
        let computes = |words: &str| Ok(Shown::Wrong(words.into()));
        assert_eq!(shown_by("number"), computes("number computes to `Path ℕ 600 601`"));
        assert_eq!(shown_by("truth"), computes("truth computes to `Path Bool true false`"));
        assert_eq!(shown_by("list"), computes("list computes to `Path (List ℕ) (600 ∷ 2142 ∷ []) (600 ∷ 2143 ∷ [])`"));
        assert_eq!(shown_by("pair_of"), computes("pair_of computes to `2142` and not `2143`"));
        assert_eq!(shown_by("two"), computes("two computes to `Path Bool false true`"));
        assert_eq!(shown_by("unfolded"), computes("unfolded computes to `Path ℕ 4 5`"));
    }

    #[test]
    fn a_law_that_does_not_compute_shows_nothing() {
        for law in ["not_unfolded", "not_unfolded_list", "not_unfolded_but_right", "not_unfolded_field"] {
            assert_eq!(shown_by(law), Err(format!("{law} is not seen to compute to another value")));
        }
    }

    #[test]
    fn a_law_that_takes_something_shows_nothing() {
        assert_eq!(shown_by("taking"), Err("taking takes something, or is not proved by refl alone".into()));
    }

    #[test]
    fn a_law_that_is_not_refused_shows_nothing() {
        let copy = Copy::with("held", CLOSED, "proofs/ClosedLaws.antt", LAWS);
        let shown = copy.judged(&["number"], Evidence::Shown(vec!["held".into()]), "new");
        assert_eq!(shown, Err("held is not refused on its own account".into()));
        assert_eq!(copy.judged(&["held"], Evidence::Cases, "new"), Err("held is not refused on its own account".into()));
        assert_eq!(copy.judged(&["number"], Evidence::Cases, "new"), Ok(Shown::ByCases));
    }

    #[test]
    fn a_proof_that_no_longer_fits_refuses_nothing() {
        let log = "./proofs/send/Answers.antt:31:9: error: `returns`: record `Rattle.a.Lts.After-put-queue2` has no field `sent`\n";
        let copy = Copy::with("misfit", log, "proofs/ClosedLaws.antt", LAWS);
        assert_eq!(
            copy.judged(&["send"], Evidence::Cases, "new"),
            Err("send is refused only since its proof no longer fits the code".into())
        );
        assert_eq!(copy.judged(&["sent"], Evidence::Cases, "new"), Err("sent is not refused on its own account".into()));
    }

    /// What is shown of a wrong program of `send` whose proof answers a goal that is gone, and whose proof leaves another goal open.
    fn shown_by_open(test: &str, goal: &str, name: &str) -> Result<Shown, String> {
        let log = format!(
            "./proofs/send/Answers.antt:31:9: error: `bounds-at`: module `Rattle.a.proofs.send.Goals` has no `bounds-at` that can be named from here\n\
             note: src/lib.rt:2:5: it is not proved that {goal}\nfn sending::send: not proved\nfn sending::other: not proved\n"
        );
        let copy = Copy::with(test, &log, "src/lib.rt", "pub fn send() -> u8 {\n    1\n}\n\nfn other() {}\n");
        copy.judged(&[name], Evidence::Cases, "new")
    }

    #[test]
    fn a_goal_that_fails_beside_a_proof_that_no_longer_fits_is_a_refusal() {
        let misfit = Err("send is refused only since its proof no longer fits the code".into());
        let fails = "; the facts known there allow values at which this goal is false";
        assert_eq!(shown_by_open("returns", "it returns (`returns`)", "send"), Ok(Shown::ByCases));
        assert_eq!(shown_by_open("bounds", "the index is within bounds (`bounds-at-2`)", "send"), misfit);
        assert_eq!(shown_by_open("false", &format!("the index is within bounds (`bounds-at-2`){fails}"), "send"), Ok(Shown::ByCases));
        assert_eq!(shown_by_open("other", "it returns (`returns`)", "other"), Err("other is not refused on its own account".into()));
    }

    #[test]
    fn an_equivalent_rewrite_is_refused_or_proved() {
        let fares = |test: &str, log: &str| {
            let copy = Copy::with(test, log, "src/lib.rt", "");
            let rewrite =
                WrongProgram { words: "words".into(), refused: vec!["send".into()], evidence: Evidence::Cases, edits: Vec::new() };
            let tried = Tried::read("sending", &copy.0).expect("there is a log");
            tried.refused_or_proved(&rewrite)
        };
        let refused = "fn sending::send: no proof: expected answers in ./proofs/send/Answers.antt; `search` did not prove `returns`\nlogic=not-proved\n";
        let misfit =
            "./proofs/send/Answers.antt:3:1: error: `returns-2`: `sent` is not in scope\nfn sending::send: not proved\nlogic=not-proved\n";
        assert_eq!(fares("refused", refused), Ok("refused"));
        assert_eq!(fares("misfitting", misfit), Ok("refused since its proof no longer fits"));
        assert_eq!(fares("proved", "fn sending::send: proved\nlogic=proved functions=1 sum=d\n"), Ok("proved"));
        let other = "fn sending::send: proved\nfn sending::less: not proved\nlogic=not-proved\n";
        assert_eq!(fares("another", other), Err("send is not refused on its own account".into()));
    }

    #[test]
    fn an_equivalent_definition_is_refused_and_not_shown_to_be_wrong() {
        let copy = Copy::with("equivalent", EQUIVALENT, "proofs/SendLaws.antt", SEND_LAWS);
        for law in ["waits", "none"] {
            let why = format!("{law} takes something, or is not proved by refl alone");
            assert_eq!(copy.judged(&[law], Evidence::Shown(vec![law.into()]), "new"), Err(why));
        }
        assert_eq!(copy.judged(&["waits", "none"], Evidence::None, "new"), Err(NOTHING.into()));
        assert_eq!(copy.judged(&["sends_prior"], Evidence::None, "new"), Err("sends_prior is not refused on its own account".into()));
    }

    #[test]
    fn a_proved_law_that_says_the_opposite_shows_a_wrong_program() {
        let copy = Copy::with("opposite", CLOSED, "proofs/ClosedLaws.antt", LAWS);
        let shown = |law: &str, new: &str| copy.judged(&["number"], Evidence::Opposite(law.into()), new);
        assert_eq!(shown("not-so", "pub not-so : share 2142 ≡ 601"), Ok(Shown::Wrong("not-so is proved".into())));
        assert_eq!(shown("not-so", "not-so = refl"), Err("not-so is not stated in a definition's new text".into()));
        assert_eq!(shown("number", "number : share 2142 ≡ 601"), Err("number is not seen to be proved".into()));
        let refused = format!("specs/D.antt:3:1: error: `share`: it is not in scope\n{CLOSED}");
        let copy = Copy::with("opposite-unreached", &refused, "proofs/ClosedLaws.antt", LAWS);
        let shown = copy.judged(&["number"], Evidence::Opposite("not-so".into()), "not-so : share 2142 ≡ 601");
        assert_eq!(shown, Err("not-so is not seen to be proved".into()));
    }

    #[test]
    fn an_edit_that_was_not_tried_is_told() {
        let copy = Copy::with("none", "", "proofs/ClosedLaws.antt", LAWS);
        fs::remove_file(copy.0.join(LOG)).expect("the log can be removed");
        assert_eq!(copy.judged(&["number"], Evidence::None, "new"), Err("it was not tried".into()));
    }
}
