//! docs/RULE.md and docs/GUARANTEE.md have no fault, and each fault that they could have is found.

use std::fs;

use super::checking::{misindexed, misquoted, not_there, unknown, unnamed, unplaced};
use super::definitions::repository;
use super::document::{Document, GUARANTEE, RULE};
use super::pieces::{pieces, Content, Piece};

/// What finds faults in the pieces of a document.
type Check = fn(&Document, &[Piece]) -> Vec<String>;

/// A check finds nothing in a document.
fn passes(document: &Document, check: Check) {
    let wrong = check(document, &document.pieces());
    assert!(wrong.is_empty(), "docs/{}\n{}", document.file, wrong.join("\n"));
}

/// A check finds just these faults in a text that is held to what docs/RULE.md is.
fn finds(check: Check, text: &str, faults: &[&str]) {
    assert_eq!(check(&RULE, &pieces(text)), faults, "in\n{text}");
}

#[test]
fn every_definition_that_a_document_names_is_there() {
    passes(&RULE, unknown);
    passes(&GUARANTEE, unknown);
}

#[test]
fn the_index_of_the_rule_is_of_its_text() {
    passes(&RULE, misindexed);
}

#[test]
fn a_document_names_every_definition_or_says_that_it_leaves_it_out() {
    passes(&RULE, unnamed);
    passes(&GUARANTEE, unnamed);
}

#[test]
fn the_guarantee_says_the_module_of_every_name() {
    passes(&GUARANTEE, unplaced);
}

#[test]
fn every_picture_document_and_capture_of_a_document_is_there() {
    passes(&RULE, not_there);
    passes(&GUARANTEE, not_there);
}

#[test]
fn every_output_in_a_document_is_that_of_its_capture() {
    passes(&RULE, misquoted);
    passes(&GUARANTEE, misquoted);
}

#[test]
fn a_text_is_taken_apart() {
    let text =
        "# Title\n\nOne\ntwo.\n\n## 3 Steps\n\n1. First\n   goes on.\n2. Second.\n\n| a | `b` |\n|---|---|\n| 1 | |\n\n```\n| x\n```\n";
    let piece = |section: &str, content| Piece { section: String::from(section), content };
    let prose = |section, text: &str| piece(section, Content::Prose(String::from(text)));
    let cells = |texts: [&str; 2]| texts.map(String::from).to_vec();
    let expected = [
        prose("Title", "One two."),
        prose("3", "1. First goes on."),
        prose("3", "2. Second."),
        piece("3", Content::Row { heads: cells(["a", "`b`"]), cells: cells(["1", ""]) }),
        piece("3", Content::Fenced(String::from("| x\n"))),
    ];
    assert_eq!(pieces(text), expected);
}

/// A text whose section 1 names definitions in a sentence.
fn sentence(names: &str) -> String {
    format!("## 1 A\n\nSo it is. ({names}) `any` words\n")
}

/// A text whose section 1 names definitions of a module in a column of a table.
fn column(module: &str, names: &str) -> String {
    format!("## 1 A\n\n| `any` | in `{module}` · |\n|---|---|\n| `any` | {names} |\n")
}

/// What is said of a name that a module of section 1 does not define.
fn undefined(module: &str, name: &str) -> String {
    format!("1: `{module}` does not define `{name}`; name a definition that it has")
}

#[test]
fn definitions_of_every_sort_are_known() {
    finds(unknown, &sentence("`stream/Steps` · `arrive_of`, `tick_of`; `stream/State` · `StreamFit`; `steps/Call` · `Call`"), &[]);
    finds(unknown, &sentence("`stream/declared` · `Reply`,\n`Arrival`; `port_laws/proofs/QuickLaws` · `quick_call`"), &[]);
    finds(unknown, &sentence("`port_laws/proofs/LookupLaws` · `bound_found`"), &[]);
    finds(unknown, &column("stream/Steps", "`arrive_of`, `tick_of`; `stream/State` · `StreamFit`"), &[]);
}

#[test]
fn a_wrong_name_is_found() {
    let wrong = undefined("stream/Steps", "arive_of");
    finds(unknown, &sentence("`stream/Steps` · `arive_of`"), &[&wrong]);
    finds(unknown, &sentence("`stream/Steps` · `arrive_of`, `tick_of`,\n`arive_of`"), &[&wrong]);
    finds(unknown, &column("stream/Steps", "`arive_of`"), &[&wrong]);
    finds(unknown, &column("stream/Steps", "`tick_of`, `arive_of`"), &[&wrong]);
}

#[test]
fn a_wrong_type_or_theorem_is_found() {
    finds(unknown, &sentence("`stream/declared` · `Steam`"), &[&undefined("stream/declared", "Steam")]);
    finds(unknown, &sentence("`port_laws/proofs/QuickLaws` · `quick_cal`"), &[&undefined("port_laws/proofs/QuickLaws", "quick_cal")]);
}

#[test]
fn a_name_that_another_module_or_only_a_part_has_is_wrong() {
    finds(unknown, &sentence("`stream/State` · `tick_of`"), &[&undefined("stream/State", "tick_of")]);
    finds(unknown, &sentence("`stream/State` · `left_within`"), &[&undefined("stream/State", "left_within")]);
    finds(unknown, &sentence("`stream/Lib` · `mod`"), &[&undefined("stream/Lib", "mod")]);
}

#[test]
fn a_wrong_module_is_found() {
    let none = |module: &str| format!("1: there is no module `{module}`; name the one that has the definition");
    finds(unknown, &sentence("`stream/Stepz` · `arrive_of`"), &[&none("stream/Stepz")]);
    finds(unknown, &column("stream/Stepz", "`arrive_of`"), &[&none("stream/Stepz")]);
    finds(unknown, &sentence("`steam/declared` · `Reply`"), &[&none("steam/declared")]);
    finds(unknown, &sentence("`Stream/Steps` · `arrive_of`"), &["1: `Stream/Steps` is no module; write it as `stream/Steps`"]);
}

#[test]
fn a_module_stands_alone_only_where_definitions_are_left_out() {
    finds(unknown, &sentence("`stream/Steps`, `arrive_of`"), &["1: `stream/Steps` stands alone; name the definition after it"]);
    finds(unknown, "### 13.2 A\n\n(`stream/Alone`)", &[]);
}

/// A text that names definitions in two sections, and the head of its index.
const TEXT: &str = "### 1.1 A\n\n(`stream/Steps` · `tick_of`)\n\n### 1.2 B\n\n(`stream/Steps` · `tick_of`, `arrive_of`)\n\n\
                    ### 13.1 Index\n\n| a | b |\n|---|---|\n";

/// The text with these rows in its index.
fn with_index(rows: &str) -> String {
    format!("{TEXT}{rows}\n\n### 13.2 C\n\n(`stream/State` · `StreamFit`)\n")
}

#[test]
fn an_index_that_is_of_its_text_passes() {
    finds(misindexed, &with_index("| `stream/Steps` | `tick_of` 1.1 1.2; `arrive_of` 1.2 |"), &[]);
    finds(misindexed, &with_index("| `stream/Steps` | `tick_of`, `arrive_of` 1.2 |\n| `stream/Steps` | `tick_of` 1.1 |"), &[]);
}

#[test]
fn an_index_that_is_not_of_its_text_is_found() {
    let wrong = |named: &str, said: &str| format!("index: {named}, and the index says {said}; set the index right");
    let arrive = wrong("`stream/Steps` · `arrive_of` is named in 1.2", "nothing");
    finds(misindexed, &with_index("| `stream/Steps` | `tick_of` 1.1 1.2 |"), &[&arrive]);
    let tick = wrong("`stream/Steps` · `tick_of` is named in 1.1 1.2", "1.2");
    finds(misindexed, &with_index("| `stream/Steps` | `tick_of`, `arrive_of` 1.2 |"), &[&tick]);
    let more = wrong("`stream/Steps` · `joined` is named in nothing", "1.1");
    finds(misindexed, &with_index("| `stream/Steps` | `tick_of` 1.1 1.2; `arrive_of` 1.2; `joined` 1.1 |"), &[&more]);
}

#[test]
fn a_definition_that_is_left_out_is_found() {
    let without = RULE.text().replace("`ticked_at`", "").replace("| `stream/Alone` |", "| |");
    let missing = unnamed(&RULE, &pieces(&without)).join("\n");
    assert!(missing.contains("`ticking/Ticking` · `ticked_at` is nowhere named; give it a sentence, or a line in 13.2"), "{missing}");
    assert!(missing.contains("`stream/Alone` · `octets_into` is nowhere named"), "{missing}");
    assert!(!missing.contains("tick_step"), "{missing}");
}

/// A check finds just these faults in docs/GUARANTEE.md where some of its words, which it has once, are others.
fn finds_where(check: Check, words: &str, others: &str, faults: &[&str]) {
    let text = GUARANTEE.text();
    assert_eq!(text.matches(words).count(), 1, "docs/GUARANTEE.md has '{words}' once");
    assert_eq!(check(&GUARANTEE, &pieces(&text.replace(words, others))), faults, "with '{others}' for '{words}'");
}

#[test]
fn a_claim_of_the_guarantee_that_is_left_out_is_found() {
    let nowhere =
        |name: &str| format!("`guarantee/Demand3` · `{name}` is nowhere named; give it a sentence, or a line in {}", GUARANTEE.left_out);
    finds_where(unnamed, "`Demand3.alike`", "", &[&nowhere("Demand3.alike")]);
    finds_where(unnamed, "`Promised.prompt`", "", &[&nowhere("Promised.prompt")]);
    finds_where(unnamed, "`guarantee/Demand3` · `LinkHolds`", "", &[&nowhere("LinkHolds")]);
}

#[test]
fn a_name_in_the_guarantee_that_is_not_where_it_says_is_found() {
    let table = |module: &str, name: &str| format!("Where it stands: `{module}` does not define `{name}`; name a definition that it has");
    finds_where(unknown, "`Demand3.alike`", "`Demand3.prompt`", &[&table("guarantee/Demand3", "Demand3.prompt")]);
    finds_where(unknown, "`NotByHost`", "`NotByHosts`", &[&table("guarantee/Claims", "NotByHosts")]);
    finds_where(unknown, "`demand_3`", "`demand_4`", &[&table("guarantee/proofs/Theorem", "demand_4")]);
    finds_where(
        unknown,
        "`guarantee/Beyond` · `SentByReply`",
        "`guarantee/Claims` · `SentByReply`",
        &[&table("guarantee/Claims", "SentByReply")],
    );
}

#[test]
fn a_name_in_the_guarantee_without_its_module_is_found() {
    let alone = |name: &str| format!("Where it stands: `{name}` stands after no module; write the one that has it before it");
    finds_where(unplaced, "`guarantee/proofs/Theorem` · `quick_events_lem`", "`quick_events_lem`", &[&alone("quick_events_lem")]);
    finds_where(unplaced, "`guarantee/Beyond` · `SentByReply`", "(Beyond) `SentByReply`", &[&alone("SentByReply")]);
}

#[test]
fn what_is_not_there_is_found() {
    let text = "## 9 A\n\n![a](pictures/none.svg) and [b](GUARANTEE.md), `captures/sample.capture`, `captures/none.capture`";
    finds(not_there, text, &["9: docs/pictures/none.svg is not there", "9: captures/none.capture is not there"]);
}

#[test]
fn an_output_of_its_capture_passes() {
    finds(misquoted, "## 9 A\n\n`captures/c5.capture` prints `0 3 3 0 1 200`, `captures/refused_24_before_23.capture` `refused 24 3`", &[]);
    finds(misquoted, "## 9 A\n\n| capture | prints |\n|---|---|\n| `captures/c10.capture` | `0 3 3 14 0 0`, `0 4 3 14 0 0` |", &[]);
    finds(misquoted, "## 9 A\n\nA bad file prints `refused N I`, (0 1 200), and `0 1 200`.", &[]);
}

#[test]
fn an_output_of_no_capture_is_found() {
    finds(misquoted, "## 9 A\n\nIt prints `0 3 3 0 1 200`", &["9: '0 3 3 0 1 200' is of no capture; name the capture before it"]);
    let wrong = ["9: '0 3 3 0 1 201' is not what `replay` prints of captures/c5.capture"];
    finds(misquoted, "## 9 A\n\n`captures/c5.capture` prints `0 3 3 0 1 201`", &wrong);
    finds(misquoted, "## 9 A\n\n| capture | prints |\n|---|---|\n| `captures/c5.capture` | `0 3 3 0 1 201` |", &wrong);
    let wrong = ["9: 'refused 24 4' is not what `replay` prints of captures/refused_24_before_23.capture"];
    finds(misquoted, "## 9 A\n\n`captures/refused_24_before_23.capture` prints `refused 24 4`", &wrong);
}

#[test]
fn a_whole_output_has_every_line() {
    let whole = fs::read_to_string(repository().join("captures/sample.output")).expect("the output can be read");
    finds(misquoted, &format!("## 9 A\n\n`captures/sample.capture`:\n\n```\n{whole}```\n"), &[]);
    let part: String = whole.lines().take(3).map(|line| format!("{line}\n")).collect();
    let wrong = format!("9: '{part}' is not what `replay` prints of captures/sample.capture");
    finds(misquoted, &format!("## 9 A\n\n`captures/sample.capture`:\n\n```\n{part}```\n"), &[&wrong]);
    finds(misquoted, "## 9 A\n\n```\nany words\n```\n", &[]);
}
