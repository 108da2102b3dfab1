//! What a call costs: nanoseconds for each call of traffic, for bind and withdraw, for accesses to registers, for lookups and for questions for a
//! stream's counts as a call, as a quick call, and as plain Rust in place on the same layout, in one run, for ports from one without a stream to a full
//! one. A lookup and a question for counts have no quick form: they are the same call twice. Nothing here is a test: it prints figures and judges none.

use std::hint::black_box;
use std::time::Instant;

use harness::batches::{groups, Batch, Group};
use harness::call::{Call, Given, Reply};
use harness::comparing::fit::Octets;
use harness::{exports, in_place};

/// How often each batch is measured; the figure is the median.
const ROUNDS: usize = 1_001;

/// What a frame of 84 octets takes on a link of 1 and of 10 Gbit/s, in nanoseconds: one arrive and one transmit must not take longer.
const ONE_GIGABIT: f64 = 672.0;
const TEN_GIGABIT: f64 = 67.2;

/// The nanoseconds of one call of a batch on each side: one figure for each round, or their medians.
#[derive(Default)]
struct Figures<F> {
    call: F,
    quick: F,
    rust: F,
}

fn main() {
    let groups = groups();
    let batches: Vec<&Batch> = groups.iter().flat_map(|group| &group.batches).collect();
    let medians = measured(&batches);
    println!("nanoseconds for one call, median of {ROUNDS} rounds");
    println!("{:<38}{:>9}{:>9}{:>9}{:>14}{:>14}", "", "call", "quick", "Rust", "call / Rust", "quick / Rust");
    let mut medians = &medians[..];
    for group in &groups {
        let (own, others) = medians.split_at(group.batches.len());
        report(group, own);
        medians = others;
    }
    println!("for one arrive and one transmit of 84 octets a link leaves {ONE_GIGABIT} ns at 1 Gbit/s and {TEN_GIGABIT} ns at 10 Gbit/s");
}

/// Prints a line for each batch of a group, and, where its first two are arrivals and transmits, what one of each takes together.
fn report(group: &Group, medians: &[Figures<f64>]) {
    println!("{}", group.port);
    for (batch, f) in group.batches.iter().zip(medians) {
        line(batch.what, f);
    }
    if group.begins_with_arrivals() {
        let pair = |of: fn(&Figures<f64>) -> f64| of(&medians[0]) + of(&medians[1]);
        line("arrive and transmit, one frame", &Figures { call: pair(|f| f.call), quick: pair(|f| f.quick), rust: pair(|f| f.rust) });
    }
}

/// One line of the table.
fn line(what: &str, f: &Figures<f64>) {
    let (call, quick) = (f.call / f.rust, f.quick / f.rust);
    println!("  {:<36}{:>9.1}{:>9.1}{:>9.1}{:>14.1}{:>14.2}", what, f.call, f.quick, f.rust, call, quick);
}

/// The medians of all batches. In each round every batch is run on the three sides in turn, so that what else the machine does meets all alike.
fn measured(batches: &[&Batch]) -> Vec<Figures<f64>> {
    let mut figures: Vec<Figures<Vec<f64>>> = batches.iter().map(|_| Figures::default()).collect();
    batches.iter().for_each(|batch| batch.same_on_all_sides());
    for _ in 0..ROUNDS {
        batches.iter().zip(&mut figures).for_each(|(batch, f)| round(batch, f));
    }
    figures.into_iter().map(|f| Figures { call: median(f.call), quick: median(f.quick), rust: median(f.rust) }).collect()
}

/// One round of one batch.
fn round(batch: &Batch, f: &mut Figures<Vec<f64>>) {
    f.call.push(nanoseconds(batch, exports::call));
    f.quick.push(nanoseconds(batch, exports::unscanned));
    f.rust.push(nanoseconds(batch, in_place::call));
}

/// The time of one call: the whole batch's on a fresh copy of its port, shared out.
fn nanoseconds(batch: &Batch, side: impl Fn(&Given, &mut [u8], &mut [u8]) -> Reply) -> f64 {
    let Octets { mut record, mut memory } = batch.port.clone();
    let calls: Vec<Given> = batch.calls.iter().map(Call::given).collect();
    let calls = black_box(&calls[..]);
    let began = Instant::now();
    for call in calls {
        black_box(side(call, &mut record, &mut memory));
    }
    began.elapsed().as_nanos() as f64 / calls.len() as f64
}

/// The middle one of the figures.
fn median(mut figures: Vec<f64>) -> f64 {
    figures.sort_by(f64::total_cmp);
    figures[figures.len() / 2]
}
