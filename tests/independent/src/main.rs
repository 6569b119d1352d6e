//! Compares the library with a second implementation of the requirements paper.
//!
//! `cargo run --release -p independent` runs the fixed cases, those at the edges of leaps, and random ones of a fixed seed;
//! with `-- SEED COUNT` it runs COUNT random rounds of that seed. It ends with status 1 on the first disagreement, or if the
//! cases at leaps, or the random rounds of the default run, never came upon some number or style that the paper lists for them,
//! or the fixed cases or those rounds upon some family.

mod bits;
mod families;
mod fixed;
mod known;
mod leaps;
mod lent;
mod limits;
mod lists;
mod paper;
#[cfg(test)]
mod paper_tests;
mod random;
mod regex;
mod rounds;
mod samples;
mod tally;
mod texts;
mod trial;

use paper::number::{LONG_TEXT, UNKNOWN_GRAMMAR, WRITER_LONG_DATA};
use random::Random;
use std::time::Instant;
use tally::{Tally, CALLS, TELLERS};
use trial::{fail, Trial};

const SEED: u64 = 7468;
const COUNT: u64 = 60_000;
/// What the cases at leaps do not try: grammar numbers, and the limits of texts and data.
const NOT_AT_LEAPS: [u32; 3] = [UNKNOWN_GRAMMAR, LONG_TEXT, WRITER_LONG_DATA];

fn main() {
    let arguments: Vec<String> = std::env::args().skip(1).collect();
    let (seed, count) = match &arguments[..] {
        [] => (SEED, COUNT),
        [seed, count] => (parsed(seed), parsed(count)),
        _ => fail("usage: independent [SEED COUNT]"),
    };
    let started = Instant::now();
    let mut trial = Trial::new();
    fixed::run(&mut trial, &mut Random::new(SEED));
    families::run(&mut trial, &mut Random::new(SEED));
    limits::run(&mut trial, &mut Random::new(SEED));
    let fixed = std::mem::take(&mut trial.tally);
    let batches = leaps::run(&mut trial, &mut Random::new(seed));
    let at_leaps = std::mem::take(&mut trial.tally);
    rounds::run(&mut trial, &mut Random::new(seed), count);
    let random = trial.tally;
    println!("at leaps: {}", batches.join(", "));
    let rounds = format!("seed {seed}, {count} rounds");
    print_counts(&[&fixed, &at_leaps, &random], &rounds, started);
    require_families("in the fixed cases", &fixed);
    require_all("at leaps", &at_leaps, &NOT_AT_LEAPS);
    if count >= COUNT {
        require_all("in the random rounds", &random, &[]);
        require_families("in the random rounds", &random);
    }
    println!("the library and the paper agree");
}

/// How often each call answered each number, how often each style was read and each family told, and how many cases were fixed,
/// at leaps and random.
fn print_counts(parts: &[&Tally; 3], rounds: &str, started: Instant) {
    let mut all = Tally::default();
    parts.iter().for_each(|part| all.add(part));
    CALLS.iter().for_each(|&call| println!("{}", all.line(call)));
    println!("{}", all.styles_line());
    TELLERS
        .iter()
        .for_each(|&teller| println!("{}", all.families_line(teller)));
    let [fixed, at_leaps, random] = parts.map(Tally::total);
    let (all, time) = (all.total(), started.elapsed().as_secs_f64());
    println!("{all} cases ({fixed} fixed, {at_leaps} at leaps, {random} random; {rounds}) in {time:.1} s");
}

fn parsed(argument: &str) -> u64 {
    argument
        .parse()
        .unwrap_or_else(|_| fail(&format!("{argument} is not a number")))
}

/// Cases that no longer come upon some number are noticed, unless they are not made for it; and so is a style.
fn require_all(which: &str, tally: &Tally, others: &[u32]) {
    let missing = tally.missing().into_iter();
    let missing = missing.filter(|(_, _, number)| !others.contains(number));
    let numbers = missing.map(|(call, asked, number)| format!("{call:?}, asked for {asked}: number {number}"));
    let styles = tally.missing_styles().into_iter();
    let styles = styles.map(|(grammar, style)| format!("Read, grammar {grammar}: style {style}"));
    require_none(which, numbers.chain(styles));
}

/// And so is a family.
fn require_families(which: &str, tally: &Tally) {
    let missing = tally.missing_families().into_iter();
    let missing = missing.map(|(teller, grammar, family)| format!("{teller:?}, grammar {grammar}: family {family}"));
    require_none(which, missing);
}

fn require_none(which: &str, missing: impl Iterator<Item = String>) {
    let lines: Vec<String> = missing.collect();
    if !lines.is_empty() {
        fail(&format!("never occurred {which}:\n{}", lines.join("\n")));
    }
}
