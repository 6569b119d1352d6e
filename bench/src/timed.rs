//! Times all sides of each case, and prints a line for each length that is lent.

use crate::cases::{self, Case, Item, Side, Task, Trial, LONG_OUTPUT, LONG_TABLE, SIDES};
use crate::timing::{self, Spread};
use crate::{grouped, rows};
use std::fmt::Debug;
use std::fs;
use std::hint::black_box;
use zullifern::{READ_LIMIT, TABLE_LIMIT, WRITTEN_LIMIT};

/// What stands in a lent buffer before a side is checked: neither zeros nor a result.
const OLD: u8 = 0xA5;

/// The widths of the columns with the cases' names and with the quartiles of shares.
const NAME: usize = 48;
const QUARTILES: usize = 16;

/// Times the cases whose names have all of these words in them. Answers whether there are any.
pub fn print_table(words: &[&str]) -> bool {
    let named = |case: &Case| words.iter().all(|word| case.name().contains(word));
    let chosen: Vec<Case> = rows::all().into_iter().filter(named).collect();
    if !chosen.is_empty() {
        print_head();
    }
    for case in &chosen {
        cases::with(case, &Timed);
    }
    !chosen.is_empty()
}

fn print_head() {
    println!("CPU: {}", processor().as_deref().unwrap_or("unknown"));
    print_legend();
    let head = format!("{:NAME$} {:>10}  {:5}  {:>6}", "case", "text", "lent", "rounds");
    let times = format!("  {:>9} {:>6}", "us/call", "MB/s");
    let share = format!("  {:>6} {:>QUARTILES$}", "share", "(quartiles)");
    let [_, yardsticks @ ..] = SIDES;
    let (before, side, ratio) = (head.len(), times.len(), share.len());
    let sides = SIDES.map(|name| format!("{name:>side$}")).concat();
    let ratios = yardsticks
        .map(|name| format!("{:>ratio$}", format!("of {name}")))
        .concat();
    println!("{:before$}{sides}{ratios}", "");
    println!("{head}{}{}", times.repeat(SIDES.len()), share.repeat(yardsticks.len()));
}

fn print_legend() {
    let [output, table] = [LONG_OUTPUT, LONG_TABLE].map(grouped);
    let [read, written, numbers] = [READ_LIMIT, WRITTEN_LIMIT, TABLE_LIMIT].map(grouped);
    let (most, least) = (timing::MOST_ROUNDS, timing::LEAST_ROUNDS);
    let (round, case) = (timing::ROUND.as_micros(), timing::CASE.as_secs());
    println!(
        "\
The library beside two yardsticks in safe Rust, in optimised builds, with the same lent output.
ordinary  One table of 256 values, and a character at a time: as most would write it, and as the targets were set by.
tuned     The fastest in safe Rust that we know. Whoever finds a faster one puts it there.
case      The call, the grammar of the library's side, the layout and the messages: 64 LF is lines of 64 characters with
          LF behind each; blank LF has a space before it; gaps of 16 is a space between each 16 characters.
          All sides write 64 LF, or 64 CRLF where the case says so.
          10 MiB, 64 KiB and 2 KiB: one message whose strict text is as long as fits. A bundle has messages of about
          2 KiB, a tiny message has 99 bytes. A bad last byte or another closing label: all sides refuse the text.
          The yardsticks know the strict grammar only. Beside the library's standard and lax they read or index the
          strict text of the same label and data, 64 LF: that is hard on the library, since no text is easier to read.
text      Bytes of the text that the library reads, indexes or writes.
lent      exact: the output is as long as the result, and the yardsticks clear nothing.
          whole: {output} bytes, or a table of {table} numbers; for more than 64 KiB, what the longest input may
          need: {read} bytes to read, {written} to write, {numbers} numbers. The yardsticks clear what is
          behind the result.
          The library itself sets to zeros whatever is not a result, after a refusal all that it is lent. The
          yardsticks then leave what they have decoded.
rounds    Of each side, in turn, after a warm-up: {most}, or as many as fit in {case} seconds, but at least {least}.
          A round is calls for about {round} microseconds, or for as long as one call of the slowest side, and as long
          on all sides.
us/call   The median of the microseconds for one call. MB/s counts the bytes of the side's own text.
share     The yardstick's time over the library's in the same round, the median and the quartiles: the library's share
          of the yardstick's throughput. 1: as fast; 0.5: the library takes twice as long; 2: half as long.
          of ordinary: beside ordinary code. of tuned: beside the fastest that we know.
"
    );
}

/// The processor's name, where the system tells it.
fn processor() -> Option<String> {
    let lines = fs::read_to_string("/proc/cpuinfo").ok()?;
    let line = lines.lines().find(|line| line.starts_with("model name"))?;
    Some(line.split_once(':')?.1.trim().to_string())
}

struct Timed;

impl Task for Timed {
    fn run<T: Item, A: PartialEq + Debug>(&self, case: &Case, trial: &Trial<T, A>) {
        print_line(case, trial, "exact", trial.exact);
        if case.whole {
            print_line(case, trial, "whole", trial.whole);
        }
    }
}

/// Checks all sides with so much lent, times them, and prints what came out.
fn print_line<T: Item, A: PartialEq + Debug>(case: &Case, trial: &Trial<T, A>, lent: &str, length: usize) {
    trial.sides.iter().for_each(|side| check(side, length));
    let timed = trial
        .sides
        .each_ref()
        .map(|side| |lent: &mut Vec<T>, calls| timing::each(calls, || used(side, lent)));
    let times = timing::interleaved(&mut vec![T::from(0); length], &timed);
    let (library, yardsticks) = (&times[0], &times[1..]);
    let (name, text) = (case.name(), grouped(trial.sides[0].text));
    print!("{name:NAME$} {text:>10}  {lent}  {:6}", library.len());
    for (side, times) in trial.sides.iter().zip(&times) {
        let time = Spread::of(times).median;
        print!("  {time:9.2} {:6.0}", side.text as f64 / time);
    }
    for yardstick in yardsticks {
        let share = Spread::of_ratios(yardstick, library);
        print!("  {:6.3} {:>QUARTILES$}", share.median, share.quartiles(3));
    }
    println!();
}

/// Calls a side, with zeros behind an accepted result.
fn cleared<T: Item, A>(side: &Side<T, A>, lent: &mut [T]) -> Option<A> {
    let answer = (side.call)(lent);
    if !side.clears {
        lent[side.result.len()..].fill(T::from(0));
    }
    answer
}

/// A side has to answer as it should, and to leave the result where it accepts, and zeros behind it.
fn check<T: Item, A: PartialEq + Debug>(side: &Side<T, A>, length: usize) {
    let mut lent = vec![T::from(OLD); length];
    assert_eq!(cleared(side, &mut lent), side.answer, "another answer");
    if side.answer.is_some() {
        let (result, rest) = lent.split_at(side.result.len());
        assert!(result == side.result, "another result");
        assert!(rest.iter().all(|&item| item == T::from(0)), "no zeros behind it");
    }
}

/// Calls a side. Nothing of an answer or of what is lent may be left out as unused.
fn used<T: Item, A>(side: &Side<T, A>, lent: &mut [T]) {
    black_box(cleared(side, black_box(&mut *lent)));
    black_box(lent);
}

#[cfg(test)]
mod tests {
    use super::*;
    use std::collections::HashSet;

    struct Checked;

    impl Task for Checked {
        fn run<T: Item, A: PartialEq + Debug>(&self, case: &Case, trial: &Trial<T, A>) {
            let lengths = [trial.exact, trial.whole];
            for length in &lengths[..if case.whole { 2 } else { 1 }] {
                trial.sides.iter().for_each(|side| check(side, *length));
            }
        }
    }

    #[test]
    fn names_differ_and_fit() {
        let names: Vec<String> = rows::all().iter().map(Case::name).collect();
        assert!(names.iter().all(|name| name.len() <= NAME));
        assert_eq!(names.iter().collect::<HashSet<_>>().len(), names.len());
    }

    #[test]
    fn all_sides_do_as_they_should() {
        let brief = |case: &Case| !case.name().contains("MiB");
        for case in rows::all().into_iter().filter(brief) {
            cases::with(&case, &Checked);
        }
    }
}
