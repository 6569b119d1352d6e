//! Compares the library with two yardsticks in safe Rust on the same messages: their times, or the instructions that
//! they take; and all of them with other readers of PEM.

mod cases;
mod helper;
mod instructions;
mod library;
mod peers;
mod rows;
mod texts;
mod timed;
mod timing;
mod yardstick;

use std::env;
use std::process::ExitCode;

/// The exit status where the words on the command line name no mode and no case.
const MISUSED: u8 = 2;

fn main() -> ExitCode {
    let words: Vec<String> = env::args().skip(1).collect();
    let words: Vec<&str> = words.iter().map(String::as_str).collect();
    match words[..] {
        ["instructions"] => instructions::print_table(),
        ["peers"] => {
            peers::print_table();
            ExitCode::SUCCESS
        }
        [instructions::ONCE, side, name, length] => match instructions::once(side, name, length) {
            Some(()) => ExitCode::SUCCESS,
            None => misused(),
        },
        _ if timed::print_table(&words) => ExitCode::SUCCESS,
        _ => misused(),
    }
}

fn misused() -> ExitCode {
    eprintln!("usage: bench [words of a case's name] | bench instructions | bench peers");
    ExitCode::from(MISUSED)
}

/// A number with a comma before each three digits.
fn grouped(number: usize) -> String {
    let digits = number.to_string();
    let mut grouped = String::new();
    for (at, digit) in digits.chars().enumerate() {
        if at > 0 && (digits.len() - at).is_multiple_of(3) {
            grouped.push(',');
        }
        grouped.push(digit);
    }
    grouped
}
