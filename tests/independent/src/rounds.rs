//! The random rounds: a text for the readers, or a list of labels and data for the writer.

use crate::leaps;
use crate::lists::Joined;
use crate::paper::{DATA_LIMIT, GRAMMARS, TEXT_LIMIT};
use crate::random::Random;
use crate::samples::M;
use crate::texts::{self, LINE_ENDS, LONG_DATA, LONG_TEXT};
use crate::trial::{Rooms, Trial};

/// One text in this many, and the data of one item in this many, is long, which takes time.
const LONG: usize = 500;
/// One in this many is over its limit: refused at once, but it takes memory.
const TEXT_OVER_LIMIT: usize = 1_000;
const DATA_OVER_LIMIT: usize = 200;
/// By how much it is over.
const OVER: usize = 3;
/// One round in this many tries all rooms, if the text is not longer than this.
const ALL_ROOMS: usize = 16;
const SMALL_TEXT: usize = 200;

pub fn run(trial: &mut Trial, random: &mut Random, count: u64) {
    for _ in 0..count {
        match random.below(6) {
            0 => written_list(trial, random),
            1 | 2 => lined(trial, random),
            _ => text(trial, random),
        }
    }
}

/// Lines that may be long enough to leap, damaged where a leap begins or ends.
fn lined(trial: &mut Trial, random: &mut Random) {
    let text = leaps::random_text(random);
    trial.text(&text, &mut Rooms::Two(random));
}

fn text(trial: &mut Trial, random: &mut Random) {
    let text = random_text(random);
    if text.len() <= SMALL_TEXT && random.one_in(ALL_ROOMS) {
        trial.text(&text, &mut Rooms::All);
    } else {
        trial.text(&text, &mut Rooms::Two(random));
    }
    if random.one_in(ALL_ROOMS) {
        let grammar = texts::unknown_number(random);
        trial.text_under(&text, grammar, &mut Rooms::Two(random));
    }
}

fn random_text(random: &mut Random) -> Vec<u8> {
    if random.one_in(TEXT_OVER_LIMIT) {
        return text_over_limit(random);
    }
    if random.one_in(LONG) {
        return long_text(random);
    }
    let grammar = random.pick(&GRAMMARS);
    match random.below(12) {
        0..=2 => texts::message(grammar, random),
        3..=5 => texts::damaged(&texts::message(grammar, random), random),
        6 | 7 => texts::soup(random),
        8 | 9 => texts::bundle(random),
        10 => texts::damaged(&texts::bundle(random), random),
        _ => random_bytes(random),
    }
}

/// A text that lax would accept if it were shorter.
fn text_over_limit(random: &mut Random) -> Vec<u8> {
    let mut text = M.to_vec();
    text.resize(TEXT_LIMIT + random.between(1, OVER), b' ');
    text
}

/// A long message or many messages, sometimes damaged.
fn long_text(random: &mut Random) -> Vec<u8> {
    let length = random.between(LONG_TEXT - 3, LONG_TEXT + 2);
    let unit = match random.below(3) {
        0 => texts::long_message(&texts::label(random), length),
        1 => M.to_vec(),
        _ => texts::message(random.pick(&GRAMMARS), random),
    };
    let text = unit.repeat(length / unit.len());
    let text = if random.one_in(2) {
        texts::ended(&text, random.pick(&LINE_ENDS))
    } else {
        text
    };
    let text = if random.one_in(2) {
        texts::damaged(&text, random)
    } else {
        text
    };
    if text.len() > length || random.one_in(2) {
        return text;
    }
    texts::stretched(&text, length)
}

fn random_bytes(random: &mut Random) -> Vec<u8> {
    let length = random.below(80);
    let bytes = random.bytes(length);
    match random.below(2) {
        0 => bytes,
        _ => [b"-----BEGIN A-----".as_slice(), &bytes].concat(),
    }
}

/// Writes each item of a list, each in its own style; if the writer takes all of them, their texts joined are a bundle with
/// that list.
fn written_list(trial: &mut Trial, random: &mut Random) {
    let count = random.below(4);
    let mut joined = Joined::default();
    let mut all_taken = true;
    for _ in 0..count {
        let (label, data, style) = (texts::near_label(random), data(random), texts::style(random));
        match trial.write(&label, &data, style, &mut Rooms::Two(random)) {
            Some(text) => joined.add(&label, &data, &text),
            None => all_taken = false,
        }
    }
    if all_taken {
        joined.index(trial);
    }
}

/// Mostly of some lines. Over the limit it is refused unseen, so any byte will do.
fn data(random: &mut Random) -> Vec<u8> {
    if random.one_in(DATA_OVER_LIMIT) {
        return vec![random.byte(); DATA_LIMIT + random.between(1, OVER)];
    }
    let length = data_length(random);
    random.bytes(length)
}

fn data_length(random: &mut Random) -> usize {
    if random.one_in(LONG) {
        return random.between(LONG_DATA - 2, LONG_DATA + 1);
    }
    match random.below(10) {
        0 => 0,
        1..=4 => random.between(1, 10),
        5 | 6 => random.between(46, 50),
        _ => random.between(1, 300),
    }
}
