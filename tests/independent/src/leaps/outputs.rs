//! What is lent: rooms around what may be written at once, by the reader and by the writer.

use super::lines::{Lines, CRLF, SPACINGS};
use crate::paper::{LABEL_LIMIT, LINE, STYLES};
use crate::random::Random;
use crate::texts::{label_of, unknown_number};
use crate::trial::{Rooms, Trial};

/// All lengths of data up to this one are tried: some lines.
const MOST_DATA: usize = 200;
/// The data of a line, and up to how many lines those lengths are tried that fill them, or are one off.
const LINE_DATA: usize = 48;
const LINE_GROUPS: usize = 16;
const MOST_LINES: usize = 100;
/// The labels of what is written: none, one character, and around the limit.
const LABELS: [usize; 5] = [0, 1, LABEL_LIMIT - 1, LABEL_LIMIT, LABEL_LIMIT + 1];
const NO_LABEL: &[u8] = b"A-";

/// Texts of all lengths of data, accepted and refused.
pub fn rooms(trial: &mut Trial, random: &mut Random) {
    for length in 0..=MOST_DATA {
        for text in texts_of(length, random) {
            trial.text(&text, &mut Rooms::All);
            trial.text(&text, &mut Rooms::Leaps);
        }
    }
}

/// A strict text of so much data, with spare bits, with other line ends and spacing, with labels that differ, without one of its
/// bytes, and cut.
fn texts_of(length: usize, random: &mut Random) -> [Vec<u8>; 6] {
    let (groups, pads) = (length / 3, (3 - length % 3) % 3);
    let strict = Lines::of(&vec![LINE; groups / LINE_GROUPS], groups % LINE_GROUPS, pads);
    let with_spare = Lines {
        spare: true,
        ..strict.clone()
    };
    let spaced = Lines {
        ends: CRLF,
        spacing: random.pick(&SPACINGS),
        ..strict.clone()
    };
    let text = strict.text(random);
    let mut differing = text.clone();
    let closing_label = text.len() - b"A-----\n".len();
    differing[closing_label] = b'B';
    let place = random.below(text.len());
    let (cut, rest) = text.split_at(place);
    let without = [cut, &rest[1..]].concat();
    let cut = cut.to_vec();
    [
        with_spare.text(random),
        spaced.text(random),
        differing,
        without,
        cut,
        text,
    ]
}

/// In each style: data of all lengths with all rooms, then with each label, then data of many lines.
pub fn written(trial: &mut Trial, random: &mut Random) {
    for style in STYLES {
        written_in(style, trial, random);
    }
    for length in 0..=MOST_DATA {
        for label in LABELS
            .map(|length| label_of(length, random))
            .iter()
            .chain([&NO_LABEL.to_vec()])
        {
            let style = unknown_number(random);
            trial.write(label, &random.bytes(length), style, &mut Rooms::Leaps);
        }
    }
}

fn written_in(style: u32, trial: &mut Trial, random: &mut Random) {
    for length in 0..=MOST_DATA {
        let label = label_of(length % (LABEL_LIMIT + 1), random);
        trial.write(&label, &random.bytes(length), style, &mut Rooms::All);
        for label in LABELS.map(|length| label_of(length, random)) {
            trial.write(&label, &random.bytes(length), style, &mut Rooms::Leaps);
        }
        trial.write(NO_LABEL, &random.bytes(length), style, &mut Rooms::Leaps);
    }
    for lines in 1..=MOST_LINES {
        for length in lines * LINE_DATA - 1..=lines * LINE_DATA + 1 {
            trial.write(b"A", &random.bytes(length), style, &mut Rooms::Leaps);
        }
    }
    for byte in [0, u8::MAX] {
        trial.write(b"A", &[byte; MOST_DATA], style, &mut Rooms::All);
    }
}
