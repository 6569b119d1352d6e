//! The boundaries: their words, their labels and hyphens, and where one message ends and the next begins.

use super::damage;
use super::lines::{Lines, CRLF, ENDS, LF, PLAIN, SPACINGS};
use super::pairs;
use crate::paper::{BEGIN, END, HYPHENS, LABEL_LIMIT, LINE};
use crate::random::Random;
use crate::texts::{label_of, style};
use crate::trial::{Rooms, Trial};

const BODY: &[u8] = b"\nZm8=\n";
/// Labels whose boundaries are damaged all over: around a block of 16 characters, and around the limit.
const DAMAGED_LENGTHS: [usize; 9] = [0, 1, 15, 16, 17, 63, 64, 65, 66];
/// All lengths up to some more than the limit have a label.
const MOST: usize = LABEL_LIMIT + 6;
/// What may stand between two characters of a label, and what may not.
const BETWEEN: [&[u8]; 7] = [b"-", b" ", b"--", b"  ", b"- ", b" -", b"---"];
/// How far from where two messages meet the text is damaged: the hyphens before it, and the word behind it.
const BEFORE_JOINT: usize = 7;
const BEHIND_JOINT: usize = 18;

fn with_labels(opening: &[u8], closing: &[u8]) -> Vec<u8> {
    [BEGIN, opening, HYPHENS, BODY, END, closing, HYPHENS, b"\n"].concat()
}

/// Each edit at each place of both boundaries.
pub fn damaged(trial: &mut Trial, random: &mut Random) {
    for length in DAMAGED_LENGTHS {
        let label = label_of(length, random);
        let text = with_labels(&label, &label);
        let opening = BEGIN.len() + length + HYPHENS.len();
        let closing = opening + BODY.len();
        for place in (0..=opening).chain(closing..=text.len()) {
            damage::each(&text, place, |text| {
                trial.text(text, &mut Rooms::Two(random));
            });
        }
    }
}

/// Labels of all lengths, alike or of neighbouring lengths; then those of some lengths, with separators at each place.
pub fn labels(trial: &mut Trial, random: &mut Random) {
    for length in 0..=MOST {
        let label = label_of(length, random);
        let longer = [&label, b"A".as_slice()].concat();
        let shorter = &label[..length.saturating_sub(1)];
        for other in [&label, &longer, shorter] {
            try_labels(trial, random, &label, other);
        }
    }
    for length in DAMAGED_LENGTHS {
        let label = vec![b'L'; length];
        for (place, between) in pairs(&(0..length).collect::<Vec<usize>>(), &BETWEEN) {
            let end = length.min(place + between.len());
            let separated = [&label[..place], between, &label[end..]].concat();
            try_labels(trial, random, &separated, &separated);
            try_labels(trial, random, &separated, &label);
        }
    }
}

/// In either order, and the first to the writer, in any style.
fn try_labels(trial: &mut Trial, random: &mut Random, label: &[u8], other: &[u8]) {
    trial.text(&with_labels(label, other), &mut Rooms::Two(random));
    trial.text(&with_labels(other, label), &mut Rooms::Two(random));
    let style = style(random);
    trial.write(label, b"fo", style, &mut Rooms::Two(random));
}

/// Each edit at each place around where two messages meet, between lines with each line end, with blanks, or with none.
pub fn joints(trial: &mut Trial, random: &mut Random) {
    let firsts = pairs(&ENDS[..3], &[PLAIN, SPACINGS[0]]);
    for ((ends, spacing), (next_ends, without_end)) in pairs(&firsts, &[(LF, false), (CRLF, true)]) {
        let first = Lines {
            ends,
            spacing,
            ..Lines::of(&[LINE], 0, 2)
        };
        let next = Lines {
            ends: next_ends,
            ..Lines::of(&[LINE], 0, 0)
        };
        let mut text = first.text(random);
        if without_end {
            text.truncate(text.len() - ends[0].len());
        }
        let joint = text.len();
        text.extend(next.text(random));
        for place in joint - BEFORE_JOINT..=joint + BEHIND_JOINT {
            damage::each(&text, place, |text| {
                trial.text(text, &mut Rooms::Two(random));
            });
        }
    }
}
