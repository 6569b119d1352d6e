//! What stands between the boundaries: lines of each width and line end, damage at their edges, and runs of white.

use super::damage;
use super::lines::{Ends, Lines, Spacing, BLANK_WITHIN, CR, CRLF, ENDS, LF, PLAIN, SPACINGS, WIDTHS};
use super::pairs;
use crate::paper::LINE;
use crate::random::Random;
use crate::texts::LONG_TEXT;
use crate::trial::{Rooms, Trial};

/// How many full lines.
const FULL: [usize; 5] = [0, 1, 2, 3, 5];
const FEW_FULL: [usize; 2] = [1, 3];
/// Last lines: whole groups, none to some or about as many as a strict line may have, and by how many characters they do not
/// fit. Each has every number of pads.
const LASTS: [(usize, usize); 11] = [
    (0, 0),
    (1, 0),
    (2, 0),
    (3, 0),
    (4, 0),
    (14, 0),
    (15, 0),
    (16, 0),
    (1, 1),
    (1, 2),
    (1, 3),
];
const PADS: [usize; 3] = [0, 1, 2];
/// Last lines where there is much else to try: groups, pads, and by how many characters they do not fit.
const FEW_LASTS: [(usize, usize, usize); 6] = [(0, 0, 0), (1, 0, 0), (0, 2, 0), (3, 1, 0), (1, 0, 1), (3, 2, 3)];
/// One text in this many has spare bits that are not zero.
const SPARE: usize = 4;

/// Widths whose lines are damaged, besides the strict one.
const DAMAGED_WIDTHS: [usize; 14] = [4, 15, 16, 17, 48, 60, 61, 62, 63, 65, 66, 67, 76, 128];
/// The last lines of damaged texts, by groups and pads: of 20 and of 64 characters with their pads.
const SHORT_LAST: (usize, usize) = (4, 1);
const LONG_LAST: (usize, usize) = (15, 2);

/// Lines in which each byte is tried everywhere: of blocks alone; with a rest of 12, 13, 15, 5 or 3 characters, alone or behind
/// blocks, and a group on two lines where they are no whole groups; and with a blank behind the first 16.
const BYTES_IN: &[(&[usize], Ends, Spacing)] = &[
    (&[LINE], LF, PLAIN),
    (&[LINE], CRLF, PLAIN),
    (&[LINE + 16], LF, PLAIN),
    (&[76, 61], LF, PLAIN),
    (&[15, 5, 3], CRLF, PLAIN),
    (&[36], LF, BLANK_WITHIN),
];

/// Where runs of white are put into a strict message of a full line and of one with two characters and two pads, by line and
/// column: before and in the opening, around and in each line, around the pads, and around the closing.
const RUN_PLACES: [(usize, usize); 14] = [
    (0, 0),
    (0, 5),
    (0, 11),
    (0, 17),
    (1, 0),
    (1, 16),
    (1, 64),
    (2, 0),
    (2, 2),
    (2, 3),
    (2, 4),
    (3, 0),
    (3, 15),
    (4, 0),
];
const RUN_LENGTHS: [usize; 16] = [1, 2, 3, 4, 7, 8, 9, 15, 16, 17, 31, 32, 33, 63, 64, 65];
/// What the runs are made of, and the message's own line ends. Those of a run are the same, so that one which is counted wrong
/// shows; but for the last, whose CR may stand before an LF.
const RUN_UNITS: [(&[u8], Ends); 9] = [
    (b" ", LF),
    (b"\t", CRLF),
    (b" \t", CR),
    (b"\n", LF),
    (b"\r", CR),
    (b"\r\n", CRLF),
    (b"\x0b", CR),
    (b"\x0c ", CRLF),
    (b"\r", LF),
];

/// Long texts by length and width. The last is a single line.
const LONG: [(usize, usize); 7] = [
    (LONG_TEXT, LINE),
    (LONG_TEXT, LINE - 1),
    (LONG_TEXT, LINE + 1),
    (2 * LONG_TEXT, 76),
    (4 * LONG_TEXT, LINE),
    (16 * LONG_TEXT, LINE),
    (LONG_TEXT, LONG_TEXT),
];

/// Each width and line end, with no full line to some, and with last lines that fit or do not.
pub fn plain(trial: &mut Trial, random: &mut Random) {
    for ((width, ends), full) in pairs(&pairs(&WIDTHS, &ENDS), &FULL) {
        for ((groups, more), pads) in pairs(&LASTS, &PADS) {
            let lines = Lines {
                spare: random.one_in(SPARE),
                ends,
                ..Lines::of(&vec![width; full], groups, pads).longer(more)
            };
            trial.text(&lines.text(random), &mut Rooms::Two(random));
        }
    }
}

/// The same with blanks, other white and empty lines.
pub fn spaced(trial: &mut Trial, random: &mut Random) {
    for ((width, ends), full) in pairs(&pairs(&WIDTHS, &ENDS), &FEW_FULL) {
        for (spacing, (groups, pads, more)) in pairs(&SPACINGS, &FEW_LASTS) {
            let lines = Lines {
                ends,
                spacing,
                ..Lines::of(&vec![width; full], groups, pads).longer(more)
            };
            trial.text(&lines.text(random), &mut Rooms::Two(random));
        }
    }
}

/// Lines of two widths by turns.
pub fn ragged(trial: &mut Trial, random: &mut Random) {
    for ((first, second), (ends, more)) in pairs(&pairs(&WIDTHS, &WIDTHS), &[(LF, 0), (CRLF, 0), (LF, 1)]) {
        let lines = Lines {
            ends,
            ..Lines::of(&[first, second, first, second, first], 1, 1).longer(more)
        };
        trial.text(&lines.text(random), &mut Rooms::Two(random));
    }
}

/// Each edit at each place of each line, the boundaries' among them.
pub fn damaged(trial: &mut Trial, random: &mut Random) {
    for lines in to_damage() {
        let lined = lines.lined(random);
        for place in damage::places(&lined.starts, lined.text.len()) {
            damage::each(&lined.text, place, |text| {
                trial.text(text, &mut Rooms::Two(random));
            });
        }
    }
}

/// The same between two sound messages.
pub fn damaged_in_bundles(trial: &mut Trial, random: &mut Random) {
    for ends in [LF, CRLF] {
        let sound = Lines::of(&[LINE], 0, 0).text(random);
        let lines = Lines {
            ends,
            ..Lines::of(&[LINE], 15, 2)
        };
        let lined = lines.lined(random);
        for place in damage::places(&lined.starts, lined.text.len()) {
            damage::each(&lined.text, place, |text| {
                let bundle = [&sound, text, &sound].concat();
                trial.text(&bundle, &mut Rooms::Two(random));
            });
        }
    }
}

/// Two full lines and a last one: strict ones with each line end, then with each spacing, then of other widths.
fn to_damage() -> Vec<Lines> {
    let of = |width, ends, spacing, (groups, pads)| Lines {
        ends,
        spacing,
        ..Lines::of(&[width; 2], groups, pads)
    };
    let ends = pairs(&ENDS, &[SHORT_LAST, LONG_LAST]).into_iter();
    let ends = ends.map(|(ends, last)| of(LINE, ends, PLAIN, last));
    let by_turns = [(LF, LONG_LAST), (CRLF, SHORT_LAST)].into_iter().cycle();
    let spacings = SPACINGS.into_iter().zip(by_turns.clone());
    let spacings = spacings.map(|(spacing, (ends, last))| of(LINE, ends, spacing, last));
    let widths = DAMAGED_WIDTHS.into_iter().zip(by_turns);
    let widths = widths.map(|(width, (ends, last))| of(width, ends, PLAIN, last));
    ends.chain(spacings).chain(widths).collect()
}

/// Every start of those that are damaged elsewhere. What it lacks stands behind its end: nothing may be taken from there.
pub fn starts(trial: &mut Trial, random: &mut Random) {
    for lines in to_damage() {
        let text = lines.text(random);
        for length in 0..=text.len() {
            trial.text(&text[..length], &mut Rooms::Two(random));
        }
    }
}

/// Every byte in place of every character of lines and of their line ends.
pub fn every_byte(trial: &mut Trial, random: &mut Random) {
    let bytes: Vec<u8> = (0..=u8::MAX).collect();
    for &(widths, ends, spacing) in BYTES_IN {
        let lines = Lines {
            ends,
            spacing,
            ..Lines::of(widths, 1, 0)
        };
        let lined = lines.lined(random);
        let places: Vec<usize> = (lined.starts[1]..=lined.starts[widths.len() + 1]).collect();
        for (place, byte) in pairs(&places, &bytes) {
            let mut text = lined.text.clone();
            text[place] = byte;
            trial.text(&text, &mut Rooms::Two(random));
        }
    }
}

/// Runs of white, by themselves and with each telling byte behind them.
pub fn runs(trial: &mut Trial, random: &mut Random) {
    for (((line, column), (unit, ends)), length) in pairs(&pairs(&RUN_PLACES, &RUN_UNITS), &RUN_LENGTHS) {
        let lines = Lines {
            ends,
            ..Lines::of(&[LINE], 0, 2)
        };
        let lined = lines.lined(random);
        let start = lined.starts.get(line).copied().unwrap_or(lined.text.len());
        let (before, after) = lined.text.split_at(start + column);
        let run: Vec<u8> = unit.iter().copied().cycle().take(length).collect();
        trial.text(&[before, &run, after].concat(), &mut Rooms::Two(random));
        for byte in damage::TELLING {
            let text = [before, &run, &[byte], after].concat();
            trial.text(&text, &mut Rooms::Two(random));
        }
    }
}

/// Long texts: whole, with one random edit, and cut anywhere.
pub fn long(trial: &mut Trial, random: &mut Random) {
    for ((length, width), ends) in LONG.into_iter().zip(ENDS.into_iter().cycle()) {
        let lines = Lines {
            ends,
            ..Lines::of(&vec![width; length / width], 1, 1)
        };
        let text = lines.text(random);
        let place = random.below(text.len());
        let edited = damage::one(&text, &[random.below(text.len())], random);
        for text in [&text, &edited, &text[..place]] {
            trial.text(text, &mut Rooms::Two(random));
        }
    }
}
