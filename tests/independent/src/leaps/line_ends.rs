//! Line ends where a leap over lines begins, goes on or ends: one that is unlike the others, all mixtures, and few in a message
//! that has no others. One that is forgotten, or counted as another, changes the style there.

use super::lines::{Lines, ENDS, ODD_ENDS};
use super::pairs;
use crate::paper::LINE;
use crate::random::Random;
use crate::texts::{mixtures, LINE_ENDS, LONG_TEXT};
use crate::trial::{Rooms, Trial};

/// So many of the choices of line ends, the first ones, are of one kind.
const ONE_KIND: usize = 3;
const WIDTHS: [usize; 4] = [4, 16, LINE, 76];
/// How many full lines, and the groups and pads of the last one.
const FULL: [usize; 9] = [0, 1, 2, 3, 4, 5, 8, 9, 17];
const LASTS: [(usize, usize); 2] = [(0, 0), (3, 1)];
/// The boundaries, whose line ends count too.
const BOUNDARIES: usize = 2;
/// The full lines of the texts whose line ends are mixed in all ways.
const MIXED: usize = 4;
/// The characters of a message on one line: some blocks of 64 and a rest.
const ON_ONE_LINE: usize = 180;
/// What is put into it.
const PUT_IN: [&[u8]; 10] = [
    b"\n",
    b"\r",
    b"\r\n",
    b"\n\n",
    b"\r\r",
    b"\n\r",
    b"\r\r\n",
    b"\r\n\r",
    b"\r\n\r\n",
    b"\x0b",
];

/// Behind each line in turn, those of the boundaries among them, a line end that is unlike the others.
pub fn odd(trial: &mut Trial, random: &mut Random) {
    for ((width, full), (groups, pads)) in pairs(&pairs(&WIDTHS, &FULL), &LASTS) {
        let plain = Lines::of(&vec![width; full], groups, pads);
        let lines = plain.lined(random).starts.len();
        for ((ends, end), line) in pairs(&pairs(&ENDS[..ONE_KIND], &ODD_ENDS), &Vec::from_iter(0..lines)) {
            let lines = Lines {
                ends,
                odd: Some((line, end)),
                ..plain.clone()
            };
            trial.text(&lines.text(random), &mut Rooms::Two(random));
        }
    }
}

/// All mixtures of line ends, with a last line and without one.
pub fn mixed(trial: &mut Trial, random: &mut Random) {
    for (width, (groups, pads)) in pairs(&[LINE, LINE + 1], &LASTS) {
        let text = Lines::of(&[width; MIXED], groups, pads).text(random);
        for text in mixtures(&text, &LINE_ENDS) {
            trial.text(&text, &mut Rooms::Two(random));
        }
    }
}

/// Into a message without line ends, at each place, some that are then its only ones.
pub fn alone(trial: &mut Trial, random: &mut Random) {
    let mut text = Lines::of(&[ON_ONE_LINE], 0, 2).text(random);
    text.retain(|byte| *byte != b'\n');
    for (place, put_in) in pairs(&Vec::from_iter(0..=text.len()), &PUT_IN) {
        let (before, after) = text.split_at(place);
        let text = [before, put_in, after].concat();
        trial.text(&text, &mut Rooms::Two(random));
    }
}

/// Long texts of one kind, and with an odd line end first, at a random place and last.
pub fn long(trial: &mut Trial, random: &mut Random) {
    let full = LONG_TEXT / LINE;
    for (ends, end) in pairs(&ENDS[..ONE_KIND], &LINE_ENDS) {
        let last = BOUNDARIES + full;
        for line in [0, random.between(1, last - 1), last] {
            let lines = Lines {
                ends,
                odd: Some((line, end)),
                ..Lines::of(&vec![LINE; full], 1, 0)
            };
            trial.text(&lines.text(random), &mut Rooms::Two(random));
        }
    }
}
