//! Random messages in lines, alone or joined, damaged at the edges of their lines or sound.

use super::damage;
use super::lines::{Lined, Lines, ENDS, ODD_ENDS, PLAIN, SPACINGS, WIDTHS};
use crate::paper::LINE;
use crate::random::Random;
use crate::texts::label;

const MOST_LINES: usize = 7;
const MOST_GROUPS: usize = 17;
const MOST_MESSAGES: usize = 4;
const MOST_EDITS: usize = 3;

/// A text of one message or some, after no edit to some.
pub fn text(random: &mut Random) -> Vec<u8> {
    let most = random.pick(&[1, MOST_MESSAGES]);
    let count = random.between(1, most);
    let lined = joined(count, random);
    let places: Vec<usize> = damage::places(&lined.starts, lined.text.len()).into_iter().collect();
    let edits = random.below(MOST_EDITS + 1);
    (0..edits).fold(lined.text, |text, _| damage::one(&text, &places, random))
}

fn joined(count: usize, random: &mut Random) -> Lined {
    let mut all = Lined {
        text: Vec::new(),
        starts: Vec::new(),
    };
    for _ in 0..count {
        let next = lines(random).lined(random);
        let end = all.text.len();
        all.starts.extend(next.starts.iter().map(|start| end + start));
        all.text.extend(next.text);
    }
    all
}

fn lines(random: &mut Random) -> Lines {
    let widths = widths(random);
    let (groups, pads) = (random.below(MOST_GROUPS), random.below(3));
    let more = if random.one_in(8) { random.below(3) } else { 0 };
    Lines {
        label: label(random),
        spare: random.one_in(8),
        ends: random.pick(&ENDS),
        odd: odd(random),
        spacing: if random.one_in(3) {
            random.pick(&SPACINGS)
        } else {
            PLAIN
        },
        ..Lines::of(&widths, groups, pads).longer(more)
    }
}

/// One text in some has a line with a line end of its own, if it has so many lines.
fn odd(random: &mut Random) -> Option<(usize, &'static [u8])> {
    let (line, end) = (random.below(MOST_LINES + 2), random.pick(&ODD_ENDS));
    random.one_in(4).then_some((line, end))
}

/// Half of them strict, the others all alike or each of its own.
fn widths(random: &mut Random) -> Vec<usize> {
    let count = random.below(MOST_LINES);
    match random.below(4) {
        0 => (0..count).map(|_| random.pick(&WIDTHS)).collect(),
        1 => vec![random.pick(&WIDTHS); count],
        _ => vec![LINE; count],
    }
}
