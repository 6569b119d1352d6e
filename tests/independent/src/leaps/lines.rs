//! Makers of messages in lines: of widths around what may be taken at once, with every line end, and with what may stand
//! around the characters of a line.

use crate::bits;
use crate::paper::{BEGIN, END, HYPHENS};
use crate::random::Random;

/// Widths around a group and around blocks of 16 and of 64 characters, by themselves and side by side, and those that other
/// writers use.
pub const WIDTHS: [usize; 33] = [
    1, 3, 4, 5, 15, 16, 17, 31, 32, 33, 47, 48, 49, 60, 61, 62, 63, 64, 65, 66, 67, 68, 72, 76, 79, 80, 81, 127, 128,
    129, 191, 192, 193,
];
pub const LF: Ends = &[b"\n"];
pub const CRLF: Ends = &[b"\r\n"];
pub const CR: Ends = &[b"\r"];
pub const ENDS: [Ends; 7] = [
    LF,
    CRLF,
    CR,
    &[b"\n", b"\r\n"],
    &[b"\r", b"\n"],
    &[b"\r\n", b"\r", b"\n"],
    &[b"\n", b"\n", b"\r"],
];
/// What may stand behind one line in place of its line end. The last is none.
pub const ODD_ENDS: [&[u8]; 8] = [b"\n", b"\r\n", b"\r", b"\r\r\n", b"\n\r", b"\r\n\r", b" \r", b"\x0b"];
/// Behind so many characters of a line stands what stands within it.
const WITHIN: usize = 16;
const GROUP: usize = 4;

/// The line ends of a message, by turns.
pub type Ends = &'static [&'static [u8]];

/// What stands around the characters of each line, and how many empty lines there are.
#[derive(Clone, Copy)]
pub struct Spacing {
    before: &'static [u8],
    within: &'static [u8],
    /// Before the line end, of the boundaries too.
    behind: &'static [u8],
    /// Empty lines behind the opening, behind each line of characters, and behind the last of them.
    leading: usize,
    between: usize,
    trailing: usize,
}

pub const PLAIN: Spacing = Spacing {
    before: b"",
    within: b"",
    behind: b"",
    leading: 0,
    between: 0,
    trailing: 0,
};
pub const BLANK_WITHIN: Spacing = Spacing { within: b" ", ..PLAIN };
/// Each has one thing that the plain one has not.
pub const SPACINGS: [Spacing; 12] = [
    Spacing { behind: b" ", ..PLAIN },
    Spacing {
        behind: b"\t  \t",
        ..PLAIN
    },
    Spacing {
        behind: b"\x0b",
        ..PLAIN
    },
    Spacing {
        behind: b"\x0c",
        ..PLAIN
    },
    Spacing { before: b" ", ..PLAIN },
    Spacing {
        before: b"\x0b\t",
        ..PLAIN
    },
    BLANK_WITHIN,
    Spacing {
        within: b"\x0c\t",
        ..PLAIN
    },
    Spacing { leading: 1, ..PLAIN },
    Spacing { leading: 3, ..PLAIN },
    Spacing { between: 1, ..PLAIN },
    Spacing { trailing: 1, ..PLAIN },
];

/// A message of full lines and a last one.
#[derive(Clone)]
pub struct Lines {
    pub label: Vec<u8>,
    /// The characters of each line but the last.
    pub widths: Vec<usize>,
    /// The characters and pads of the last line; if there are none, neither is the line.
    pub last: (usize, usize),
    /// Whether the bits that are left over are any, and not zeros.
    pub spare: bool,
    pub ends: Ends,
    /// A line, the opening being the first, that has a line end of its own.
    pub odd: Option<(usize, &'static [u8])>,
    pub spacing: Spacing,
}

/// A text, and where its lines start, those of the boundaries among them.
pub struct Lined {
    pub text: Vec<u8>,
    pub starts: Vec<usize>,
}

/// A last line of so many whole groups, and one with pads if there are any, behind so many characters. If these are no whole
/// groups, it makes up for that.
fn fitting(before: usize, groups: usize, pads: usize) -> (usize, usize) {
    let whole = (before + GROUP * groups).next_multiple_of(GROUP);
    let characters = whole + (GROUP - pads) % GROUP - before;
    (characters, pads)
}

impl Lines {
    /// Lines of these widths, which fit with a last one of so many groups and pads.
    pub fn of(widths: &[usize], groups: usize, pads: usize) -> Lines {
        Lines {
            label: b"A".to_vec(),
            widths: widths.to_vec(),
            last: fitting(widths.iter().sum(), groups, pads),
            spare: false,
            ends: LF,
            odd: None,
            spacing: PLAIN,
        }
    }

    /// The same with so many characters more on the last line.
    pub fn longer(mut self, more: usize) -> Lines {
        self.last.0 += more;
        self
    }

    /// The message with random characters.
    pub fn lined(&self, random: &mut Random) -> Lined {
        let mut lined = Lined {
            text: Vec::new(),
            starts: Vec::new(),
        };
        self.add_boundary(&mut lined, BEGIN);
        self.add_empty(&mut lined, self.spacing.leading);
        let characters = self.characters(random);
        let mut rest = characters.as_slice();
        for &width in self.widths.iter().chain([&usize::MAX]) {
            let (line, behind) = rest.split_at(width.min(rest.len()));
            rest = behind;
            if !line.is_empty() {
                self.add_line(&mut lined, line);
            }
        }
        self.add_empty(&mut lined, self.spacing.trailing);
        self.add_boundary(&mut lined, END);
        lined
    }

    pub fn text(&self, random: &mut Random) -> Vec<u8> {
        self.lined(random).text
    }

    /// The characters of all lines, and the pads behind them.
    fn characters(&self, random: &mut Random) -> Vec<u8> {
        let (last, pads) = self.last;
        let count = self.widths.iter().sum::<usize>() + last;
        let mut characters: Vec<u8> = (0..count).map(|_| bits::character(random.byte() % 64)).collect();
        if let (Some(character), false) = (characters.last_mut(), self.spare) {
            let zeros = 1 << (2 * pads);
            *character = bits::character(random.byte() % (64 / zeros) * zeros);
        }
        characters.resize(count + pads, bits::PAD);
        characters
    }

    fn add_boundary(&self, lined: &mut Lined, word: &[u8]) {
        lined.starts.push(lined.text.len());
        lined.text.extend([word, &self.label, HYPHENS].concat());
        self.add_end(lined);
    }

    fn add_line(&self, lined: &mut Lined, characters: &[u8]) {
        lined.starts.push(lined.text.len());
        let (first, rest) = characters.split_at(WITHIN.min(characters.len()));
        let Spacing { before, within, .. } = self.spacing;
        lined.text.extend([before, first, within, rest].concat());
        self.add_end(lined);
        self.add_empty(lined, self.spacing.between);
    }

    fn add_empty(&self, lined: &mut Lined, count: usize) {
        for _ in 0..count {
            lined.starts.push(lined.text.len());
            self.add_end(lined);
        }
    }

    fn add_end(&self, lined: &mut Lined) {
        let line = lined.starts.len() - 1;
        let end = match self.odd {
            Some((odd, end)) if odd == line => end,
            _ => self.ends[line % self.ends.len()],
        };
        lined.text.extend_from_slice(self.spacing.behind);
        lined.text.extend_from_slice(end);
    }
}

#[cfg(test)]
mod tests {
    use super::*;
    use crate::paper::{Paper, GRAMMARS, LAX, LINE, STANDARD};

    /// The lines of a text with LF line ends.
    fn lengths(lines: &Lines) -> Vec<usize> {
        let text = lines.text(&mut Random::new(1));
        text.split(|&byte| byte == b'\n').map(<[u8]>::len).collect()
    }

    #[test]
    fn lines_are_as_wide_as_asked() {
        assert_eq!(lengths(&Lines::of(&[64, 3], 2, 1)), [17, 64, 3, 13, 15, 0]);
        assert_eq!(lengths(&Lines::of(&[64], 0, 0)), [17, 64, 15, 0]);
        assert_eq!(lengths(&Lines::of(&[], 0, 2).longer(3)), [17, 7, 15, 0]);
    }

    #[test]
    fn counts_fit_with_each_width() {
        let mut paper = Paper::new();
        for (width, pads) in WIDTHS.into_iter().flat_map(|width| [0, 1, 2].map(|pads| (width, pads))) {
            let text = Lines::of(&[width; 3], 1, pads).text(&mut Random::new(1));
            let accepted = GRAMMARS.map(|grammar| paper.judge_read(&text, grammar).is_ok());
            assert_eq!(accepted, [true, true, width == LINE], "width {width}, {pads} pads");
        }
    }

    #[test]
    fn starts_are_those_of_the_lines() {
        let lines = Lines {
            ends: CRLF,
            spacing: Spacing { leading: 1, ..PLAIN },
            ..Lines::of(&[5], 1, 0)
        };
        let lined = lines.lined(&mut Random::new(1));
        assert_eq!(lined.starts, [0, 19, 21, 28, 37]);
        assert!(lined.text[37..].starts_with(END));
    }

    #[test]
    fn one_line_may_have_a_line_end_of_its_own() {
        let ended = |line| {
            let lines = Lines {
                odd: Some((line, b"\r\n")),
                ..Lines::of(&[], 1, 0)
            };
            let text = lines.text(&mut Random::new(1));
            text.split(|&byte| byte == b'\n').map(<[u8]>::len).collect::<Vec<_>>()
        };
        assert_eq!(
            [0, 1, 2, 3].map(ended),
            [[18, 4, 15, 0], [17, 5, 15, 0], [17, 4, 16, 0], [17, 4, 15, 0]]
        );
    }

    #[test]
    fn each_spacing_is_lax() {
        let mut paper = Paper::new();
        let judged = SPACINGS.map(|spacing| {
            let lines = Lines {
                spacing,
                ..Lines::of(&[LINE], 0, 0)
            };
            let text = lines.text(&mut Random::new(1));
            [LAX, STANDARD].map(|grammar| paper.judge_read(&text, grammar).is_ok())
        });
        assert!(judged.iter().all(|&[lax, _]| lax));
        assert_eq!(judged.iter().filter(|&&[_, standard]| standard).count(), 7);
    }
}
