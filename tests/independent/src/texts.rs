//! Makers of random inputs: valid texts of each grammar, odd ones, damaged ones, and soups.

use crate::bits;
use crate::known::KNOWN;
use crate::paper::{BEGIN, END, GRAMMARS, HYPHENS, LABEL_LIMIT, LAX, LINE, STANDARD, STYLES};
use crate::random::Random;

/// A length around which many texts are tried, as long as a program's own buffer may be. At the limit each try takes long.
pub const LONG_TEXT: usize = 65_536;
/// The same for data to be written.
pub const LONG_DATA: usize = 32_768;
/// The character of which long messages are made.
pub const FILLER: u8 = b'Q';
/// Numbers of no grammar, and of no style that the writer takes.
pub const UNKNOWN_NUMBERS: [u32; 8] = [0, 4, 5, 255, 257, 0x0001_0002, 0x8000_0003, u32::MAX];
/// One style in this many is such a number.
const UNKNOWN_STYLE: usize = 5;

/// Labels that are in no family.
const LABELS: [&[u8]; 8] = [
    b"A",
    b"CRL",
    b"CERTIFICATE CHAIN",
    b"EC PRIVATE KEY",
    b"A-B",
    b"pkcs7",
    b"a-b c-D",
    b"!-~",
];
/// Bytes that mean something somewhere, or stand just beside one that does.
const TELLING: &[u8] = b"-- \t\n\r\x0b\x0c==AZaz09+/@[`{.:,!~BbEe\x00\x08\x0e\x1f\x7f\x80\xff";
pub const LINE_ENDS: [&[u8]; 3] = [b"\n", b"\r", b"\r\n"];
/// White that is no line end.
const OTHER_WHITE: [&[u8]; 4] = [b" ", b"\t", b"\x0b", b"\x0c"];
const PIECES: [&[u8]; 34] = [
    b"-----BEGIN ",
    b"-----END ",
    b"-----",
    b"-----BEGIN A-----",
    b"-----END A-----",
    b"-----BEGIN -----",
    b"-----END -----",
    b"-----END A-----\n",
    b"BEGIN ",
    b"END",
    b"begin",
    b"-",
    b"--",
    b"----",
    b"A",
    b"A-B",
    b"X Y",
    b"=",
    b"==",
    b"===",
    b"= =",
    b"\n",
    b"\r",
    b"\r\n",
    b"\n\n",
    b" ",
    b"\t",
    b"\x0b",
    b"\x0c",
    b"Zg",
    b"Zg==",
    b"Zm9v",
    b"/+8=",
    b"AAAAAAAAAAAAAAAAAAAAAAAAAAAAAAAAAAAAAAAAAAAAAAAAAAAAAAAAAAAAAAAA",
];

/// The line ends of one message: all of one kind, or mixed.
struct LineEnds(usize);

impl LineEnds {
    fn new(r: &mut Random) -> LineEnds {
        LineEnds(r.below(LINE_ENDS.len() + 1))
    }

    fn next(&self, r: &mut Random) -> &'static [u8] {
        match LINE_ENDS.get(self.0) {
            Some(line_end) => line_end,
            None => r.pick(&LINE_ENDS),
        }
    }
}

/// The white of one lax message: with line ends of one kind, mixed, or none.
struct White(Option<LineEnds>);

impl White {
    fn new(r: &mut Random) -> White {
        let with_ends = !r.one_in(6);
        White(with_ends.then(|| LineEnds::new(r)))
    }

    fn next(&self, r: &mut Random) -> &'static [u8] {
        match &self.0 {
            Some(ends) if r.below(7) < 3 => ends.next(r),
            _ => r.pick(&OTHER_WHITE),
        }
    }

    /// None of it, or some.
    fn run(&self, r: &mut Random) -> Vec<u8> {
        let count = if r.one_in(2) { r.between(1, 3) } else { 0 };
        (0..count).flat_map(|_| self.next(r)).copied().collect()
    }
}

/// A number that no grammar and no style has.
pub fn unknown_number(r: &mut Random) -> u32 {
    let number = r.number() as u32;
    if r.one_in(2) || (1..=3).contains(&number) {
        r.pick(&UNKNOWN_NUMBERS)
    } else {
        number
    }
}

/// The number of a style, now and then an unknown one.
pub fn style(r: &mut Random) -> u32 {
    if r.one_in(UNKNOWN_STYLE) {
        unknown_number(r)
    } else {
        r.pick(&STYLES)
    }
}

/// What a message is made of.
pub struct Content {
    opening_label: Vec<u8>,
    closing_label: Vec<u8>,
    characters: Vec<u8>,
    pads: usize,
}

/// A valid label, often a known one or nearly that, now and then one near the limit or over it.
pub fn label(r: &mut Random) -> Vec<u8> {
    match r.below(12) {
        0 => Vec::new(),
        1 => label_of(r.between(LABEL_LIMIT - 1, LABEL_LIMIT + 1), r),
        2..=4 => known(r).to_vec(),
        5 | 6 => near_known(r),
        7 | 8 => r.pick(&LABELS).to_vec(),
        _ => label_of(r.between(1, 20), r),
    }
}

/// A label that has a family.
fn known(r: &mut Random) -> &'static [u8] {
    r.pick(&KNOWN).0
}

/// A valid label that differs little from a known one, or begins or ends with it.
fn near_known(r: &mut Random) -> Vec<u8> {
    let name = known(r);
    let rest = LABEL_LIMIT - name.len();
    match r.below(8) {
        0 | 1 => with_one_changed(name, r),
        2 => without_separators(&name[..r.below(name.len())]),
        3 => without_separators(&name[r.between(1, name.len() - 1)..]),
        4 => lengthened(name, r),
        5 => name.to_ascii_lowercase(),
        6 => [name, &label_of(rest, r)].concat(),
        _ => [&label_of(rest, r), name].concat(),
    }
}

/// The same with another character in place of one, or with its case changed, or with another separator.
fn with_one_changed(name: &[u8], r: &mut Random) -> Vec<u8> {
    let mut label = name.to_vec();
    let byte = &mut label[r.below(name.len())];
    *byte = match *byte {
        b' ' => r.pick(b"-_"),
        letter if letter.is_ascii_alphabetic() && r.one_in(2) => letter ^ 0x20,
        _ => label_character(r),
    };
    label
}

/// The same with a character or a known label before it or behind it, with a separator between them or none.
fn lengthened(name: &[u8], r: &mut Random) -> Vec<u8> {
    let more = if r.one_in(4) {
        known(r).to_vec()
    } else {
        vec![label_character(r)]
    };
    let between: &[u8] = r.pick(&[b"".as_slice(), b" ", b"-"]);
    if r.one_in(2) {
        [&more, between, name].concat()
    } else {
        [name, between, &more].concat()
    }
}

/// What was cut may have a space at its end.
fn without_separators(label: &[u8]) -> Vec<u8> {
    label.trim_ascii().to_vec()
}

/// A valid label of this length.
pub fn label_of(length: usize, r: &mut Random) -> Vec<u8> {
    let mut label: Vec<u8> = Vec::with_capacity(length);
    for place in 0..length {
        let may_separate = place > 0 && place + 1 < length && !b"- ".contains(&label[place - 1]);
        let byte = if may_separate && r.one_in(4) {
            r.pick(b"- ")
        } else {
            label_character(r)
        };
        label.push(byte);
    }
    label
}

fn label_character(r: &mut Random) -> u8 {
    let byte = r.between(33, 126) as u8;
    if byte == b'-' {
        b'X'
    } else {
        byte
    }
}

/// A label or what is nearly one.
pub fn near_label(r: &mut Random) -> Vec<u8> {
    let label = label(r);
    if r.one_in(3) {
        damaged(&label, r)
    } else {
        label
    }
}

/// How many characters: mostly few, often around a line, now and then some lines.
fn character_count(r: &mut Random) -> usize {
    match r.below(8) {
        0 => 0,
        1..=4 => r.between(1, 12),
        5 | 6 => r.between(LINE - 4, LINE + 4),
        _ => r.between(1, 4 * LINE),
    }
}

/// Content that mostly fits; sometimes counts, spare bits or labels are wrong.
pub fn content(r: &mut Random) -> Content {
    let mut count = character_count(r);
    count += usize::from(count % 4 == 1);
    let mut pads = (4 - count % 4) % 4;
    if r.one_in(12) {
        count += r.below(3);
        pads = r.below(3);
    }
    let mut characters: Vec<u8> = (0..count).map(|_| bits::character(r.below(64) as u8)).collect();
    if let (Some(last), false) = (characters.last_mut(), r.one_in(8)) {
        let zeros = 1 << (2 * pads);
        *last = bits::character((r.below(64 / zeros) * zeros) as u8);
    }
    let opening_label = label(r);
    let closing_label = closing_label(&opening_label, r);
    Content {
        opening_label,
        closing_label,
        characters,
        pads,
    }
}

fn closing_label(opening: &[u8], r: &mut Random) -> Vec<u8> {
    match r.below(30) {
        0 => label(r),
        1 => opening.to_ascii_lowercase(),
        2 => [opening, b"A"].concat(),
        3 => known(r).to_vec(),
        _ => opening.to_vec(),
    }
}

/// A message that the grammar takes, if its content fits.
pub fn message(grammar: u32, r: &mut Random) -> Vec<u8> {
    let content = content(r);
    match grammar {
        LAX => lax(&content, r),
        STANDARD => standard(&content, r),
        _ => strict(&content, r),
    }
}

fn strict(content: &Content, r: &mut Random) -> Vec<u8> {
    let ends = LineEnds::new(r);
    let mut body = content.characters.clone();
    body.resize(body.len() + content.pads, bits::PAD);
    let mut text = [BEGIN, &content.opening_label, HYPHENS, ends.next(r)].concat();
    for line in body.chunks(LINE) {
        text.extend_from_slice(line);
        text.extend_from_slice(ends.next(r));
    }
    text.extend([END, &content.closing_label, HYPHENS, ends.next(r)].concat());
    text
}

fn standard(content: &Content, r: &mut Random) -> Vec<u8> {
    let ends = LineEnds::new(r);
    let mut text = [BEGIN, &content.opening_label, HYPHENS, &blanks(r), ends.next(r)].concat();
    if r.one_in(4) {
        text.extend([&blanks(r), ends.next(r), &blanks(r)].concat());
    }
    for line in standard_lines(content, r) {
        text.extend([&line, blanks(r).as_slice(), ends.next(r)].concat());
    }
    text.extend([END, &content.closing_label, HYPHENS, &blanks(r)].concat());
    if !r.one_in(4) {
        text.extend_from_slice(ends.next(r));
    }
    text
}

/// The body in lines of any length, with the pads on the last one, on one of their own, or the second pad so.
fn standard_lines(content: &Content, r: &mut Random) -> Vec<Vec<u8>> {
    let width = r.pick(&[1, 4, 5, 60, LINE, LINE, LINE, 65, 76, 200]);
    let mut lines: Vec<Vec<u8>> = content.characters.chunks(width).map(<[u8]>::to_vec).collect();
    if lines.is_empty() || r.one_in(6) {
        lines.push(Vec::new());
    }
    let split = content.pads == 2 && r.one_in(4);
    let pads = vec![bits::PAD; content.pads - usize::from(split)];
    lines.last_mut().expect("a final line").extend(pads);
    if split {
        lines.push(vec![bits::PAD]);
    }
    lines
}

fn lax(content: &Content, r: &mut Random) -> Vec<u8> {
    let sparse = r.pick(&[2, 10, LINE, 1000]);
    let white = White::new(r);
    let mut body = content.characters.clone();
    body.resize(body.len() + content.pads, bits::PAD);
    let mut text = [&white.run(r), BEGIN, &content.opening_label, HYPHENS, &white.run(r)].concat();
    for byte in body {
        text.push(byte);
        if r.one_in(sparse) {
            text.extend(white.run(r));
        }
    }
    text.extend([&white.run(r), END, &content.closing_label, HYPHENS, &white.run(r)].concat());
    text
}

fn blanks(r: &mut Random) -> Vec<u8> {
    let count = if r.one_in(5) { r.between(1, 3) } else { 0 };
    (0..count).map(|_| r.pick(b" \t")).collect()
}

/// A text after one to three edits.
pub fn damaged(text: &[u8], r: &mut Random) -> Vec<u8> {
    let edits = r.between(1, 3);
    (0..edits).fold(text.to_vec(), |text, _| edited(&text, r))
}

fn edited(text: &[u8], r: &mut Random) -> Vec<u8> {
    let at = r.below(text.len() + 1);
    let (before, after) = text.split_at(at);
    let rest = after.get(1..).unwrap_or_default();
    match r.below(7) {
        0 | 1 => [before, &[telling(r)], rest].concat(),
        2 => [before, &[telling(r)], after].concat(),
        3 => [before, rest].concat(),
        4 => before.to_vec(),
        5 => swapped(text, at, r),
        _ => duplicated(text, at, r),
    }
}

fn telling(r: &mut Random) -> u8 {
    if r.one_in(4) {
        r.byte()
    } else {
        r.pick(TELLING)
    }
}

/// Two neighbouring parts in the other order.
fn swapped(text: &[u8], at: usize, r: &mut Random) -> Vec<u8> {
    let (before, after) = text.split_at(at);
    let (first, rest) = after.split_at(r.below(after.len().min(12) + 1));
    let (second, rest) = rest.split_at(r.below(rest.len().min(12) + 1));
    [before, second, first, rest].concat()
}

fn duplicated(text: &[u8], at: usize, r: &mut Random) -> Vec<u8> {
    let (before, after) = text.split_at(at);
    let part = &after[..r.below(after.len().min(40) + 1)];
    [before, part, after].concat()
}

/// Pieces in any order, often behind an opening or between two boundaries, which they would seldom make by themselves.
pub fn soup(r: &mut Random) -> Vec<u8> {
    let count = r.between(0, 12);
    let pieces: Vec<u8> = (0..count).flat_map(|_| r.pick(&PIECES)).copied().collect();
    match r.below(4) {
        0 => pieces,
        1 => [b"-----BEGIN A-----", pieces.as_slice()].concat(),
        2 => [b"-----BEGIN A-----\n", pieces.as_slice(), b"\n-----END A-----\n"].concat(),
        _ => [b"-----BEGIN A-----\nZg==\n-----END A-----", pieces.as_slice()].concat(),
    }
}

/// No message to six, of one grammar or mixed.
pub fn bundle(r: &mut Random) -> Vec<u8> {
    let of_one = r.pick(&GRAMMARS);
    let mixed = r.one_in(4);
    let count = r.below(7);
    let grammars = (0..count)
        .map(|_| if mixed { r.pick(&GRAMMARS) } else { of_one })
        .collect::<Vec<u32>>();
    grammars.into_iter().flat_map(|grammar| message(grammar, r)).collect()
}

/// A strict LF message of as many full lines as the length has room for.
pub fn long_message(label: &[u8], length: usize) -> Vec<u8> {
    let ends = [BEGIN, label, HYPHENS, b"\n", END, label, HYPHENS, b"\n"];
    let line = [&[FILLER; LINE], b"\n".as_slice()].concat();
    let lines = (length - ends.concat().len()) / line.len();
    [&ends[..4].concat(), line.repeat(lines).as_slice(), &ends[4..].concat()].concat()
}

/// A text with LF line ends with others in their place, in all mixtures.
pub fn mixtures(text: &[u8], line_ends: &[&[u8]]) -> Vec<Vec<u8>> {
    let mut lines = text.split(|&byte| byte == b'\n');
    let first = lines.next().unwrap_or_default().to_vec();
    lines.fold(vec![first], |texts, line| {
        let with_line = |text: &Vec<u8>| -> Vec<Vec<u8>> {
            let ended = line_ends.iter().map(|line_end| [text, *line_end, line].concat());
            ended.collect()
        };
        texts.iter().flat_map(with_line).collect()
    })
}

/// The same text with this line end in place of each LF.
pub fn ended(text: &[u8], line_end: &[u8]) -> Vec<u8> {
    let lines: Vec<&[u8]> = text.split(|&byte| byte == b'\n').collect();
    lines.join(line_end)
}

/// The same text made longer, up to this length, by the line ends: the first of them become CRLF.
pub fn stretched(text: &[u8], length: usize) -> Vec<u8> {
    let mut more = length - text.len();
    let mut result = Vec::with_capacity(length);
    for &byte in text {
        if byte == b'\n' && more > 0 {
            result.push(b'\r');
            more -= 1;
        }
        result.push(byte);
    }
    result
}

#[cfg(test)]
mod tests {
    use super::*;
    use crate::known::family_of;
    use crate::paper::Paper;

    #[test]
    fn labels_are_valid_and_known_ones_are_among_them() {
        let (mut paper, mut random) = (Paper::new(), Random::new(1));
        let labels: Vec<Vec<u8>> = (0..20_000).map(|_| label(&mut random)).collect();
        assert!(labels.iter().all(|label| paper.is_label(label)));
        assert!(KNOWN.iter().all(|(name, _)| labels.iter().any(|label| label == name)));
        let near: Vec<Vec<u8>> = (0..1_000).map(|_| near_known(&mut random)).collect();
        // Some that were cut are known by another name.
        assert!(near.iter().filter(|label| family_of(label) == 0).count() > 900);
    }

    #[test]
    fn line_ends_in_all_mixtures() {
        let texts = mixtures(b"a\nb\n", &[b"", b"\r\n"]);
        assert_eq!(texts, [b"ab".as_slice(), b"ab\r\n", b"a\r\nb", b"a\r\nb\r\n"]);
        assert_eq!(ended(b"a\nb\n", b"\r"), b"a\rb\r");
    }
}
