//! The cases that are the same in every run: samples, long texts, and small spaces of inputs in full.

use crate::bits;
use crate::lists::Joined;
use crate::paper::{BEGIN, END, HYPHENS, LABEL_LIMIT, LINE, STYLES};
use crate::random::Random;
use crate::samples::{lined_styles, m_with, rows, spare_bits, split_pads, spread, white_styles, M};
use crate::texts::{ended, label_of, long_message, mixtures, stretched, LONG_DATA, LONG_TEXT, UNKNOWN_NUMBERS};
use crate::trial::{Rooms, Trial};

const LINE_ENDS: [&[u8]; 4] = [b"", b"\n", b"\r", b"\r\n"];
pub const SMALLEST_MESSAGE: &[u8] = b"-----BEGIN ----------END -----";
const DATA_LENGTHS: [usize; 10] = [0, 1, 2, 3, 47, 48, 49, LONG_DATA - 1, LONG_DATA, LONG_DATA + 1];

/// Texts whose line ends are tried in all mixtures.
const LINES: [&str; 9] = [
    "-----BEGIN A-----\nZg==\n-----END A-----\n",
    "-----BEGIN A-----\n\n-----END A-----\n",
    "-----BEGIN A-----\n\n\n-----END A-----\n",
    "-----BEGIN A-----\n\nZm9v\nZg==\n-----END A-----\n",
    "-----BEGIN A----- \n\t\nZg \n==\t\n-----END A-----\t\n",
    "\n-----BEGIN A-----\nZg=\n=\n-----END A-----\n\n",
    "-----BEGIN A-----\nZg==\n-----END A-----\n-----BEGIN B-----\nZm9v\n-----END B-----\n",
    "-----BEGIN A-----\n\n-----END A-----\n-----BEGIN -----\n\n-----END -----\n",
    "-----BEGIN A-----\nAAAAAAAAAAAAAAAAAAAAAAAAAAAAAAAAAAAAAAAAAAAAAAAAAAAAAAAAAAAAAAAA\nZg==\n-----END A-----\n",
];

pub fn run(trial: &mut Trial, random: &mut Random) {
    samples(trial);
    line_end_samples(trial);
    bytes_everywhere(trial, random);
    mixed_line_ends(trial, random);
    small_bodies(trial, random);
    small_ends(trial, random);
    last_characters(trial, random);
    small_tails(trial, random);
    small_white(trial, random);
    small_lists(trial);
    small_labels(trial, random);
    label_lengths(trial, random);
    text_lengths(trial);
    data_lengths(trial, random);
}

/// The paper's rows, bundles of them, and every start of a bundle: with all rooms.
fn samples(trial: &mut Trial) {
    let rows = rows().into_iter().chain(split_pads()).chain(spare_bits());
    let rows: Vec<Vec<u8>> = rows.map(|(text, _)| text).collect();
    let pairs = rows
        .iter()
        .flat_map(|first| rows.iter().map(|second| [first.as_slice(), second].concat()));
    let twice = [M, M].concat();
    let starts = (0..twice.len()).map(|length| twice[..length].to_vec());
    let long_line = m_with(&[b"\n".as_slice(), &[b'A'; 65], b"\n"].concat());
    for text in rows
        .iter()
        .cloned()
        .chain(pairs)
        .chain(starts)
        .chain([b"  ".to_vec(), long_line])
    {
        trial.text(&text, &mut Rooms::All);
        unknown_grammars(trial, &text);
    }
}

fn unknown_grammars(trial: &mut Trial, text: &[u8]) {
    for grammar in UNKNOWN_NUMBERS {
        trial.text_under(text, grammar, &mut Rooms::Edges);
    }
}

/// The rows on line ends, alone, and without their last byte, which may be the LF of a CRLF and still stands behind the end.
fn line_end_samples(trial: &mut Trial) {
    for (text, _) in lined_styles().into_iter().chain(white_styles()) {
        trial.text(&text, &mut Rooms::All);
        trial.text(&text[..text.len() - 1], &mut Rooms::All);
    }
}

/// Every byte in place of every byte of M, and between any two.
fn bytes_everywhere(trial: &mut Trial, random: &mut Random) {
    let edits = (0..=M.len()).flat_map(|place| (0..=u8::MAX).map(move |byte| (place, byte)));
    for (place, byte) in edits {
        let (before, after) = M.split_at(place);
        trial.text(&[before, &[byte], after].concat(), &mut Rooms::Two(random));
        let rest = after.get(1..).unwrap_or_default();
        trial.text(&[before, &[byte], rest].concat(), &mut Rooms::Two(random));
    }
}

/// All words of these letters, up to some length; each letter is a byte string.
fn words<'a>(letters: &'a [&'a [u8]], length: usize) -> Vec<Vec<u8>> {
    let longer = |words: &[Vec<u8>]| -> Vec<Vec<u8>> {
        words
            .iter()
            .flat_map(|word| letters.iter().map(|letter| [word.as_slice(), letter].concat()))
            .collect()
    };
    let lengths = std::iter::successors(Some(vec![Vec::new()]), |words| Some(longer(words)));
    lengths.take(length + 1).flatten().collect()
}

/// Each line end of a text as LF, CR, CRLF or none, in all mixtures.
fn mixed_line_ends(trial: &mut Trial, random: &mut Random) {
    for text in LINES.iter().flat_map(|lines| mixtures(lines.as_bytes(), &LINE_ENDS)) {
        trial.text(&text, &mut Rooms::Two(random));
    }
}

/// All that may stand behind the characters of a body, up to some length. Their spare bits are zero, or are not.
fn small_ends(trial: &mut Trial, random: &mut Random) {
    for end in words(&[b"=", b" ", b"\n", b"\r", b"A"], 6) {
        for characters in [b"\nZg".as_slice(), b"\nZh", b"\nZm9"] {
            trial.text(&m_with(&[characters, &end].concat()), &mut Rooms::Two(random));
        }
    }
}

/// Each alphabet character as the last of one to five, with no pad, one or two, on its line or below.
fn last_characters(trial: &mut Trial, random: &mut Random) {
    let ends: [&[u8]; 7] = [b"\n", b"=\n", b"\n=\n", b"==\n", b"=\n=\n", b"\n==\n", b"\n=\n=\n"];
    for before in words(&[b"Z"], 4) {
        for (last, end) in (0..64).flat_map(|value| ends.map(|end| (bits::character(value), end))) {
            let body = [b"\n", before.as_slice(), &[last], end].concat();
            trial.text(&m_with(&body), &mut Rooms::Two(random));
        }
    }
}

/// All short bodies between two boundaries.
fn small_bodies(trial: &mut Trial, random: &mut Random) {
    for body in words(&[b"A", b"=", b" ", b"\n", b"\r", b"-"], 5) {
        trial.text(&m_with(&body), &mut Rooms::Two(random));
    }
}

/// All short tails of M without its LF, alone and with M behind them.
fn small_tails(trial: &mut Trial, random: &mut Random) {
    for tail in words(&[b" ", b"\n", b"\r", b"\x0b", b"-", b"A"], 4) {
        let text = [&M[..M.len() - 1], &tail].concat();
        trial.text(&text, &mut Rooms::Two(random));
        trial.text(&[&text, M].concat(), &mut Rooms::Two(random));
    }
}

/// All short white, at each place where lax takes it, in a message that has no line ends beside it.
fn small_white(trial: &mut Trial, random: &mut Random) {
    for white in words(&[b"\r", b"\n", b"\x0b", b" "], 5) {
        for text in spread(&white) {
            trial.text(&text, &mut Rooms::Two(random));
        }
    }
}

/// All short lists of small items, each in each style: their texts joined are a bundle with that list.
fn small_lists(trial: &mut Trial) {
    let items: [(&[u8], &[u8]); 4] = [(b"", b"f"), (b"CMS", b"f"), (b"CMS", b"fo"), (b"X509 CRL", b"foo")];
    // A letter is the number of an item and that of its style.
    let letters: Vec<[u8; 2]> = (0..items.len() as u8)
        .flat_map(|item| STYLES.map(|style| [item, style as u8]))
        .collect();
    let letters: Vec<&[u8]> = letters.iter().map(<[u8; 2]>::as_slice).collect();
    for list in words(&letters, 3) {
        let mut joined = Joined::default();
        for letter in list.chunks(2) {
            let (label, data) = items[usize::from(letter[0])];
            let written = trial.write(label, data, u32::from(letter[1]), &mut Rooms::Exact);
            joined.add(label, data, &written.expect("the writer takes it"));
        }
        joined.index(trial);
    }
}

/// Writes in each style, and in what is none.
fn write_in_each(trial: &mut Trial, label: &[u8], data: &[u8], rooms: &mut Rooms) {
    for style in STYLES.into_iter().chain(UNKNOWN_NUMBERS) {
        trial.write(label, data, style, rooms);
    }
}

/// All short labels, and what is none, to the writer and in both boundaries.
fn small_labels(trial: &mut Trial, random: &mut Random) {
    for label in words(&[b"A", b"-", b" ", b"\x7f"], 4) {
        write_in_each(trial, &label, b"f", &mut Rooms::Edges);
        trial.write(&label, b"f", random.pick(&STYLES), &mut Rooms::All);
        trial.text(&labelled(&label, &label), &mut Rooms::Two(random));
        trial.text(&labelled(&label, b"A"), &mut Rooms::Two(random));
    }
}

fn labelled(opening: &[u8], closing: &[u8]) -> Vec<u8> {
    [BEGIN, opening, HYPHENS, b"\nZg==\n", END, closing, HYPHENS, b"\n"].concat()
}

/// Labels around the limit, alike or not, also in the second message of a bundle.
fn label_lengths(trial: &mut Trial, random: &mut Random) {
    let near = [LABEL_LIMIT - 1, LABEL_LIMIT, LABEL_LIMIT + 1];
    for (opening, closing) in near
        .into_iter()
        .flat_map(|opening| near.map(|closing| (opening, closing)))
    {
        let label = label_of(opening, random);
        let other = label_of(closing, random);
        write_in_each(trial, &label, b"f", &mut Rooms::Edges);
        in_bundles(trial, &labelled(&label, &label));
        in_bundles(trial, &labelled(&label, &other));
    }
}

/// A message alone, behind another, and before what is none.
fn in_bundles(trial: &mut Trial, message: &[u8]) {
    for text in [message.to_vec(), [M, message].concat(), [message, b"x"].concat()] {
        trial.text(&text, &mut Rooms::Edges);
    }
}

/// Long texts: one message, many, and bytes that no message has.
fn text_lengths(trial: &mut Trial) {
    let lengths = LONG_TEXT - 1..=LONG_TEXT + 1;
    for (length, text) in lengths.flat_map(|length| long_texts(length).into_iter().map(move |text| (length, text))) {
        assert_eq!(text.len(), length);
        trial.text(&text, &mut Rooms::Edges);
        trial.text_under(&text, 0, &mut Rooms::Edges);
    }
}

fn long_texts(length: usize) -> Vec<Vec<u8>> {
    let spaced = |text: &[u8]| [text, &vec![b' '; length - text.len()]].concat();
    let many = |text: &[u8]| text.repeat(length / text.len());
    let one = long_message(b"CERTIFICATE", length);
    // With a byte more for each line it still fits.
    let shorter = long_message(b"CERTIFICATE", length - length / LINE);
    let line_ends = vec![b'\n'; length - m_with(b"").len()];
    vec![
        stretched(&one, length),
        spaced(&ended(&shorter, b"\r\n")),
        spaced(&ended(&one, b"\r")),
        spaced(&one),
        spaced(&one[..one.len() - 1]),
        stretched(&many(M), length),
        spaced(&many(M)),
        spaced(&many(SMALLEST_MESSAGE)),
        stretched(&many(&labelled(b"", b"")), length),
        m_with(&line_ends),
        vec![b' '; length],
        vec![b'-'; length],
        vec![0; length],
        [b"-----BEGIN ".as_slice(), &vec![b'A'; length - 11]].concat(),
    ]
}

/// Data around the ends of groups and lines, and long ones, with labels around their limit.
fn data_lengths(trial: &mut Trial, random: &mut Random) {
    let labels = [0, 1, LABEL_LIMIT - 1, LABEL_LIMIT, LABEL_LIMIT + 1].map(|length| label_of(length, random));
    let labels = labels.into_iter().chain([b"-A".to_vec()]);
    let cases = labels.flat_map(|label| DATA_LENGTHS.map(|length| (label.clone(), length)));
    for (label, length) in cases {
        let data = random.bytes(length);
        let small = length <= DATA_LENGTHS[6];
        write_in_each(trial, &label, &data, &mut if small { Rooms::All } else { Rooms::Edges });
    }
}
