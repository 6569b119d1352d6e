//! The calls of the package against the raw ones, on every start and many damages of a small bundle: the same number, place,
//! size, label, family, line ends and bytes, and no call stops.

use zullifern::raw::{self, Report};
use zullifern::{Grammar, LineEnding, Refusal, WriteRefusal};

const BUNDLE: &[u8] =
    b"-----BEGIN A-----\nZg==\n-----END A-----\n-----BEGIN X509 CRL-----\r\nZm9v\r-----END X509 CRL-----\n";
const MESSAGE: usize = 39;
/// Bytes of each kind that the grammars know, and some that they do not.
const DAMAGES: &[u8] = b"\0\t\n\x0b\x0c\r !+-/09=AEZagz~\x7f\x80\xff";
const ROOMS: [usize; 4] = [0, 1, 7, 40];

/// The text with a byte in place of another, with one more, and without one.
fn damaged(text: &[u8]) -> impl Iterator<Item = Vec<u8>> + '_ {
    let places = (0..text.len()).flat_map(move |at| DAMAGES.iter().map(move |&byte| (at, byte)));
    places.flat_map(move |(at, byte)| {
        [
            [&text[..at], &[byte], &text[at + 1..]].concat(),
            [&text[..at], &[byte], &text[at..]].concat(),
            [&text[..at], &text[at + 1..]].concat(),
        ]
    })
}

fn texts() -> Vec<Vec<u8>> {
    let starts = (0..=BUNDLE.len()).map(|end| BUNDLE[..end].to_vec());
    let long_label = BUNDLE[..MESSAGE]
        .to_vec()
        .iter()
        .map(|&c| if c == b'A' { vec![c; 65] } else { vec![c] })
        .collect::<Vec<_>>();
    let no_label = b"-----BEGIN -----\nZg==\n-----END -----\n".to_vec();
    let others = [long_label.concat(), no_label, vec![b' '; zullifern::TEXT_LIMIT + 1]];
    starts
        .chain(damaged(&BUNDLE[..MESSAGE]))
        .chain(damaged(&BUNDLE[MESSAGE..]))
        .chain([BUNDLE[MESSAGE..].to_vec()])
        .chain(damaged(BUNDLE))
        .chain(others)
        .collect()
}

/// The refusal has the number and the place of the report, or what 10 needs. No style is told, and a family only with a label.
fn same_refusal(refusal: Refusal, report: &Report) {
    assert_eq!(u64::from(refusal.number()), report.number);
    assert_eq!(report.style, 0);
    assert!(report.family == 0 || (report.number == 10 && report.label_length > 0));
    assert_eq!(refusal.place().map_or(0, |place| place.offset as u64), report.place);
    if let Refusal::OutputTooSmall { needed } | Refusal::TableTooSmall { needed } = refusal {
        assert_eq!(needed as u64, report.size);
    }
}

/// What stands before every label.
const BEGIN: usize = "-----BEGIN ".len();

fn try_read(text: &[u8], grammar: Grammar, room: usize) {
    let (mut out, mut plain, mut report) = (vec![0xAA; room], vec![0x55; room], Report::default());
    raw::read(text, grammar.number(), &mut plain, &mut report);
    match zullifern::read(text, grammar, &mut out) {
        Ok(message) => {
            assert_eq!(report.number, 0);
            assert_eq!(message.data, &plain[..report.size as usize]);
            assert_eq!(u64::from(message.style.number()), report.style);
            assert_eq!(u64::from(message.family.number()), report.family);
            assert_eq!(
                (message.label_offset, message.label.len()),
                (report.label_offset as usize, report.label_length as usize)
            );
            assert_eq!(
                message.label.as_bytes(),
                &text[message.label_offset..][..message.label.len()]
            );
        }
        Err(refusal) => same_refusal(refusal, &report),
    }
    assert_eq!(out, plain);
    try_label(text, grammar, matches!(report.number, 0 | 10));
}

/// The label is the text's own part at the offset, which tells an accepted label, even an empty one, from a refusal.
fn try_label(text: &[u8], grammar: Grammar, accepted: bool) {
    let mut report = Report::default();
    assert_eq!(raw::label(text, grammar.number(), &mut report), 0);
    let (offset, length) = (report.label_offset as usize, report.label_length as usize);
    assert!(accepted || (offset, length) == (0, 0));
    assert!(!accepted || offset >= BEGIN);
    let label = zullifern::label(text, grammar);
    assert_eq!((label.as_ptr(), label.len()), (text[offset..].as_ptr(), length));
}

fn try_index(text: &[u8], grammar: Grammar, room: usize) {
    let (mut table, mut plain, mut report) = (vec![7; room], vec![9; room], Report::default());
    raw::index(text, grammar.number(), &mut plain, &mut report);
    match zullifern::index(text, grammar, &mut table) {
        Ok(index) => {
            assert_eq!((report.number, index.table()), (0, &plain[..report.size as usize]));
            assert_eq!(index.iter().count(), plain[0] as usize);
            let families = index.iter().map(|entry| entry.family.number());
            assert!(families.eq(plain[1..].chunks_exact(6).take(index.len()).map(|entry| entry[5])));
            let lengths: usize = index.iter().map(|entry| entry.text.len()).sum();
            assert_eq!(lengths, text.len(), "the messages fill the text");
        }
        Err(refusal) => same_refusal(refusal, &report),
    }
    assert_eq!(table, plain);
}

#[test]
fn read_label_and_index_answer_as_the_raw_calls_do() {
    for text in texts() {
        for grammar in Grammar::ALL {
            for room in ROOMS {
                try_read(&text, grammar, room);
                try_index(&text, grammar, room);
            }
        }
    }
}

fn try_write(label: &[u8], data: &[u8], ending: LineEnding, room: usize) {
    let (mut out, mut plain, mut report) = (vec![0xAA; room], vec![0x55; room], Report::default());
    raw::write(label, data, ending.number(), &mut plain, &mut report);
    match zullifern::write(label, data, ending, &mut out) {
        Ok(text) => assert_eq!((report.number, text.as_bytes()), (0, &plain[..report.size as usize])),
        Err(refusal) => {
            assert_eq!(u64::from(refusal.number()), report.number);
            if let WriteRefusal::OutputTooSmall { needed } = refusal {
                assert_eq!(needed, zullifern::written_size(label.len(), data.len(), ending));
                assert_eq!(needed as u64, report.size);
            }
        }
    }
    assert_eq!(out, plain);
}

#[test]
fn write_answers_as_the_raw_call_does() {
    let pairs = (0..=255).flat_map(|a| DAMAGES.iter().map(move |&b| vec![a, b]));
    let labels = pairs.chain([vec![], vec![b'A'; 64], vec![b'A'; 65]]);
    for label in labels {
        for ending in LineEnding::ALL {
            for size in [0, 1, 2, 3, 48, 49] {
                try_write(&label, &vec![0x5A; size], ending, 60);
            }
            try_write(&label, &[0x5A; 49], ending, 300);
        }
    }
    for label in [vec![], vec![b'A'; 64], vec![b'A'; 65], vec![b'-']] {
        for size in [zullifern::DATA_LIMIT, zullifern::DATA_LIMIT + 1] {
            try_write(&label, &vec![0x5A; size], LineEnding::CrLf, 60);
        }
    }
}

/// What the package leaves to the index: the raw read tells the family where the output is too small as well.
#[test]
fn the_family_is_told_without_room() {
    for (room, number) in [(0, 10), (2, 10), (3, 0)] {
        let (mut out, mut report) = (vec![0xAA; room], Report::default());
        assert_eq!(raw::read(&BUNDLE[MESSAGE..], 3, &mut out, &mut report), number);
        assert_eq!((report.family, report.label_offset, report.label_length), (2, 11, 8));
        raw::label(&BUNDLE[MESSAGE..], 3, &mut report);
        assert_eq!((report.family, report.label_length), (0, 8));
        raw::index(&BUNDLE[MESSAGE..], 3, &mut [0; 7], &mut report);
        assert_eq!((report.number, report.family), (0, 0));
    }
}

/// What no type of the package can ask for: the raw calls answer it, and leave nothing.
#[test]
fn unknown_grammars_and_styles_are_answered() {
    for number in [0, 4, 257, u32::MAX] {
        let (mut out, mut report) = ([0xAA; 60], Report::default());
        assert_eq!(raw::read(&BUNDLE[..MESSAGE], number, &mut out, &mut report), 1);
        assert_eq!((out, report.number, report.size), ([0; 60], 1, 0));
        let mut out = [0xAA; 60];
        assert_eq!(raw::write(b"A", b"f", number, &mut out, &mut report), 20);
        assert_eq!((out, report.number, report.size), ([0; 60], 20, 0));
        assert_eq!(raw::write(b"A", b"f", number, &mut [], &mut report), 20);
        assert_eq!(raw::write(b"A", b"", number, &mut [], &mut report), 13);
    }
}
