//! The second implementation against the paper's own samples: the table, its "Also" paragraph, the written sizes, and samples
//! of change requests. What is accepted at a limit takes too long here, and is in `limits.rs`.

use crate::known::{family_of, FAMILIES, KNOWN};
use crate::paper::style::{CR, CRLF, LF, MIXED, NONE};
use crate::paper::{answer, label_part, Answer, Paper, Refusal, GRAMMARS, LAX, STANDARD, STRICT, STYLES};
use crate::samples::{lined_styles, m_labelled, m_with, rows, spare_bits, split_pads, white_styles, M, OTHER_LABELS};

const ROOM: usize = 100;
const TABLE_OF_M: [u32; 7] = [1, 0, 39, 11, 1, 1, 0];
const TABLE_OF_TWO: [u32; 13] = [2, 0, 39, 11, 1, 1, 0, 39, 39, 50, 1, 1, 0];
const UNKNOWN_STYLES: [u32; 4] = [0, 4, 257, u32::MAX];

/// An accepted text whose line ends are LF.
fn read_as(data: &[u8], label: (usize, usize)) -> Answer<u8> {
    Answer {
        style: LF,
        ..accepted(data, label)
    }
}

fn accepted<T: Copy + Default>(result: &[T], label: (usize, usize)) -> Answer<T> {
    let mut lent = result.to_vec();
    lent.resize(ROOM, T::default());
    Answer {
        number: 0,
        place: 0,
        size: result.len(),
        label,
        family: 0,
        style: 0,
        lent,
    }
}

fn refused<T: Copy + Default>(number: u32, place: usize) -> Answer<T> {
    Answer {
        number,
        place,
        size: 0,
        label: (0, 0),
        family: 0,
        style: 0,
        lent: vec![T::default(); ROOM],
    }
}

fn read(text: &[u8], grammar: u32) -> Answer<u8> {
    answer(&Paper::new().judge_read(text, grammar), ROOM)
}

fn index(text: &[u8], grammar: u32) -> Answer<u32> {
    answer(&Paper::new().judge_index(text, grammar), ROOM)
}

fn number_of_write(label: &[u8], data: &[u8]) -> u32 {
    number_of_write_in(LF, label, data, usize::from(u16::MAX))
}

fn number_of_write_in(style: u32, label: &[u8], data: &[u8], room: usize) -> u32 {
    answer(&Paper::new().judge_write(label, data, style), room).number
}

/// The style by what a text has. A bar stands for each CRLF, so that no part of one counts.
fn style_by_search(text: &[u8]) -> u32 {
    let text = String::from_utf8_lossy(text);
    let rest = text.replace("\r\n", "|");
    let kinds = [
        (rest.contains('\n'), LF),
        (text.contains("\r\n"), CRLF),
        (rest.contains('\r'), CR),
    ];
    match kinds.into_iter().filter(|kind| kind.0).collect::<Vec<_>>()[..] {
        [] => NONE,
        [(_, only)] => only,
        _ => MIXED,
    }
}

/// A message in strict LF form.
fn message(label: &[u8], body: &[u8]) -> Vec<u8> {
    [
        b"-----BEGIN ",
        label,
        b"-----\n",
        body,
        b"\n-----END ",
        label,
        b"-----\n",
    ]
    .concat()
}

#[test]
fn every_row_of_the_table_and_of_the_requests() {
    assert_eq!(rows().len(), 15);
    for (text, samples) in rows().into_iter().chain(split_pads()).chain(spare_bits()) {
        let label_offset = 11 + text.iter().take_while(|&&byte| byte == b' ').count();
        let expected = samples.map(|sample| match sample {
            Ok(data) => Answer {
                style: style_by_search(&text),
                ..accepted(data, (label_offset, 1))
            },
            Err((number, place)) => refused(number, place),
        });
        assert_eq!(
            GRAMMARS.map(|grammar| read(&text, grammar)),
            expected,
            "{}",
            text.escape_ascii()
        );
    }
}

#[test]
fn a_first_line_of_65_characters() {
    assert_eq!(read(&message(b"A", &[b'A'; 65]), STRICT), refused(4, 82));
    let full = read(&message(b"A", &[b'A'; 64]), STRICT);
    assert_eq!((full.number, full.size), (0, 48));
}

#[test]
fn labels_of_64_and_65_bytes() {
    for grammar in GRAMMARS {
        assert_eq!(read(&message(&[b'L'; 64], b"Zg=="), grammar), read_as(b"f", (11, 64)));
        assert_eq!(read(&message(&[b'L'; 65], b"Zg=="), grammar), refused(6, 11));
        assert_eq!(index(&message(&[b'L'; 65], b"Zg=="), grammar), refused(6, 11));
    }
    assert_eq!(number_of_write(&[b'L'; 64], b"f"), 0);
    assert_eq!(number_of_write(&[b'L'; 65], b"f"), 11);
}

#[test]
fn texts_of_16_777_216_and_16_777_217_bytes() {
    let text = vec![b'x'; 16_777_217];
    for grammar in GRAMMARS {
        assert_eq!(read(&text[1..], grammar), refused(3, 0));
        assert_eq!(index(&text[1..], grammar), refused(3, 0));
        assert_eq!(read(&text, grammar), refused(2, 0));
        assert_eq!(index(&text, grammar), refused(2, 0));
    }
    assert_eq!(read(&text, 4), refused(1, 0));
}

#[test]
fn data_of_0_1_and_8_388_609_bytes() {
    assert_eq!(number_of_write(b"A", b""), 13);
    assert_eq!(number_of_write(b"A", b"f"), 0);
    assert_eq!(number_of_write(b"A", &vec![7; 8_388_609]), 14);
}

#[test]
fn tables_of_one_and_two_messages() {
    let twice = [M, M].concat();
    for grammar in GRAMMARS {
        assert_eq!(index(M, grammar), accepted(&TABLE_OF_M, (0, 0)));
        assert_eq!(index(&twice, grammar), accepted(&TABLE_OF_TWO, (0, 0)));
    }
    let joined = [&M[..38], M].concat();
    let table = [2, 0, 38, 11, 1, 1, 0, 38, 39, 49, 1, 1, 0];
    assert_eq!(index(&joined, LAX), accepted(&table, (0, 0)));
    assert_eq!(index(&joined, STANDARD), accepted(&table, (0, 0)));
    assert_eq!(index(&joined, STRICT), refused(5, 38));
}

#[test]
fn the_empty_bundle_and_two_spaces() {
    for grammar in GRAMMARS {
        assert_eq!(index(b"", grammar), accepted(&[0], (0, 0)));
        let places = [2, 0, 0];
        assert_eq!(index(b"  ", grammar), refused(3, places[grammar as usize - 1]));
    }
}

#[test]
fn messages_are_judged_from_the_left() {
    let differing = b"-----BEGIN A-----\nZg==\n-----END B-----\n";
    assert_eq!(index(&[differing, b"x".as_slice()].concat(), STRICT), refused(7, 32));
    assert_eq!(index(&[M, differing].concat(), STRICT), refused(7, 71));
    for (grammar, place) in GRAMMARS.into_iter().zip([40, 39, 39]) {
        assert_eq!(index(&[M, b" x"].concat(), grammar), refused(3, place));
        assert_eq!(read(&[M, b" x"].concat(), grammar), refused(5, place));
    }
}

#[test]
fn the_owner_of_white() {
    let text = [b" \t", M, b" \r\n", M, b"\n"].concat();
    let table = [2, 0, 44, 13, 1, 1, 0, 44, 40, 55, 1, 1, 0];
    assert_eq!(index(&text, LAX), accepted(&table, (0, 0)));
}

/// Number 10 with what the result needs, no family and no style, and zeros in all of the room.
fn small<T: Clone + Default>(size: usize, label: (usize, usize), room: usize) -> Answer<T> {
    Answer {
        number: 10,
        place: 0,
        size,
        label,
        family: 0,
        style: 0,
        lent: vec![T::default(); room],
    }
}

#[test]
fn too_little_room() {
    let mut paper = Paper::new();
    let (message, bundle) = (paper.judge_read(M, STRICT), paper.judge_index(&[M, M].concat(), STRICT));
    assert_eq!(answer(&message, 1).lent, b"f");
    assert_eq!(answer(&message, 0), small(1, (11, 1), 0));
    assert_eq!(answer(&bundle, 12), small(13, (0, 0), 12));
    assert_eq!(answer(&paper.judge_write(b"A", b"f", LF), 38), small(39, (0, 0), 38));
    assert_eq!(answer(&paper.judge_write(b"A", b"f", CRLF), 41), small(42, (0, 0), 41));
}

#[test]
fn what_a_label_may_be() {
    let mut paper = Paper::new();
    let labels: [&[u8]; 8] = [b"", b"A", b"A-B", b"A B", b"a-b c-d", b"!", b"~", b"X509 CRL"];
    assert!(labels.iter().all(|label| paper.is_label(label)));
    let others: [&[u8]; 9] = [
        b"-",
        b" ",
        b"A-",
        b"-A",
        b"A--B",
        b"A  B",
        b"A- B",
        b"A\x7f",
        b"A\xc3\xa4",
    ];
    assert!(!others.iter().any(|label| paper.is_label(label)));
}

#[test]
fn the_label_call() {
    let mut paper = Paper::new();
    assert_eq!(label_part(&paper.judge_read(M, STANDARD)), (11, 1));
    assert_eq!(
        label_part(&paper.judge_read(&message(b"A-B c", b"Zg=="), STRICT)),
        (11, 5)
    );
    assert_eq!(
        label_part(&paper.judge_read(b" -----BEGIN ----------END -----", LAX)),
        (12, 0)
    );
    assert_eq!(label_part(&paper.judge_read(b"", LAX)), (0, 0));
    assert_eq!(label_part(&paper.judge_read(M, 0)), (0, 0));
}

#[test]
fn the_written_text_and_its_size() {
    let mut paper = Paper::new();
    assert_eq!(paper.judge_write(b"A", b"f", LF).unwrap().result, M);
    let lengths = [
        (0, 1),
        (1, 47),
        (2, 48),
        (3, 49),
        (64, 96),
        (10, 97),
        (64, 32_767),
        (64, 32_768),
    ];
    for (style, (label, length)) in STYLES
        .into_iter()
        .flat_map(|style| lengths.map(|lengths| (style, lengths)))
    {
        let (label, data) = (vec![b'L'; label], vec![0x5a; length]);
        let text = paper.judge_write(&label, &data, style).unwrap().result;
        let size = 32 + 2 * label.len() + 4 * length.div_ceil(3) + length.div_ceil(48);
        let more = if style == CRLF { length.div_ceil(48) + 2 } else { 0 };
        assert_eq!(text.len(), size + more);
        let back = paper.judge_read(&text, STRICT).unwrap();
        assert_eq!((back.result, back.label, back.style), (data, (11, label.len()), style));
    }
}

#[test]
fn the_written_text_in_each_style() {
    let mut paper = Paper::new();
    for (style, line_end) in STYLES.into_iter().zip(["\n", "\r\n", "\r"]) {
        let lines = ["-----BEGIN A-----", &"Wlpa".repeat(16), "Wg==", "-----END A-----", ""];
        let text = paper.judge_write(b"A", &[0x5a; 49], style).unwrap().result;
        assert_eq!(text, lines.join(line_end).into_bytes());
        let text = paper.judge_write(b"A", &[0x5a; 48], style).unwrap().result;
        assert_eq!(text, [&lines[..2], &lines[3..]].concat().join(line_end).into_bytes());
    }
}

#[test]
fn every_row_on_line_ends() {
    let rows: Vec<_> = lined_styles().into_iter().chain(white_styles()).collect();
    assert_eq!(rows.len(), 10 + 16 * 7);
    let mut paper = Paper::new();
    for (text, styles) in rows {
        let shown = text.escape_ascii();
        let found = GRAMMARS.map(|grammar| paper.judge_read(&text, grammar).ok().map(|found| found.style));
        assert_eq!(found, styles, "{shown}");
        assert_eq!(styles[0], Some(style_by_search(&text)), "{shown}");
    }
}

#[test]
fn no_style_but_of_an_accepted_message() {
    assert_eq!(read(M, STRICT), read_as(b"f", (11, 1)));
    assert_eq!(read(M, 4).style, 0);
    assert_eq!(read(&m_with(b"\nZg=\n"), LAX).style, 0);
    assert_eq!(answer(&Paper::new().judge_read(M, STRICT), 0).style, 0);
    assert_eq!(index(M, STRICT).style, 0);
}

#[test]
fn the_families_of_figure_4_and_of_older_names() {
    let figure_4: [&[u8]; 9] = [
        b"CERTIFICATE",
        b"X509 CRL",
        b"CERTIFICATE REQUEST",
        b"PKCS7",
        b"CMS",
        b"PRIVATE KEY",
        b"ENCRYPTED PRIVATE KEY",
        b"ATTRIBUTE CERTIFICATE",
        b"PUBLIC KEY",
    ];
    assert_eq!(figure_4.map(family_of), [1, 2, 3, 4, 5, 6, 7, 8, 9]);
    assert_eq!(family_of(b"X509 CERTIFICATE"), family_of(b"CERTIFICATE"));
    assert_eq!(family_of(b"X.509 CERTIFICATE"), family_of(b"CERTIFICATE"));
    assert_eq!(family_of(b"NEW CERTIFICATE REQUEST"), family_of(b"CERTIFICATE REQUEST"));
    assert!(OTHER_LABELS.iter().all(|label| family_of(label) == 0));
    assert!(KNOWN.iter().all(|&(_, family)| (1..FAMILIES as u32).contains(&family)));
}

#[test]
fn the_family_is_told_with_room_and_without() {
    let mut paper = Paper::new();
    let others = OTHER_LABELS.map(|label| (label, 0));
    for (label, family) in KNOWN.into_iter().chain(others) {
        let text = m_labelled(label, label);
        for grammar in GRAMMARS {
            let judged = paper.judge_read(&text, grammar);
            assert_eq!([0, 1].map(|room| answer(&judged, room).number), [10, 0]);
            assert_eq!([0, 1].map(|room| answer(&judged, room).family), [family; 2]);
            let table = [1, 0, text.len() as u32, 11, label.len() as u32, 1, family];
            let judged = paper.judge_index(&text, grammar).unwrap();
            assert_eq!((judged.result, judged.family), (table.to_vec(), 0));
        }
    }
}

#[test]
fn labels_of_one_family_differ_by_their_bytes() {
    let text = m_labelled(b"X509 CERTIFICATE", b"CERTIFICATE");
    assert_eq!(
        GRAMMARS.map(|grammar| read(&text, grammar)),
        [(); 3].map(|()| refused(7, 47))
    );
}

#[test]
fn several_families_in_one_bundle() {
    let labels: [&[u8]; 4] = [b"CMS", b"NEW CERTIFICATE REQUEST", b"CRL", b"PUBLIC KEY"];
    let bundle = labels.map(|label| m_labelled(label, label)).concat();
    for grammar in GRAMMARS {
        let table = Paper::new().judge_index(&bundle, grammar).unwrap().result;
        let families: Vec<u32> = table[1..].chunks(6).map(|entry| entry[5]).collect();
        assert_eq!(families, [5, 3, 0, 9]);
    }
}

#[test]
fn the_writers_order_of_checks() {
    assert_eq!(number_of_write(&[b'-'; 65], b""), 11);
    assert_eq!(number_of_write(b"-", b""), 12);
    assert_eq!(number_of_write(b"-", &vec![0; 8_388_609]), 12);
    let refusal = Paper::new().judge_write(b"A", b"", LF).unwrap_err();
    assert_eq!(refusal, Refusal { number: 13, place: 0 });
}

#[test]
fn unknown_styles_come_behind_the_data_and_before_the_room() {
    for style in UNKNOWN_STYLES {
        let number = |label: &[u8], data: &[u8], room| number_of_write_in(style, label, data, room);
        assert_eq!(number(&[b'L'; 65], b"f", ROOM), 11);
        assert_eq!(number(b"-", b"f", ROOM), 12);
        assert_eq!(number(b"A", b"", ROOM), 13);
        assert_eq!(number(b"A", &vec![0; 8_388_609], 0), 14);
        assert_eq!(number(b"A", b"f", 0), 20);
        let judgement = Paper::new().judge_write(b"A", b"f", style);
        assert_eq!(answer(&judgement, ROOM), refused(20, 0));
    }
}

#[test]
fn the_readers_order_of_checks() {
    let labels = |opening: &[u8], closing: &[u8], body: &[u8]| {
        [
            b"-----BEGIN ",
            opening,
            b"-----\n",
            body,
            b"\n-----END ",
            closing,
            b"-----\n",
        ]
        .concat()
    };
    for grammar in GRAMMARS {
        assert_eq!(read(&labels(&[b'L'; 65], b"A", b"Zg=="), grammar), refused(6, 11));
        assert_eq!(read(&labels(b"A", &[b'L'; 65], b"Zh=="), grammar), refused(7, 32));
        // The closing is whole with its fifth hyphen; a sixth has no place, though the label is too long as well.
        assert_eq!(read(&labels(&[b'L'; 65], b"A-", b"Zg=="), grammar), refused(5, 102));
    }
    assert_eq!(read(&labels(b"A", b"", b"Zg="), LAX), refused(7, 31));
    assert_eq!(read(&labels(b"A", b"A", b"Zg==="), LAX), refused(4, 22));
}

#[test]
fn white_and_blanks_of_each_grammar() {
    for byte in 0..=u8::MAX {
        let text = m_with(&[&[byte], b"\nZg==\n".as_slice()].concat());
        let blank = b"\t ".contains(&byte);
        let line_end = b"\r\n".contains(&byte);
        let accepted = GRAMMARS.map(|grammar| read(&text, grammar).number == 0);
        let white = blank || line_end || b"\x0b\x0c".contains(&byte);
        assert_eq!(accepted, [white, blank || line_end, byte == b'\r'], "byte {byte}");
    }
}
