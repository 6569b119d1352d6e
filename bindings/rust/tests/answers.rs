//! Every answer of the four calls, as the package gives it, and the text that a person reads.

use zullifern::{Family, Grammar, LineEnding, LineStyle, Place, Refusal, WriteRefusal};

const M: &str = "-----BEGIN A-----\nZg==\n-----END A-----\n";

fn read_refusal(text: &str, grammar: Grammar) -> Refusal {
    let mut out = [0xAA; 8];
    let refusal = zullifern::read(text.as_bytes(), grammar, &mut out).unwrap_err();
    assert_eq!(out, [0; 8], "nothing is left in the output after {refusal}");
    refusal
}

fn index_refusal(text: &str, grammar: Grammar) -> Refusal {
    let mut table = [0xAAAAAAAA; 8];
    let refusal = zullifern::index(text.as_bytes(), grammar, &mut table).unwrap_err();
    assert_eq!(table, [0; 8], "nothing is left in the table after {refusal}");
    refusal
}

fn write_refusal(label: &str, data: &[u8]) -> WriteRefusal {
    let mut out = [0xAA; 8];
    let refusal = zullifern::write(label, data, LineEnding::Lf, &mut out).unwrap_err();
    assert_eq!(out, [0; 8], "nothing is left in the output after {refusal}");
    refusal
}

fn place(offset: usize, line: usize, column: usize, at_end: bool) -> Place {
    Place {
        offset,
        line,
        column,
        at_end,
    }
}

#[rustfmt::skip]
fn refusals_of_read() -> Vec<(String, Grammar, Refusal, &'static str)> {
    let long = "A".repeat(65);
    vec![
        ("-".repeat(16_777_217), Grammar::Lax, Refusal::TextTooLong { length: 16_777_217 },
         "the text has 16777217 bytes; at most 16777216 are read"),
        (M.replace("BEGIN", "begin"), Grammar::Lax, Refusal::Opening { place: place(5, 1, 6, false) },
         "the text goes wrong in the opening boundary, at line 1, column 6 (offset 5)"),
        (String::new(), Grammar::Strict, Refusal::Opening { place: place(0, 1, 1, true) },
         "the text ends too early in the opening boundary, at line 1, column 1 (offset 0)"),
        (M.replace("Zg==", "Zm 9v"), Grammar::Standard, Refusal::Body { place: place(21, 2, 4, false) },
         "the text goes wrong between the boundaries, at line 2, column 4 (offset 21)"),
        (M.replace("-----\nZg", "------\nZg"), Grammar::Lax, Refusal::Closing { place: place(18, 1, 19, false) },
         "the text goes wrong in the closing boundary or behind it, at line 1, column 19 (offset 18)"),
        (M[..38].to_string(), Grammar::Strict, Refusal::Closing { place: place(38, 3, 16, true) },
         "the text ends too early in the closing boundary or behind it, at line 3, column 16 (offset 38)"),
        (M.replace('A', &long), Grammar::Lax, Refusal::LabelTooLong { place: place(11, 1, 12, false) },
         "the label at line 1, column 12 (offset 11) is longer than 64 bytes"),
        (M.replace("END A", "END B"), Grammar::Lax, Refusal::LabelsDiffer { place: place(32, 3, 10, false) },
         "the closing label at line 3, column 10 (offset 32) differs from the opening label"),
        (M.replace("Zg==", "Zg="), Grammar::Lax, Refusal::CountsDoNotFit { place: place(22, 3, 1, false) },
         "the base64 characters and pads before line 3, column 1 (offset 22) are no whole number of bytes"),
        (M.replace("Zg==", "Zh=="), Grammar::Strict, Refusal::SpareBits { place: place(19, 2, 2, false) },
         "the last base64 character, at line 2, column 2 (offset 19), has spare bits that are not zero, which standard and strict refuse"),
        (M.replace("Zg==", "Zm9\n="), Grammar::Standard, Refusal::SpareBits { place: place(20, 2, 3, false) },
         "the last base64 character, at line 2, column 3 (offset 20), has spare bits that are not zero, which standard and strict refuse"),
        (M.replace("Zg==", "Zm9vYmFyYmF6"), Grammar::Strict, Refusal::OutputTooSmall { needed: 9 },
         "the lent output is too small: the data need 9 bytes"),
    ]
}

#[test]
fn each_refusal_of_read_has_its_number_place_and_text() {
    let rows = refusals_of_read();
    for (text, grammar, refusal, words) in &rows {
        let found = read_refusal(text, *grammar);
        assert_eq!((found, found.to_string().as_str()), (*refusal, *words));
    }
    let numbers: Vec<u32> = rows.iter().map(|row| row.2.number()).collect();
    assert_eq!(numbers, [2, 3, 3, 4, 5, 5, 6, 7, 8, 9, 9, 10]);
}

#[test]
fn places_are_those_of_the_refusals_that_have_one() {
    assert_eq!(read_refusal("x", Grammar::Lax).place(), Some(place(0, 1, 1, false)));
    assert_eq!(Refusal::OutputTooSmall { needed: 9 }.place(), None);
    assert_eq!(Refusal::TextTooLong { length: 16_777_217 }.place(), None);
}

#[test]
fn index_counts_places_in_the_whole_bundle() {
    let second = format!("{M}{}", M.replace("Zg==", "Zg="));
    assert_eq!(
        index_refusal(&second, Grammar::Lax),
        Refusal::CountsDoNotFit {
            place: place(61, 6, 1, false)
        }
    );
    assert_eq!(
        index_refusal("  ", Grammar::Lax),
        Refusal::Opening {
            place: place(2, 1, 3, true)
        }
    );
    let found = index_refusal(&M.repeat(2), Grammar::Strict);
    assert_eq!(found, Refusal::TableTooSmall { needed: 13 });
    assert_eq!(found.number(), 10);
    assert_eq!(
        found.to_string(),
        "the lent table is too small: the index needs 13 numbers"
    );
}

#[test]
fn index_judges_messages_from_the_left_and_its_room_last() {
    let differ = M.replace("END A", "END B");
    let counts = M.replace("Zg==", "Zg=");
    for (bundle, number, offset) in [
        (format!("{M}{counts}"), 8, 61),
        (format!("{M}x"), 3, 39),
        (format!("{differ}{counts}"), 7, 32),
        (format!("{differ}x"), 7, 32),
        (format!("{counts}{differ}"), 8, 22),
    ] {
        for room in [0, 1, 7, 13] {
            let refusal = zullifern::index(bundle.as_bytes(), Grammar::Lax, &mut vec![7; room]).unwrap_err();
            let place = refusal.place().map(|place| place.offset);
            assert_eq!((refusal.number(), place), (number, Some(offset)));
        }
    }
    // Read as one message, a byte behind the first comes before what is wrong with it.
    assert_eq!(read_refusal(&format!("{differ}x"), Grammar::Lax).number(), 5);
}

#[test]
fn lines_end_with_lf_cr_or_crlf() {
    for (text, line, column) in [
        ("a\nb", 2, 2),
        ("a\rb", 2, 2),
        ("a\r\nb", 2, 2),
        ("a\n\rb", 3, 2),
        ("a\r\r\nb", 3, 2),
    ] {
        assert_eq!(
            Place::new(text.as_bytes(), text.len()),
            place(text.len(), line, column, true)
        );
    }
    assert_eq!(
        Place::new(b"a\r\nb", 2),
        place(2, 1, 3, false),
        "between CR and LF it is still the first line"
    );
    assert_eq!(Place::new(b"ab", 9), place(2, 1, 3, true));
}

#[test]
fn each_refusal_of_write_has_its_number_and_text() {
    let long = "A".repeat(65);
    let rows = [
        (
            write_refusal(&long, b"f"),
            11,
            "the label has 65 bytes; at most 64 are written",
        ),
        (
            write_refusal("-", b"f"),
            12,
            "this is no label: it may have printable ASCII characters, and one hyphen or one space between two others",
        ),
        (write_refusal("A", b""), 13, "there are no data to write"),
        (
            write_refusal("A", &vec![0; 8_388_609]),
            14,
            "the data have 8388609 bytes; at most 8388608 are written",
        ),
        (
            write_refusal("A", b"f"),
            10,
            "the lent output is too small: the text needs 39 bytes",
        ),
    ];
    for (refusal, number, words) in rows {
        assert_eq!((refusal.number(), refusal.to_string().as_str()), (number, words));
    }
}

#[test]
fn index_lists_messages_in_order() {
    let text = format!("{M}{}", M.replace('A', "RSA PRIVATE KEY").replace("Zg==", "Zm9v"));
    let mut table = [7; 20];
    let index = zullifern::index(text.as_bytes(), Grammar::Strict, &mut table).unwrap();
    let entries: Vec<_> = index.iter().collect();
    assert_eq!((index.len(), index.iter().len(), index.is_empty()), (2, 2, false));
    assert_eq!(entries[0].text, M.as_bytes());
    assert_eq!(
        (entries[1].start, entries[1].label, entries[1].label_offset),
        (39, "RSA PRIVATE KEY", 50)
    );
    assert_eq!((entries[1].text.len(), entries[1].data_size), (text.len() - 39, 3));
    assert_eq!(index.get(2), None);
    assert_eq!(index.table(), [2, 0, 39, 11, 1, 1, 0, 39, 67, 50, 15, 3, 0]);
    assert_eq!(table[13..], [0; 7]);
}

#[test]
fn the_empty_text_is_an_empty_bundle() {
    let mut table = [7; 1];
    assert!(zullifern::index(b"", Grammar::Lax, &mut table).unwrap().is_empty());
    assert_eq!(
        zullifern::index(b"", Grammar::Lax, &mut []),
        Err(Refusal::TableTooSmall { needed: 1 })
    );
}

#[test]
fn an_empty_label_and_an_empty_output_are_answers_too() {
    let text = b"-----BEGIN ----------END -----";
    let message = zullifern::read(text, Grammar::Lax, &mut []).unwrap();
    assert_eq!((message.label, message.label_offset, message.data), ("", 11, &b""[..]));
    assert_eq!(message.style, LineStyle::NoLineEnd);
    assert_eq!(zullifern::label(text, Grammar::Lax), "");
}

#[test]
fn the_label_is_the_opening_part_of_the_text() {
    for before in ["", " \n"] {
        let text = format!("{before}{M}").into_bytes();
        let opening = &text[before.len() + 11..][..1];
        let label = zullifern::label(&text, Grammar::Lax);
        assert_eq!((label, label.as_ptr()), ("A", opening.as_ptr()));
        let mut out = [0; 1];
        let message = zullifern::read(&text, Grammar::Lax, &mut out).unwrap();
        assert_eq!(message.label.as_ptr(), opening.as_ptr());
    }
}

#[test]
fn the_second_pad_may_stand_on_the_next_line() {
    for line_end in ["\n", "\r\n", "\r", " \t\n"] {
        let text = M.replace("Zg==", &format!("Zg={line_end}="));
        for grammar in [Grammar::Lax, Grammar::Standard] {
            assert_eq!(
                zullifern::read(text.as_bytes(), grammar, &mut [0; 1]).unwrap().data,
                b"f"
            );
        }
        let refusal = Refusal::Body {
            place: place(21, 2, 4, false),
        };
        assert_eq!(read_refusal(&text, Grammar::Strict), refusal);
    }
    let blank_before = Refusal::Body {
        place: place(22, 3, 1, false),
    };
    assert_eq!(
        read_refusal(&M.replace("Zg==", "Zg=\n ="), Grammar::Standard),
        blank_before
    );
}

#[test]
fn spare_bits_are_dropped_by_lax_alone() {
    let bodies: [(&str, &[u8]); 4] = [("Zh==", b"f"), ("Zh\n=\n=", b"f"), ("Zm9=", b"fo"), ("Zm9\r\n=", b"fo")];
    for (body, data) in bodies {
        let text = M.replace("Zg==", body);
        let mut out = [0; 2];
        assert_eq!(
            zullifern::read(text.as_bytes(), Grammar::Lax, &mut out).unwrap().data,
            data
        );
        let refusal = Refusal::SpareBits {
            place: place(18 + data.len(), 2, 1 + data.len(), false),
        };
        assert_eq!(read_refusal(&text, Grammar::Standard), refusal);
        assert_eq!(index_refusal(&text, Grammar::Standard), refusal);
    }
}

/// M with these line ends, in their order.
fn with_ends(ends: [&str; 3]) -> String {
    let lines = M.lines().zip(ends);
    lines.map(|(line, end)| format!("{line}{end}")).collect()
}

fn style_of(text: &str, grammar: Grammar) -> LineStyle {
    zullifern::read(text.as_bytes(), grammar, &mut [0; 3]).unwrap().style
}

#[test]
fn read_tells_which_line_ends_there_are() {
    for grammar in Grammar::ALL {
        for ending in LineEnding::ALL {
            let text = with_ends([ending.as_str(); 3]);
            assert_eq!(style_of(&text, grammar), LineStyle::Only(ending));
        }
        for ends in [["\n", "\n", "\r\n"], ["\r", "\n", "\n"], ["\r\n", "\r", "\r\n"]] {
            assert_eq!(style_of(&with_ends(ends), grammar), LineStyle::Mixed);
        }
    }
}

#[test]
fn under_lax_all_line_ends_count_and_other_white_does_not() {
    let (lf, crlf, cr) = (LineEnding::Lf, LineEnding::CrLf, LineEnding::Cr);
    let places = [
        "*-----BEGIN A-----Zm9v-----END A-----",
        "-----BEGIN A-----Zm*9v-----END A-----",
        "-----BEGIN A-----Zm9v-----END A-----*",
    ];
    let styles = [
        (" \t\x0b\x0c", LineStyle::NoLineEnd),
        ("\x0b\n\x0c\n", LineStyle::Only(lf)),
        ("\r\n \r\n", LineStyle::Only(crlf)),
        ("\r\r \r", LineStyle::Only(cr)),
        ("\n\r", LineStyle::Mixed),
        ("\r\r\n", LineStyle::Mixed),
        ("\r\n\r", LineStyle::Mixed),
    ];
    for (place, (white, style)) in places.iter().flat_map(|place| styles.map(|style| (place, style))) {
        assert_eq!(style_of(&place.replace('*', white), Grammar::Lax), style);
    }
}

#[test]
fn what_is_written_has_the_line_ends_asked_for() {
    for (ending, length) in LineEnding::ALL
        .into_iter()
        .flat_map(|ending| [1, 48, 49].map(|length| (ending, length)))
    {
        let (data, mut out, mut back) = ([0x5A; 49], [0xAA; 200], [0; 49]);
        let text = zullifern::write("A", &data[..length], ending, &mut out).unwrap();
        assert_eq!(text.len(), zullifern::written_size(1, length, ending));
        assert_eq!(text.split(ending.as_str()).count(), 4 + length / 49);
        let message = zullifern::read(text.as_bytes(), Grammar::Strict, &mut back).unwrap();
        assert_eq!(
            (message.data, message.style),
            (&data[..length], LineStyle::Only(ending))
        );
    }
}

/// Labels of each family: the one of RFC 7468, and the older ones.
const FAMILIES: [(&str, Family); 12] = [
    ("CERTIFICATE", Family::Certificate),
    ("X509 CRL", Family::X509Crl),
    ("CERTIFICATE REQUEST", Family::CertificateRequest),
    ("PKCS7", Family::Pkcs7),
    ("CMS", Family::Cms),
    ("PRIVATE KEY", Family::PrivateKey),
    ("ENCRYPTED PRIVATE KEY", Family::EncryptedPrivateKey),
    ("ATTRIBUTE CERTIFICATE", Family::AttributeCertificate),
    ("PUBLIC KEY", Family::PublicKey),
    ("X509 CERTIFICATE", Family::Certificate),
    ("X.509 CERTIFICATE", Family::Certificate),
    ("NEW CERTIFICATE REQUEST", Family::CertificateRequest),
];

/// Labels that are no known one, though some look like it.
const OTHER_LABELS: [&str; 12] = [
    "",
    "A",
    "CRL",
    "CERTIFICATE CHAIN",
    "TRUSTED CERTIFICATE",
    "RSA PRIVATE KEY",
    "certificate",
    "Certificate",
    "CERTIFICATES",
    "CERTIFICAT",
    "X509-CRL",
    "NEW X509 CERTIFICATE",
];

fn labelled(label: &str) -> String {
    M.replace('A', label)
}

#[test]
fn read_and_index_tell_the_family() {
    let others = OTHER_LABELS.map(|label| (label, Family::Other));
    let rows = [FAMILIES, others].concat();
    for &(label, family) in &rows {
        let text = labelled(label);
        for grammar in Grammar::ALL {
            let mut out = [0; 1];
            let message = zullifern::read(text.as_bytes(), grammar, &mut out).unwrap();
            assert_eq!((message.label, message.family), (label, family));
        }
    }
    let bundle: String = rows.iter().map(|(label, _)| labelled(label)).collect();
    let mut table = vec![7; zullifern::table_size(rows.len())];
    let index = zullifern::index(bundle.as_bytes(), Grammar::Strict, &mut table).unwrap();
    let found: Vec<_> = index.iter().map(|entry| (entry.label, entry.family)).collect();
    assert_eq!(found, rows);
}

#[test]
fn labels_of_one_family_differ_nevertheless() {
    let text = labelled("CERTIFICATE").replace("BEGIN CERT", "BEGIN X509 CERT");
    let differ = Refusal::LabelsDiffer {
        place: place(47, 3, 10, false),
    };
    assert_eq!(read_refusal(&text, Grammar::Strict), differ);
}

#[test]
fn families_have_numbers_names_and_labels() {
    for (number, family) in (0..).zip(Family::ALL) {
        assert_eq!(family.number(), number);
        assert_eq!(Family::try_from(number), Ok(family));
    }
    for (label, family) in &FAMILIES[..9] {
        assert_eq!((family.label(), family.to_string().as_str()), (Some(*label), *label));
    }
    assert_eq!((Family::Other.label(), Family::Other.name()), (None, "other"));
    let unknown = Family::try_from(10).unwrap_err();
    assert_eq!(
        unknown.to_string(),
        "unknown family of labels: it is other (0) or one of figure 4 in RFC 7468 (1 to 9)"
    );
    assert!(Family::try_from(257).is_err() && Family::try_from(u32::MAX).is_err());
}

#[cfg(feature = "alloc")]
#[test]
fn a_message_of_its_own_has_the_family_too() {
    for (label, family) in FAMILIES {
        let message = zullifern::owned::read(labelled(label).as_bytes(), Grammar::Lax).unwrap();
        assert_eq!((message.label.as_str(), message.family), (label, family));
    }
}

#[test]
fn line_ends_have_numbers_and_names() {
    for ending in LineEnding::ALL {
        assert_eq!(LineEnding::try_from(ending.number()), Ok(ending));
        assert_eq!(ending.to_string().parse(), Ok(ending));
        assert_eq!(LineStyle::from(ending).ending(), Some(ending));
        assert_eq!(LineStyle::from(ending).number(), ending.number());
    }
    let unknown = "lf".parse::<LineEnding>().unwrap_err();
    assert_eq!(
        unknown.to_string(),
        "unknown line end: it is LF (1), CRLF (2) or CR (3)"
    );
    assert!([0, 4, 257, u32::MAX]
        .into_iter()
        .all(|number| LineEnding::try_from(number).is_err()));
}

#[test]
fn styles_have_numbers_and_names() {
    for (number, style) in (0..).zip(LineStyle::ALL) {
        assert_eq!(style.number(), number);
        assert_eq!(LineStyle::try_from(number), Ok(style));
    }
    assert_eq!(
        LineStyle::ALL.map(LineStyle::name),
        ["none", "LF", "CRLF", "CR", "mixed"]
    );
    assert_eq!(LineStyle::Mixed.to_string(), "mixed");
    assert_eq!((LineStyle::NoLineEnd.ending(), LineStyle::Mixed.ending()), (None, None));
    let unknown = LineStyle::try_from(5).unwrap_err();
    assert_eq!(
        unknown.to_string(),
        "unknown style of line ends: it is none (0), LF (1), CRLF (2), CR (3) or mixed (4)"
    );
}

#[test]
fn grammars_have_numbers_and_names() {
    for grammar in Grammar::ALL {
        assert_eq!(Grammar::try_from(grammar.number()), Ok(grammar));
        assert_eq!(grammar.to_string().parse(), Ok(grammar));
    }
    let unknown = "Strict".parse::<Grammar>().unwrap_err();
    assert_eq!(
        unknown.to_string(),
        "unknown grammar: it is lax (1), standard (2) or strict (3)"
    );
    assert!(Grammar::try_from(0).is_err() && Grammar::try_from(257).is_err());
}

/// Each message in the style in which it was read.
#[cfg(feature = "alloc")]
fn written_again(messages: &[zullifern::owned::Message]) -> String {
    let written = |message: &zullifern::owned::Message| {
        let ending = message.style.ending().unwrap();
        zullifern::owned::write(&message.label, &message.data, ending).unwrap()
    };
    messages.iter().map(written).collect()
}

#[cfg(feature = "alloc")]
#[test]
fn strict_texts_are_restored_each_in_its_own_style() {
    let chain = include_str!("../../../examples/chain.pem");
    for ending in LineEnding::ALL {
        let chain = chain.replace('\n', ending.as_str()) + M;
        let messages = zullifern::owned::read_bundle(chain.as_bytes(), Grammar::Strict).unwrap();
        assert_eq!(written_again(&messages), chain);
    }
}

#[cfg(feature = "alloc")]
#[test]
fn a_chain_of_certificates_is_read_whole_and_written_again() {
    let chain = include_str!("../../../examples/chain.pem");
    let messages = zullifern::owned::read_bundle(chain.as_bytes(), Grammar::Strict).unwrap();
    assert_eq!(
        messages.iter().map(|message| message.data.len()).collect::<Vec<_>>(),
        [536, 468, 464]
    );
    assert!(messages.iter().all(|message| message.style == LineEnding::Lf.into()));
    assert!(messages.iter().all(|message| message.family == Family::Certificate));
    assert_eq!(written_again(&messages), chain);
    let torn = &chain.as_bytes()[..chain.len() - 1];
    assert_eq!(
        zullifern::owned::read_bundle(torn, Grammar::Strict)
            .unwrap_err()
            .number(),
        5
    );
}
