//! The fixed cases on families: each known label, all that differs little from one, several in one bundle, and texts that are
//! refused though their label is known.

use crate::known::KNOWN;
use crate::paper::{number, BEGIN, END, GRAMMARS, HYPHENS, LABEL_LIMIT, LAX, STRICT, STYLES, TEXT_LIMIT};
use crate::random::Random;
use crate::samples::{m_labelled, OTHER_LABELS};
use crate::trial::{Judged, Rooms, Trial};
use std::collections::BTreeSet;

const NO_GRAMMAR: u32 = 0;
const LAYOUTS: usize = 7;
/// What is put before a label and behind it, and in place of its separators.
const MORE: [&[u8]; 9] = [b"A", b" ", b"-", b" A", b"A ", b"-A", b"A-", b".", b"\0"];
const SEPARATORS: [&[u8]; 5] = [b"", b"-", b"_", b"  ", b"\t"];

pub fn run(trial: &mut Trial, random: &mut Random) {
    let labels: Vec<&[u8]> = KNOWN.map(|(name, _)| name).into_iter().chain(OTHER_LABELS).collect();
    for label in &labels {
        alone(label, trial);
        pairs(label, &labels, trial, random);
    }
    for (name, _) in KNOWN {
        near(name, trial, random);
        every_byte(name, trial);
        refused(name, trial, random);
    }
    together(&labels, trial);
}

/// A label in layouts of all grammars, with all rooms, and as what is written in each style.
fn alone(label: &[u8], trial: &mut Trial) {
    for text in layouts(label) {
        trial.text(&text, &mut Rooms::All);
        trial.text_under(&text, NO_GRAMMAR, &mut Rooms::Edges);
    }
    for style in STYLES {
        trial.write(label, b"foo", style, &mut Rooms::Exact);
    }
}

/// Messages with the label: strict ones, standard ones, and lax ones, whose data may be empty.
fn layouts(label: &[u8]) -> [Vec<u8>; LAYOUTS] {
    let layouts: [[&[u8]; 3]; LAYOUTS] = [
        [b"", b"\nZg==\n", b"\n"],
        [b"", b"\r\nZm9v\r\n", b"\r\n"],
        [b"", b" \n\nZm8\n=\t\r", b" "],
        [b"", b"\rZg=\r=\r", b""],
        [b" \x0b\r\n\t", b"Z m\n8\x0c=", b"\n\n "],
        [b"", b"", b""],
        [b"\n", b"\t\n", b""],
    ];
    layouts.map(|[lead, body, tail]| [lead, BEGIN, label, HYPHENS, body, END, label, HYPHENS, tail].concat())
}

/// With each other label in the closing, where bytes decide and not families; and with a message of each before it.
fn pairs(label: &[u8], labels: &[&[u8]], trial: &mut Trial, random: &mut Random) {
    for other in labels {
        trial.text(&m_labelled(label, other), &mut Rooms::Two(random));
        let two = [m_labelled(other, other), m_labelled(label, label)].concat();
        trial.text(&two, &mut Rooms::Two(random));
    }
}

/// All that is near a name, in both boundaries, in one of them, and to the writer.
fn near(name: &[u8], trial: &mut Trial, random: &mut Random) {
    for label in near_labels(name) {
        for text in [
            m_labelled(&label, &label),
            m_labelled(&label, name),
            m_labelled(name, &label),
        ] {
            trial.text(&text, &mut Rooms::Two(random));
        }
        trial.write(&label, b"f", random.pick(&STYLES), &mut Rooms::Exact);
    }
}

/// Cut at each place, without each byte, with each byte twice, longer at both ends, with other separators, in other cases, and at
/// the ends of labels around the limit. Not all of them are labels, and some of them are known too.
fn near_labels(name: &[u8]) -> Vec<Vec<u8>> {
    let places = || 0..name.len();
    let cut = places().flat_map(|place| [name[..place].to_vec(), name[place + 1..].to_vec()]);
    let without = places().map(|place| [&name[..place], &name[place + 1..]].concat());
    let twice = places().map(|place| [&name[..=place], &name[place..]].concat());
    let longer = MORE
        .iter()
        .flat_map(|more| [[more, name].concat(), [name, more].concat()]);
    let parts: Vec<&[u8]> = name.split(|&byte| byte == b' ').collect();
    let separated = SEPARATORS.iter().map(|separator| parts.join(*separator));
    let doubled = [b"".as_slice(), b" ", b"-"].map(|between| [name, between, name].concat());
    let capital = [&name[..1], &name[1..].to_ascii_lowercase()].concat();
    let filled = (LABEL_LIMIT - 1..=LABEL_LIMIT + 1).flat_map(|length| {
        let filler = vec![b'X'; length - name.len()];
        [[name, &filler].concat(), [&filler, name].concat()]
    });
    cut.chain(without)
        .chain(twice)
        .chain(longer)
        .chain(separated)
        .chain(doubled)
        .chain([name.to_ascii_lowercase(), capital])
        .chain(filled)
        .collect()
}

/// Each byte in place of each of a name's own.
fn every_byte(name: &[u8], trial: &mut Trial) {
    for (place, byte) in (0..name.len()).flat_map(|place| (0..=u8::MAX).map(move |byte| (place, byte))) {
        let mut label = name.to_vec();
        label[place] = byte;
        trial.text_under(&m_labelled(&label, &label), STRICT, &mut Rooms::Exact);
    }
}

/// Each of the refusals 1 to 9, of a message alone, and behind one that is accepted.
fn refused(name: &[u8], trial: &mut Trial, random: &mut Random) {
    let sound = m_labelled(name, name);
    let mut numbers = BTreeSet::new();
    let mut note = |judged: &Judged| numbers.extend(judged.message.as_ref().err().map(|refusal| refusal.number));
    note(&trial.text_under(&sound, NO_GRAMMAR, &mut Rooms::All));
    let mut long = sound.clone();
    long.resize(TEXT_LIMIT + 1, b' ');
    trial.text(&long, &mut Rooms::Two(random)).iter().for_each(&mut note);
    for text in damaged(name, &sound) {
        trial.text(&text, &mut Rooms::All).iter().for_each(&mut note);
        trial.text(&[sound.as_slice(), &text].concat(), &mut Rooms::Edges);
    }
    for length in 0..sound.len() {
        trial.text(&sound[..length], &mut Rooms::Two(random));
    }
    let all: BTreeSet<u32> = (number::UNKNOWN_GRAMMAR..=number::SPARE_BITS).collect();
    assert_eq!(numbers, all, "the refusals of a text with a known label");
}

/// The opening cut short; a body that fails, whose counts do not fit or whose spare bits are not zero; something behind the
/// closing; a label that is too long, and labels that differ.
fn damaged(name: &[u8], sound: &[u8]) -> Vec<Vec<u8>> {
    let long = [name, &vec![b'X'; LABEL_LIMIT + 1 - name.len()]].concat();
    let with_body = |hyphens: &[u8], body: &[u8]| [BEGIN, name, hyphens, body, END, name, HYPHENS, b"\n"].concat();
    vec![
        with_body(b"----", b"\nZg==\n"),
        with_body(HYPHENS, b"\nZg?=\n"),
        with_body(HYPHENS, b"\nZg=\n"),
        with_body(HYPHENS, b"\nZh==\n"),
        [sound, b"x"].concat(),
        m_labelled(&long, &long),
        m_labelled(&long, name),
        m_labelled(name, &long),
        m_labelled(name, b""),
    ]
}

/// All labels in one bundle, from each of them on, in their order and in the other, and with one that is refused at each place;
/// then in each layout, with all tables.
fn together(labels: &[&[u8]], trial: &mut Trial) {
    let messages: Vec<Vec<u8>> = labels.iter().map(|label| m_labelled(label, label)).collect();
    for first in 0..labels.len() {
        let mut turned = messages.clone();
        turned.rotate_left(first);
        trial.text(&turned.concat(), &mut Rooms::Edges);
        turned.reverse();
        trial.text(&turned.concat(), &mut Rooms::Edges);
        turned[first] = m_labelled(labels[first], b"B");
        trial.text(&turned.concat(), &mut Rooms::Edges);
    }
    for (layout, grammar) in (0..LAYOUTS).flat_map(|layout| GRAMMARS.map(|grammar| (layout, grammar))) {
        let bundle: Vec<u8> = labels.iter().flat_map(|label| layouts(label)[layout].clone()).collect();
        let judged = trial.bundle_under(&bundle, grammar, &mut Rooms::All);
        assert!(grammar != LAX || judged.is_ok(), "lax takes each layout");
    }
}
