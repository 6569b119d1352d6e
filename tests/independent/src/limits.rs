//! The paper's cases at the limits of texts and data, and what is largest there: few, since each takes long.

use crate::bits;
use crate::fixed::SMALLEST_MESSAGE;
use crate::paper::{number, style, Refusal, DATA_LIMIT, LABEL_LIMIT, LAX, STRICT, STYLES, TEXT_LIMIT};
use crate::random::Random;
use crate::texts::{label_of, long_message, stretched, FILLER};
use crate::trial::{Judged, Rooms, Trial};

/// Enough for any call, and far less than what the calls are lent here: one that had something of that size on its stack
/// would crash.
const STACK: usize = 64 * 1024;
const UNKNOWN: u32 = 4;

/// As many messages as a text has room for, the numbers of their table, and the bytes of the largest text that is written in
/// each style.
const MOST_MESSAGES: usize = 559_240;
const LARGEST_TABLE: usize = 3_355_441;
const LARGEST_WRITTEN: [usize; 3] = [11_359_735, 11_534_500, 11_359_735];

pub fn run(trial: &mut Trial, random: &mut Random) {
    trial.stack = Some(STACK);
    one_message(trial, random);
    most_messages(trial);
    most_data(trial, random);
    trial.stack = None;
}

/// A text of the limit, under each grammar; without its last byte; and with one more.
fn one_message(trial: &mut Trial, random: &mut Random) {
    let mut text = message_of(TEXT_LIMIT, random);
    let judged = trial.text(&text, &mut Rooms::Exact);
    let accepted = |judged: &Judged| judged.message.is_ok() && judged.bundle.is_ok();
    assert!(judged.iter().all(accepted), "a text of the limit is accepted");

    let cut = &text[..TEXT_LIMIT - 1];
    let judged = trial.text_under(cut, STRICT, &mut Rooms::Exact);
    assert!(refused(&judged, number::IN_CLOSING, cut.len()), "it fails at its end");

    text.push(b'\n');
    let judged = trial.text(&text, &mut Rooms::Exact);
    let too_long = |judged: &Judged| refused(judged, number::LONG_TEXT, 0);
    assert!(judged.iter().all(too_long), "one byte more is too long");
    let judged = trial.text_under(&text, UNKNOWN, &mut Rooms::Exact);
    assert!(refused(&judged, number::UNKNOWN_GRAMMAR, 0), "the grammar comes first");
}

/// A strict message of this length, with random characters.
fn message_of(length: usize, random: &mut Random) -> Vec<u8> {
    let mut text = stretched(&long_message(b"CERTIFICATE", length), length);
    for byte in text.iter_mut().filter(|byte| **byte == FILLER) {
        *byte = bits::character(random.byte() % 64);
    }
    text
}

fn refused(judged: &Judged, number: u32, place: usize) -> bool {
    let refusal = Refusal { number, place };
    judged.message.as_ref() == Err(&refusal) && judged.bundle.as_ref() == Err(&refusal)
}

/// The last of them has a label, of the family 4, for which there is room. Behind them is white, up to the limit; then a byte
/// that has no place there, for which the whole table is cleared.
fn most_messages(trial: &mut Trial) {
    let mut text = SMALLEST_MESSAGE.repeat(MOST_MESSAGES - 1);
    text.extend(b"-----BEGIN PKCS7----------END PKCS7-----");
    text.resize(TEXT_LIMIT, b' ');
    let bundle = trial.bundle_under(&text, LAX, &mut Rooms::Tight);
    let size_and_family = bundle.map(|table| (table.result.len(), table.result.last().copied()));
    assert_eq!(size_and_family, Ok((LARGEST_TABLE, Some(4))));
    let place = TEXT_LIMIT - 1;
    text[place] = b'x';
    let bundle = trial.bundle_under(&text, LAX, &mut Rooms::Exact);
    let number = number::IN_OPENING;
    assert_eq!(bundle.err(), Some(Refusal { number, place }));
}

/// Labels and data of the limit and of one byte more, and an unknown style; what is largest is read back, and restored from
/// what was read.
fn most_data(trial: &mut Trial, random: &mut Random) {
    let label = label_of(LABEL_LIMIT, random);
    let long_label = label_of(LABEL_LIMIT + 1, random);
    let long_data = random.bytes(DATA_LIMIT + 1);
    let data = &long_data[..DATA_LIMIT];
    for (label, data, style) in [
        (&long_label, &data[..1], style::CRLF),
        (&long_label, data, style::CR),
        (&long_label, &long_data, UNKNOWN),
        (&label, &long_data, style::LF),
        (&label, &long_data, UNKNOWN),
        (&label, data, UNKNOWN),
    ] {
        assert!(trial.write(label, data, style, &mut Rooms::Tight).is_none());
    }
    assert!(trial.write(&label, &data[..1], style::LF, &mut Rooms::Tight).is_some());
    let written = STYLES.map(|style| trial.write(&label, data, style, &mut Rooms::Tight).unwrap_or_default());
    assert_eq!(written.each_ref().map(Vec::len), LARGEST_WRITTEN);
    let back = trial.message_under(&written[1], STRICT, &mut Rooms::Exact);
    let back = back.map(|found| (found.result == data, found.style));
    assert_eq!(
        back,
        Ok((true, style::CRLF)),
        "what is written has the data and the style"
    );
}
