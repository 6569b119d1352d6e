//! The yardsticks: strict RFC 7468 text as safe Rust reads, indexes and writes it.
//!
//! They take and refuse what the library takes and refuses under the strict grammar, but say only roughly why and not
//! where, and do not tell line ends apart. They leave in a lent buffer whatever they wrote before a refusal, and
//! whatever stood behind a result. They have all in common but their codecs.

mod ordinary;
mod tuned;

use ordinary::Ordinary;
use std::ops::Range;
use tuned::Tuned;

/// The strict grammar's limits.
const TEXT_LIMIT: usize = 16_777_216;
const LABEL_LIMIT: usize = 64;
const DATA_LIMIT: usize = 8_388_608;

/// Characters of a full line, and the bytes they stand for.
const LINE: usize = 64;
const LINE_DATA: usize = 48;

/// Characters of a group, and the bytes they stand for.
const GROUP: usize = 4;
const GROUP_DATA: usize = 3;

/// What a table has for each message.
const ENTRY: usize = 6;

const BEGIN: &[u8] = b"-----BEGIN ";
const END: &[u8] = b"-----END ";
const HYPHENS: &[u8] = b"-----";
const PAD: u8 = b'=';
/// The character of the value 0, which stands in for a pad while a group is decoded.
const ZERO: u8 = b'A';
const CR: u8 = b'\r';
const LF: u8 = b'\n';

const ALPHABET: &[u8; 64] = b"ABCDEFGHIJKLMNOPQRSTUVWXYZabcdefghijklmnopqrstuvwxyz0123456789+/";

type Read = fn(&[u8], &mut [u8]) -> Result<Message, Refusal>;
type Index = fn(&[u8], &mut [u32]) -> Result<usize, Refusal>;
type Write = fn(&[u8], &[u8], &[u8], &mut [u8]) -> Result<usize, Refusal>;

/// One way to read, index and write strict text: [`read()`], [`index()`] and [`write()`] with a codec.
pub struct Yardstick {
    pub name: &'static str,
    pub read: Read,
    pub index: Index,
    pub write: Write,
}

pub const YARDSTICKS: [Yardstick; 2] = [Yardstick::of::<Ordinary>("ordinary"), Yardstick::of::<Tuned>("tuned")];

impl Yardstick {
    const fn of<C: Codec>(name: &'static str) -> Yardstick {
        Yardstick {
            name,
            read: read::<C>,
            index: index::<C>,
            write: write::<C>,
        }
    }
}

/// What the yardsticks differ in: how full lines and groups are decoded, checked and encoded.
trait Codec {
    /// Decodes a full line, and answers whether it had characters of the alphabet only.
    fn decode_line(line: &[u8; LINE], out: &mut [u8; LINE_DATA]) -> bool;

    /// The bytes of a group, where it has characters of the alphabet only.
    fn decode(group: &[u8; GROUP]) -> Option<[u8; GROUP_DATA]>;

    /// Whether a full line has characters of the alphabet only.
    fn is_clean(line: &[u8; LINE]) -> bool;

    fn encode_line(line: &[u8; LINE_DATA], out: &mut [u8; LINE]);

    fn encode(bytes: &[u8; GROUP_DATA], group: &mut [u8; GROUP]);
}

#[derive(Debug, Clone, Copy, PartialEq, Eq)]
pub enum Refusal {
    /// Not strict text.
    Malformed,
    /// The text, the label or the data is longer than the limit.
    TooLong,
    /// The closing label is not the opening one.
    Labels,
    /// What was lent is too small.
    Room,
}

/// One message that was read.
#[derive(Debug, PartialEq, Eq)]
pub struct Message {
    /// Where the opening label stands in the text.
    pub label: Range<usize>,
    /// Which family the label is of.
    pub family: u32,
    /// How many bytes of data there are.
    pub size: usize,
}

/// Reads the one message that fills the text; its data go to the start of `out`.
fn read<C: Codec>(text: &[u8], out: &mut [u8]) -> Result<Message, Refusal> {
    if text.len() > TEXT_LIMIT {
        return Err(Refusal::TooLong);
    }
    let (label, body) = opening(text)?;
    let mut places = out.as_chunks_mut().0.iter_mut();
    let lines = full_lines(body, |line| {
        places.next().is_some_and(|place| C::decode_line(line, place))
    })?;
    let last = last_line::<C>(&lines)?;
    let size = lines.size + last.size;
    let room = out.get_mut(lines.size..size).ok_or(Refusal::Room)?;
    room.copy_from_slice(&last.data[..last.size]);
    if !closing(last.rest, label)?.is_empty() {
        return Err(Refusal::Malformed);
    }
    Ok(message(label, size))
}

/// Indexes a bundle: the count of its messages, then start, length, label offset, label length, data size and family of
/// each. Answers how many numbers of the table that are.
fn index<C: Codec>(text: &[u8], table: &mut [u32]) -> Result<usize, Refusal> {
    if text.len() > TEXT_LIMIT {
        return Err(Refusal::TooLong);
    }
    let (count, entries) = table.split_first_mut().ok_or(Refusal::Room)?;
    let mut at = 0;
    let mut messages = 0;
    while at < text.len() {
        let (length, message) = skip::<C>(&text[at..])?;
        let entry = entries
            .get_mut(messages * ENTRY..(messages + 1) * ENTRY)
            .ok_or(Refusal::Room)?;
        let (label, family) = (message.label, message.family as usize);
        let numbers = [at, length, at + label.start, label.len(), message.size, family];
        entry.copy_from_slice(&numbers.map(|number| number as u32));
        messages += 1;
        at += length;
    }
    *count = messages as u32;
    Ok(1 + messages * ENTRY)
}

/// Writes the strict text of a label and data, with this line end, to the start of `out`, and answers its length.
fn write<C: Codec>(label: &[u8], data: &[u8], end: &[u8], out: &mut [u8]) -> Result<usize, Refusal> {
    match *end {
        [end] => write_with::<C, 1, { LINE + 1 }>(label, data, &[end], out),
        [first, second] => write_with::<C, 2, { LINE + 2 }>(label, data, &[first, second], out),
        _ => unreachable!("a line end has one byte or two"),
    }
}

/// The same for line ends of so many bytes, and lines of so many with theirs: as constants they cost nothing.
#[inline]
fn write_with<C: Codec, const ENDING: usize, const WRITTEN: usize>(
    label: &[u8],
    data: &[u8],
    end: &[u8; ENDING],
    out: &mut [u8],
) -> Result<usize, Refusal> {
    if label.len() > LABEL_LIMIT || data.len() > DATA_LIMIT {
        return Err(Refusal::TooLong);
    }
    if !is_label(label) || data.is_empty() {
        return Err(Refusal::Malformed);
    }
    let size = written_size(label.len(), data.len(), ENDING);
    let out = out.get_mut(..size).ok_or(Refusal::Room)?;
    let out = put_boundary(out, BEGIN, label, end);
    let out = put_body::<C, ENDING, WRITTEN>(out, data, end);
    put_boundary(out, END, label, end);
    Ok(size)
}

/// The length of a message at the start of a text, and what is to be told of it. Its body is checked and not decoded.
fn skip<C: Codec>(text: &[u8]) -> Result<(usize, Message), Refusal> {
    let (label, body) = opening(text)?;
    let lines = full_lines(body, C::is_clean)?;
    let last = last_line::<C>(&lines)?;
    let rest = closing(last.rest, label)?;
    Ok((text.len() - rest.len(), message(label, lines.size + last.size)))
}

/// What is told of a message at the start of a text: its label stands behind the opening's first words.
fn message(label: &[u8], size: usize) -> Message {
    Message {
        label: BEGIN.len()..BEGIN.len() + label.len(),
        family: family(label),
        size,
    }
}

/// The family of a label: those of RFC 7468, figure 4, by their order, two of them with older names.
fn family(label: &[u8]) -> u32 {
    match label {
        b"CERTIFICATE" | b"X509 CERTIFICATE" | b"X.509 CERTIFICATE" => 1,
        b"X509 CRL" => 2,
        b"CERTIFICATE REQUEST" | b"NEW CERTIFICATE REQUEST" => 3,
        b"PKCS7" => 4,
        b"CMS" => 5,
        b"PRIVATE KEY" => 6,
        b"ENCRYPTED PRIVATE KEY" => 7,
        b"ATTRIBUTE CERTIFICATE" => 8,
        b"PUBLIC KEY" => 9,
        _ => 0,
    }
}

/// What is behind the line end that a text starts with. CR and LF are one.
fn line_end(text: &[u8]) -> Result<&[u8], Refusal> {
    match text {
        [CR, LF, rest @ ..] | [CR | LF, rest @ ..] => Ok(rest),
        _ => Err(Refusal::Malformed),
    }
}

/// Whether these bytes may be a label: hyphens and spaces stand alone, and between two other characters.
fn is_label(label: &[u8]) -> bool {
    let mut separated = true;
    for &byte in label {
        let separator = byte == b'-' || byte == b' ';
        if separator && separated || !(b' '..=b'~').contains(&byte) {
            return false;
        }
        separated = separator;
    }
    label.is_empty() || !separated
}

/// The label of the opening at the start of a text, and what is behind the opening's line end.
fn opening(text: &[u8]) -> Result<(&[u8], &[u8]), Refusal> {
    let rest = text.strip_prefix(BEGIN).ok_or(Refusal::Malformed)?;
    // A longer line has a longer label, or is none.
    let near = &rest[..rest.len().min(LABEL_LIMIT + HYPHENS.len() + 1)];
    let line = near.iter().position(|&byte| byte == CR || byte == LF);
    let (line, behind) = rest.split_at(line.ok_or(Refusal::Malformed)?);
    let label = line.strip_suffix(HYPHENS).ok_or(Refusal::Malformed)?;
    if !is_label(label) {
        return Err(Refusal::Malformed);
    }
    Ok((label, line_end(behind)?))
}

/// What is behind the closing at the start of a text, and behind its line end.
fn closing<'a>(text: &'a [u8], label: &[u8]) -> Result<&'a [u8], Refusal> {
    let rest = text.strip_prefix(END).ok_or(Refusal::Malformed)?;
    let rest = rest.strip_prefix(label).ok_or(Refusal::Labels)?;
    let rest = rest.strip_prefix(HYPHENS).ok_or(Refusal::Labels)?;
    line_end(rest)
}

/// The full lines of a body: what is behind them, and how many bytes of data they are.
struct Lines<'a> {
    rest: &'a [u8],
    size: usize,
}

/// Takes the lines of 64 characters at the start of a body, as long as `take` accepts them.
fn full_lines(body: &[u8], mut take: impl FnMut(&[u8; LINE]) -> bool) -> Result<Lines<'_>, Refusal> {
    let mut lines = Lines { rest: body, size: 0 };
    while let Some((line, behind)) = lines.rest.split_first_chunk() {
        if !take(line) {
            break;
        }
        lines.rest = line_end(behind)?;
        lines.size += LINE_DATA;
    }
    Ok(lines)
}

/// The last line of a body where it is not a full one: what is behind it, and its data.
struct Last<'a> {
    rest: &'a [u8],
    size: usize,
    data: [u8; LINE_DATA],
}

/// Takes what follows the full lines of a body up to the closing: nothing, or one line that is shorter or has pads.
fn last_line<'a, C: Codec>(lines: &Lines<'a>) -> Result<Last<'a>, Refusal> {
    let (mut rest, mut size, mut data) = (lines.rest, 0, [0; LINE_DATA]);
    for place in data.as_chunks_mut().0 {
        let Some((group, behind)) = rest.split_first_chunk() else {
            break;
        };
        let Some((bytes, count)) = decode_last::<C>(group) else {
            break;
        };
        *place = bytes;
        size += count;
        rest = behind;
        if count < GROUP_DATA {
            break;
        }
    }
    match (size, lines.size) {
        (0, 0) => Err(Refusal::Malformed),
        (0, _) => Ok(Last { rest, size, data }),
        _ => Ok(Last {
            rest: line_end(rest)?,
            size,
            data,
        }),
    }
}

/// Decodes a group that may have pads, and answers how many of the three bytes count.
fn decode_last<C: Codec>(group: &[u8; GROUP]) -> Option<([u8; GROUP_DATA], usize)> {
    let (kept, size) = match *group {
        [a, b, PAD, PAD] => ([a, b, ZERO, ZERO], 1),
        [a, b, c, PAD] => ([a, b, c, ZERO], 2),
        whole => (whole, GROUP_DATA),
    };
    let bytes = C::decode(&kept)?;
    // Spare bits would be in the bytes that do not count.
    let spare = bytes[size..].iter().any(|&byte| byte != 0);
    (!spare).then_some((bytes, size))
}

/// How long the text of so many bytes of label and data is, with so many for each line end.
fn written_size(label: usize, data: usize, end: usize) -> usize {
    let frame = BEGIN.len() + END.len() + 2 * (HYPHENS.len() + label + end);
    frame + data.div_ceil(GROUP_DATA) * GROUP + data.div_ceil(LINE_DATA) * end
}

/// Puts a part at the start of `out`, and gives what is behind it.
fn put<'a>(out: &'a mut [u8], part: &[u8]) -> &'a mut [u8] {
    let (place, rest) = out.split_at_mut(part.len());
    place.copy_from_slice(part);
    rest
}

fn put_boundary<'a, const ENDING: usize>(
    out: &'a mut [u8],
    word: &[u8],
    label: &[u8],
    end: &[u8; ENDING],
) -> &'a mut [u8] {
    let out = put(out, word);
    let out = put(out, label);
    let out = put(out, HYPHENS);
    put(out, end)
}

fn put_body<'a, C: Codec, const ENDING: usize, const WRITTEN: usize>(
    out: &'a mut [u8],
    data: &[u8],
    end: &[u8; ENDING],
) -> &'a mut [u8] {
    let (lines, rest) = data.as_chunks::<LINE_DATA>();
    let (place, out) = out.split_at_mut(lines.len() * WRITTEN);
    for (line, place) in lines.iter().zip(place.as_chunks_mut::<WRITTEN>().0) {
        let (characters, place) = place.split_first_chunk_mut().expect("a line is longer");
        C::encode_line(line, characters);
        place.copy_from_slice(end);
    }
    if rest.is_empty() {
        return out;
    }
    put(put_last_line::<C>(out, rest), end)
}

/// Puts the line of 1 to 47 bytes.
fn put_last_line<'a, C: Codec>(out: &'a mut [u8], data: &[u8]) -> &'a mut [u8] {
    let (place, out) = out.split_at_mut(data.len().div_ceil(GROUP_DATA) * GROUP);
    for (part, group) in data.chunks(GROUP_DATA).zip(place.as_chunks_mut().0) {
        let mut bytes = [0; GROUP_DATA];
        bytes[..part.len()].copy_from_slice(part);
        C::encode(&bytes, group);
        // A part of n bytes has n + 1 characters.
        group[part.len() + 1..].fill(PAD);
    }
    out
}

#[cfg(test)]
mod tests {
    use super::*;
    use crate::library;
    use crate::texts::{self, Messages, Text, WRITTEN};
    use std::borrow::Cow;
    use zullifern::{data_bound, table_bound, Grammar, LineEnding};

    /// Bytes that matter somewhere in a text: marks, white, spare bits, cases, and what no text has.
    const DAMAGES: &[u8] = b"-=\r\n \tAah0+/~!_\0\x7F\x80\xFF";

    /// How many messages of 2,048 bytes or a little less fit in 65,536.
    const BUNDLE_COUNT: usize = 32;

    /// All sides have to agree on a text, as a message and as a bundle. Answers whether it was read.
    fn agree(text: &[u8]) -> bool {
        agree_on_index(text);
        let room = data_bound(text.len());
        let mut theirs = vec![0; room];
        let message = library::read(text, Grammar::Strict, &mut theirs);
        let size = message.as_ref().map_or(0, |message| message.size);
        for Yardstick { name, read, .. } in YARDSTICKS {
            let mut ours = vec![0; room];
            assert_eq!(read(text, &mut ours).ok(), message, "{name}: {}", shown(text));
            assert!(ours[..size] == theirs[..size], "{name}: {}", shown(text));
        }
        message.is_some()
    }

    fn agree_on_index(text: &[u8]) {
        let room = table_bound(text.len());
        let mut theirs = vec![0; room];
        let answer = library::index(text, Grammar::Strict, &mut theirs);
        let size = answer.unwrap_or(0);
        for Yardstick { name, index, .. } in YARDSTICKS {
            let mut ours = vec![0; room];
            assert_eq!(index(text, &mut ours).ok(), answer, "{name}: {}", shown(text));
            assert!(ours[..size] == theirs[..size], "{name}: {}", shown(text));
        }
    }

    /// The start of a text, for a failure's message.
    fn shown(text: &[u8]) -> Cow<'_, str> {
        String::from_utf8_lossy(&text[..text.len().min(texts::SHORT_TEXT)])
    }

    fn agree_on_writing(label: &[u8], data: &[u8], room: usize) -> Option<Vec<u8>> {
        agree_on_writing_with(LineEnding::Lf, label, data, room)
    }

    fn agree_on_writing_with(ending: LineEnding, label: &[u8], data: &[u8], room: usize) -> Option<Vec<u8>> {
        let mut theirs = vec![0; room];
        let answer = library::write(label, data, ending, &mut theirs);
        let size = answer.unwrap_or(0);
        for Yardstick { name, write, .. } in YARDSTICKS {
            let mut ours = vec![0; room];
            let why = format!("{name}: {label:?}, {} bytes, {ending}", data.len());
            let end = ending.as_str().as_bytes();
            assert_eq!(write(label, data, end, &mut ours).ok(), answer, "{why}");
            assert!(ours[..size] == theirs[..size], "{why}");
        }
        answer.map(|size| theirs[..size].to_vec())
    }

    /// A full line, a last line of a whole group and one with a pad, and a label with both separators.
    fn small() -> Vec<u8> {
        texts::message(b"A-B c", &texts::data(53))
    }

    /// The text with each LF replaced.
    fn with_ends(text: &[u8], end: &[u8]) -> Vec<u8> {
        let lines: Vec<&[u8]> = text.split(|&byte| byte == LF).collect();
        lines.join(end)
    }

    #[test]
    fn benchmark_texts() {
        let bundle = Text::of(Messages::Bundle(texts::LONG_TEXT), WRITTEN).bytes;
        assert!(!agree(&bundle));
        let size = 1 + BUNDLE_COUNT * ENTRY;
        for Yardstick { name, index, .. } in YARDSTICKS {
            assert_eq!(index(&bundle, &mut vec![0; size]), Ok(size), "{name}");
        }
        for length in [texts::LONG_TEXT, texts::SHORT_TEXT] {
            let text = Text::of(Messages::One(length), WRITTEN).bytes;
            assert!(text.len() <= length && agree(&text));
            let data = texts::data(texts::most_data(length));
            for Yardstick { name, read, .. } in YARDSTICKS {
                let mut out = vec![0; data.len()];
                let size = read(&text, &mut out).map(|message| message.size);
                assert!(size == Ok(data.len()) && out == data, "{name}");
            }
        }
    }

    #[test]
    fn rfc_4648_vectors() {
        let vectors = ["Zg==", "Zm8=", "Zm9v", "Zm9vYg==", "Zm9vYmE=", "Zm9vYmFy"];
        for (at, vector) in vectors.iter().enumerate() {
            let data = &b"foobar"[..at + 1];
            let text = format!("-----BEGIN A-----\n{vector}\n-----END A-----\n");
            assert!(agree(text.as_bytes()));
            let message = Message {
                label: 11..12,
                family: 0,
                size: data.len(),
            };
            for Yardstick { name, read, .. } in YARDSTICKS {
                let mut out = [0; 6];
                assert_eq!(read(text.as_bytes(), &mut out).as_ref(), Ok(&message), "{name}");
                assert_eq!(out[..data.len()], *data, "{name}");
            }
            assert_eq!(agree_on_writing(b"A", data, 64).as_deref(), Some(text.as_bytes()));
        }
    }

    #[test]
    fn no_data() {
        assert!(!agree(b""));
        assert!(!agree(b"-----BEGIN A-----\n-----END A-----\n"));
        assert!(!agree(b"-----BEGIN A-----\n\n-----END A-----\n"));
        assert_eq!(agree_on_writing(b"A", b"", 64), None);
    }

    #[test]
    fn line_ends() {
        for length in [1, 47, 48, 49, 95, 96] {
            let text = texts::message(b"A", &texts::data(length));
            for end in ["\n", "\r", "\r\n"] {
                assert!(agree(&with_ends(&text, end.as_bytes())));
                agree(&with_ends(&text, end.as_bytes()).repeat(3));
            }
            for end in ["", "\n\r", "\r\r\n", "\n\n", " \n"] {
                assert!(!agree(&with_ends(&text, end.as_bytes())));
            }
        }
    }

    #[test]
    fn line_ends_written() {
        for length in [1, 47, 48, 49, 95, 96, 97] {
            let data = texts::data(length);
            let text = texts::message(b"A", &data);
            for ending in LineEnding::ALL {
                let text = with_ends(&text, ending.as_str().as_bytes());
                let written = |room| agree_on_writing_with(ending, b"A", &data, room);
                assert_eq!(written(text.len()), Some(text.clone()));
                assert_eq!(written(text.len() - 1), None);
            }
        }
    }

    #[test]
    fn one_byte_changed() {
        let small = small();
        assert!(agree(&small));
        let changes = (0..small.len()).flat_map(|at| DAMAGES.iter().map(move |&byte| (at, byte)));
        let read = changes.filter(|&(at, byte)| {
            let mut text = small.clone();
            text[at] = byte;
            agree(&text)
        });
        // Other characters of the alphabet and other line ends are not damage, so some are read and most are not.
        let read = read.count();
        assert!(0 < read && read < small.len() * DAMAGES.len() / 2);
    }

    #[test]
    fn one_byte_more_or_less() {
        let small = small();
        for at in 0..small.len() {
            agree(&small[..at]);
            agree(&small[at..]);
            agree(&[&small[..at], &small[at + 1..]].concat());
            agree(&[&small[..at], &small[at..at + 1], &small[at..]].concat());
            agree(&[&small[..at], b"\n", &small[at..]].concat());
        }
    }

    #[test]
    fn one_byte_changed_in_a_bundle() {
        let two = texts::message(b"", &texts::data(1)).repeat(2);
        let changes = (0..two.len()).flat_map(|at| DAMAGES.iter().map(move |&byte| (at, byte)));
        changes.for_each(|(at, byte)| {
            let mut text = two.clone();
            text[at] = byte;
            agree(&text);
        });
    }

    #[test]
    fn limits() {
        for length in [LABEL_LIMIT, LABEL_LIMIT + 1] {
            let label = vec![b'x'; length];
            assert_eq!(agree(&texts::message(&label, b"f")), length == LABEL_LIMIT);
            assert_eq!(agree_on_writing(&label, b"f", 256).is_some(), length == LABEL_LIMIT);
        }
        let data = texts::data(DATA_LIMIT + 1);
        for length in [DATA_LIMIT, DATA_LIMIT + 1] {
            let written = agree_on_writing(b"A", &data[..length], written_size(1, length, 1));
            assert_eq!(written.is_some(), length == DATA_LIMIT);
        }
    }

    #[test]
    fn longest_text() {
        // Full lines come out at the limit under a label of this length. To make each of them would take seconds.
        let (label, lines, times) = ([b'x'; 17], 530, 487);
        let message = texts::message(&label, &texts::data(lines * LINE_DATA));
        let (opening, rest) = message.split_at(BEGIN.len() + label.len() + HYPHENS.len() + 1);
        let (body, closing) = rest.split_at(lines * (LINE + 1));
        let mut text = [opening, &body.repeat(times), closing].concat();
        assert!(text.len() == TEXT_LIMIT && agree(&text));
        // One byte more, and strict but for its length: the last line ends in CRLF.
        text.insert(TEXT_LIMIT - 1, CR);
        assert!(!agree(&text));
    }

    #[test]
    fn families() {
        let known = [
            "CERTIFICATE",
            "X509 CRL",
            "CERTIFICATE REQUEST",
            "PKCS7",
            "CMS",
            "PRIVATE KEY",
            "ENCRYPTED PRIVATE KEY",
            "ATTRIBUTE CERTIFICATE",
            "PUBLIC KEY",
            "X509 CERTIFICATE",
            "X.509 CERTIFICATE",
            "NEW CERTIFICATE REQUEST",
        ];
        let others = [
            "",
            "CRL",
            "CERTIFICATE CHAIN",
            "RSA PRIVATE KEY",
            "certificate",
            "CM",
            "CMSX",
        ];
        let text = |label: &&str| texts::message(label.as_bytes(), b"foobar");
        let all: Vec<Vec<u8>> = known.iter().chain(&others).map(text).collect();
        assert!(all.iter().all(|text| agree(text)));
        agree(&all.concat());
        let numbers = known.map(|label| family(label.as_bytes()));
        assert_eq!(numbers, [1, 2, 3, 4, 5, 6, 7, 8, 9, 1, 1, 3]);
        assert!(others.iter().all(|label| family(label.as_bytes()) == 0));
    }

    #[test]
    fn labels_written() {
        for label in [
            "", "a", "a-b c", "-a", "a-", " a", "a ", "a--b", "a  b", "a- b", "a\tb", "~!", "\u{7f}",
        ] {
            agree_on_writing(label.as_bytes(), b"foobar", 256);
            agree(&texts::message(label.as_bytes(), b"foobar"));
        }
    }

    #[test]
    fn room() {
        for length in [1, 2, 3, 46, 47, 48, 49, 50, 96] {
            let data = texts::data(length);
            let text = texts::message(b"A", &data);
            assert_eq!(library::read(&text, Grammar::Strict, &mut vec![0; length - 1]), None);
            assert!(agree_on_writing(b"A", &data, text.len()).is_some());
            assert_eq!(agree_on_writing(b"A", &data, text.len() - 1), None);
            for Yardstick { name, read, index, .. } in YARDSTICKS {
                let size = |room| read(&text, &mut vec![0; room]).map(|message| message.size);
                assert_eq!(size(length), Ok(length), "{name}");
                assert_eq!(size(length - 1), Err(Refusal::Room), "{name}");
                assert_eq!(index(&text, &mut [0; 1 + ENTRY]), Ok(1 + ENTRY), "{name}");
                assert_eq!(index(&text, &mut [0; ENTRY]), Err(Refusal::Room), "{name}");
            }
        }
        for Yardstick { name, index, .. } in YARDSTICKS {
            assert_eq!(index(b"", &mut [7]), Ok(1), "{name}");
            assert_eq!(index(b"", &mut []), Err(Refusal::Room), "{name}");
        }
    }
}
