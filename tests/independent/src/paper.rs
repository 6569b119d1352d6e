//! The requirements paper as a second implementation: its grammars as regular expressions in its order and words, and from
//! these what each call has to answer. It is slow and direct, and shares nothing with the library.

use crate::bits;
use crate::known::{family_of, OTHER};
use crate::regex::{symbol_at, Regex, Regexes, CRLF, EMPTY, EPSILON};

pub const LAX: u32 = 1;
pub const STANDARD: u32 = 2;
pub const STRICT: u32 = 3;
pub const GRAMMARS: [u32; 3] = [LAX, STANDARD, STRICT];

/// Change request K7: which line ends a message has, by number. These three are what the writer takes.
pub const STYLES: [u32; 3] = [style::LF, style::CRLF, style::CR];

pub mod style {
    pub const NONE: u32 = 0;
    pub const LF: u32 = 1;
    pub const CRLF: u32 = 2;
    pub const CR: u32 = 3;
    pub const MIXED: u32 = 4;
}

pub const TEXT_LIMIT: usize = 16_777_216;
pub const LABEL_LIMIT: usize = 64;
pub const DATA_LIMIT: usize = 8_388_608;

pub const BEGIN: &[u8] = b"-----BEGIN ";
pub const END: &[u8] = b"-----END ";
pub const HYPHENS: &[u8] = b"-----";
pub const LINE: usize = 64;
const GROUP: usize = 4;
const MOST_PADS: usize = 2;
/// In a table, behind the count.
pub const NUMBERS_PER_MESSAGE: usize = 6;

const HT: u8 = 9;
const LF: u8 = 10;
const VT: u8 = 11;
const FF: u8 = 12;
const CR: u8 = 13;
const SP: u8 = 32;

/// The paper's "Numbers a caller may get".
pub mod number {
    pub const ACCEPTED: u32 = 0;
    pub const UNKNOWN_GRAMMAR: u32 = 1;
    pub const LONG_TEXT: u32 = 2;
    pub const IN_OPENING: u32 = 3;
    pub const IN_BODY: u32 = 4;
    pub const IN_CLOSING: u32 = 5;
    pub const LONG_LABEL: u32 = 6;
    pub const LABELS_DIFFER: u32 = 7;
    pub const COUNTS_DO_NOT_FIT: u32 = 8;
    pub const SPARE_BITS: u32 = 9;
    pub const SMALL_OUTPUT: u32 = 10;
    pub const WRITER_LONG_LABEL: u32 = 11;
    pub const WRITER_NO_LABEL: u32 = 12;
    pub const WRITER_NO_DATA: u32 = 13;
    pub const WRITER_LONG_DATA: u32 = 14;
    pub const WRITER_UNKNOWN_STYLE: u32 = 20;
}

/// A refusal by one of the checks but the last, which is the one of the room.
#[derive(Clone, Copy, Debug, PartialEq, Eq)]
pub struct Refusal {
    pub number: u32,
    pub place: usize,
}

/// What the checks before that of the room found: the result, and the label's offset and length, its family and the style of
/// the line ends if the call reports them.
#[derive(Clone, Debug, PartialEq, Eq)]
pub struct Found<T> {
    pub result: Vec<T>,
    pub label: (usize, usize),
    pub family: u32,
    pub style: u32,
}

impl<T> Found<T> {
    /// The result of a call that reports no label, no family and no style.
    pub fn alone(result: Vec<T>) -> Found<T> {
        Found {
            result,
            label: (0, 0),
            family: OTHER,
            style: style::NONE,
        }
    }
}

pub type Judgement<T> = Result<Found<T>, Refusal>;

/// All that a call has to tell, and the whole of what it was lent.
#[derive(Clone, Debug, PartialEq, Eq)]
pub struct Answer<T> {
    pub number: u32,
    pub place: usize,
    pub size: usize,
    pub label: (usize, usize),
    pub family: u32,
    pub style: u32,
    pub lent: Vec<T>,
}

/// One message of a text that was accepted.
#[derive(Clone, Debug, PartialEq, Eq)]
pub struct Message {
    pub start: usize,
    pub length: usize,
    pub label: (usize, usize),
    pub family: u32,
    pub data: Vec<u8>,
}

/// A grammar, and for each mark in [`Ends`] the expression that matches a message's start up to the mark's end.
#[derive(Clone, Copy)]
struct Grammar {
    number: u32,
    message: Regex,
    bundle: Regex,
    to_begin: Regex,
    to_opening: Regex,
    to_first_hyphen: Regex,
    to_end: Regex,
    to_closing: Regex,
}

/// The parts in whose order each grammar puts a message together.
struct Parts {
    number: u32,
    lead: Regex,
    body: Regex,
    tail: Regex,
}

/// Where the marks of a message end, so far as its start has them.
#[derive(Clone, Copy, Default)]
struct Ends {
    begin: Option<usize>,
    opening: Option<usize>,
    first_hyphen: Option<usize>,
    end: Option<usize>,
    closing: Option<usize>,
}

/// How far a message goes from its start.
struct Course {
    start: usize,
    /// The end of the longest start that can still become a message.
    reach: usize,
    /// Whether that start is a message.
    whole: bool,
    ends: Ends,
}

/// The grammars, ready to judge.
pub struct Paper {
    regexes: Regexes,
    label: Regex,
    grammars: [Grammar; 3],
}

fn symbols(bytes: &[u8]) -> Vec<usize> {
    bytes.iter().map(|&byte| usize::from(byte)).collect()
}

fn blank(r: &mut Regexes) -> Regex {
    r.one_of(symbols(&[HT, SP]))
}

fn line_end(r: &mut Regexes) -> Regex {
    let one_byte = r.one_of(symbols(&[CR, LF]));
    let crlf = r.one_of([CRLF]);
    r.either(&[crlf, one_byte])
}

fn white(r: &mut Regexes) -> Regex {
    let (blank, line_end) = (blank(r), line_end(r));
    let others = r.one_of(symbols(&[VT, FF]));
    r.either(&[blank, line_end, others])
}

fn alphabet(r: &mut Regexes) -> Regex {
    r.one_of(
        (0..=u8::MAX)
            .filter(|&byte| bits::value(byte).is_some())
            .map(usize::from),
    )
}

/// Empty, or characters with at most one hyphen or one space between two of them.
fn label(r: &mut Regexes) -> Regex {
    let character = r.one_of((33..=44).chain(46..=126));
    let between = r.one_of(symbols(b"- "));
    let between = r.optional(between);
    let next = r.then(between, character);
    let more = r.many(next);
    let label = r.then(character, more);
    r.optional(label)
}

/// Any mixture of white and alphabet characters; then at most two pads, each followed by any white.
fn lax_body(r: &mut Regexes) -> Regex {
    let (white, alphabet) = (white(r), alphabet(r));
    let mixture = r.either(&[white, alphabet]);
    let mixture = r.many(mixture);
    let pad = r.word(&[bits::PAD]);
    let any_white = r.many(white);
    let pad = r.then(pad, any_white);
    let pads = r.at_most(pad, MOST_PADS);
    r.then(mixture, pads)
}

/// Blanks, line end; any run of blanks and line ends; zero or more data lines; a final line. Change request K9: the final
/// line's pads stand together, or the second on a line of its own.
fn standard_body(r: &mut Regexes) -> Regex {
    let (blank, line_end, alphabet) = (blank(r), line_end(r), alphabet(r));
    let blanks = r.many(blank);
    let run = r.either(&[blank, line_end]);
    let run = r.many(run);
    let characters = r.some(alphabet);
    let data_line = r.all(&[characters, blanks, line_end]);
    let data_lines = r.many(data_line);
    let characters = r.many(alphabet);
    let pad = r.word(&[bits::PAD]);
    let together = r.at_most(pad, MOST_PADS);
    let split = r.all(&[pad, blanks, line_end, pad]);
    let pads = r.either(&[together, split]);
    let final_line = r.all(&[characters, pads, blanks, line_end]);
    r.all(&[blanks, line_end, run, data_lines, final_line])
}

/// Line end; zero or more lines of 64; a final line of 1 to 16 groups, of which only the last may have pads.
fn strict_body(r: &mut Regexes) -> Regex {
    let (line_end, alphabet) = (line_end(r), alphabet(r));
    let full = r.times(alphabet, LINE);
    let full = r.then(full, line_end);
    let full_lines = r.many(full);
    let group = r.times(alphabet, GROUP);
    let groups_before = r.at_most(group, LINE / GROUP - 1);
    let last = strict_last_group(r, alphabet);
    r.all(&[line_end, full_lines, groups_before, last, line_end])
}

fn strict_last_group(r: &mut Regexes, alphabet: Regex) -> Regex {
    let padded = |r: &mut Regexes, pads: usize| {
        let characters = r.times(alphabet, GROUP - pads);
        let pads = r.word(&[bits::PAD; MOST_PADS][..pads]);
        r.then(characters, pads)
    };
    let choices = [padded(r, 0), padded(r, 1), padded(r, 2)];
    r.either(&choices)
}

fn lax(r: &mut Regexes) -> Grammar {
    let white = white(r);
    let any_white = r.many(white);
    let body = lax_body(r);
    grammar(
        r,
        Parts {
            number: LAX,
            lead: any_white,
            body,
            tail: any_white,
        },
    )
}

fn standard(r: &mut Regexes) -> Grammar {
    let (blank, line_end) = (blank(r), line_end(r));
    let blanks = r.many(blank);
    let line_end = r.optional(line_end);
    let tail = r.then(blanks, line_end);
    let body = standard_body(r);
    grammar(
        r,
        Parts {
            number: STANDARD,
            lead: EPSILON,
            body,
            tail,
        },
    )
}

fn strict(r: &mut Regexes) -> Grammar {
    let tail = line_end(r);
    let body = strict_body(r);
    grammar(
        r,
        Parts {
            number: STRICT,
            lead: EPSILON,
            body,
            tail,
        },
    )
}

/// The message is lead, opening, body, closing, tail; a bundle is zero or more messages.
fn grammar(r: &mut Regexes, parts: Parts) -> Grammar {
    let (begin, end, hyphens, hyphen) = (r.word(BEGIN), r.word(END), r.word(HYPHENS), r.word(b"-"));
    let label = label(r);
    let to_begin = r.then(parts.lead, begin);
    let to_opening = r.all(&[to_begin, label, hyphens]);
    let to_body = r.then(to_opening, parts.body);
    let to_first_hyphen = r.then(to_body, hyphen);
    let to_end = r.then(to_body, end);
    let to_closing = r.all(&[to_end, label, hyphens]);
    let message = r.then(to_closing, parts.tail);
    let bundle = r.many(message);
    Grammar {
        number: parts.number,
        message,
        bundle,
        to_begin,
        to_opening,
        to_first_hyphen,
        to_end,
        to_closing,
    }
}

impl Paper {
    pub fn new() -> Paper {
        let mut regexes = Regexes::new();
        let label = label(&mut regexes);
        let grammars = [lax(&mut regexes), standard(&mut regexes), strict(&mut regexes)];
        Paper {
            regexes,
            label,
            grammars,
        }
    }

    /// Checks 1 to 9 of the one message that fills the text.
    pub fn judge_read(&mut self, text: &[u8], grammar: u32) -> Judgement<u8> {
        let grammar = self.grammar_for(text, grammar)?;
        let course = self.follow(grammar, text, 0);
        if !course.whole || course.reach < text.len() {
            return Err(grammar_refusal(&course));
        }
        let message = message_of(grammar, text, &course)?;
        Ok(Found {
            result: message.data,
            label: message.label,
            family: message.family,
            style: style_of(text),
        })
    }

    /// Checks 1 to 9 of a bundle; the result is its table.
    pub fn judge_index(&mut self, text: &[u8], grammar: u32) -> Judgement<u32> {
        let messages = self.messages(text, grammar)?;
        Ok(Found::alone(table(&messages)))
    }

    /// The messages of a bundle, judged from the left, each by 3 to 9 before the next.
    fn messages(&mut self, text: &[u8], grammar: u32) -> Result<Vec<Message>, Refusal> {
        let grammar = self.grammar_for(text, grammar)?;
        let mut messages = Vec::new();
        let mut start = 0;
        while start < text.len() {
            let course = self.follow(grammar, text, start);
            if !course.whole {
                return Err(self.bundle_refusal(grammar, text, &course));
            }
            messages.push(message_of(grammar, text, &course)?);
            start = course.reach;
        }
        assert!(
            self.regexes.matches(grammar.bundle, text),
            "the messages fill the text, but it is no bundle"
        );
        Ok(messages)
    }

    /// The place is that of the whole text as a start of some bundle, which the message being read has to agree with.
    fn bundle_refusal(&mut self, grammar: Grammar, text: &[u8], course: &Course) -> Refusal {
        let (place, _) = self.regexes.longest_start(grammar.bundle, text);
        assert_eq!(
            place, course.reach,
            "the bundle and its message fail at different places"
        );
        grammar_refusal(course)
    }

    /// Checks 11 to 14, and 20; the result is the written text.
    pub fn judge_write(&mut self, label: &[u8], data: &[u8], style: u32) -> Judgement<u8> {
        let refused = |number| Err(Refusal { number, place: 0 });
        if label.len() > LABEL_LIMIT {
            refused(number::WRITER_LONG_LABEL)
        } else if !self.is_label(label) {
            refused(number::WRITER_NO_LABEL)
        } else if data.is_empty() {
            refused(number::WRITER_NO_DATA)
        } else if data.len() > DATA_LIMIT {
            refused(number::WRITER_LONG_DATA)
        } else {
            match line_end_of(style) {
                None => refused(number::WRITER_UNKNOWN_STYLE),
                Some(line_end) => Ok(Found::alone(written(label, data, line_end))),
            }
        }
    }

    pub fn is_label(&mut self, label: &[u8]) -> bool {
        self.regexes.matches(self.label, label)
    }

    /// Checks 1 and 2.
    fn grammar_for(&self, text: &[u8], grammar: u32) -> Result<Grammar, Refusal> {
        let known = self.grammars.iter().find(|known| known.number == grammar);
        let known = known.ok_or(Refusal {
            number: number::UNKNOWN_GRAMMAR,
            place: 0,
        })?;
        if text.len() > TEXT_LIMIT {
            return Err(Refusal {
                number: number::LONG_TEXT,
                place: 0,
            });
        }
        Ok(*known)
    }

    /// Follows a message from its start as far as it goes.
    fn follow(&mut self, grammar: Grammar, text: &[u8], start: usize) -> Course {
        let mut state = grammar;
        let mut ends = Ends::default();
        let mut reach = start;
        while reach < text.len() {
            let (symbol, length) = symbol_at(text, reach);
            let message = self.regexes.derivative(state.message, symbol);
            if message == EMPTY {
                break;
            }
            state = self.step(state, symbol);
            reach += length;
            self.note_ends(&state, reach, &mut ends);
        }
        Course {
            start,
            reach,
            whole: self.regexes.nullable(state.message),
            ends,
        }
    }

    fn step(&mut self, state: Grammar, symbol: usize) -> Grammar {
        let r = &mut self.regexes;
        Grammar {
            message: r.derivative(state.message, symbol),
            to_begin: r.derivative(state.to_begin, symbol),
            to_opening: r.derivative(state.to_opening, symbol),
            to_first_hyphen: r.derivative(state.to_first_hyphen, symbol),
            to_end: r.derivative(state.to_end, symbol),
            to_closing: r.derivative(state.to_closing, symbol),
            ..state
        }
    }

    fn note_ends(&self, state: &Grammar, place: usize, ends: &mut Ends) {
        let marks = [
            (state.to_begin, &mut ends.begin),
            (state.to_opening, &mut ends.opening),
            (state.to_first_hyphen, &mut ends.first_hyphen),
            (state.to_end, &mut ends.end),
            (state.to_closing, &mut ends.closing),
        ];
        for (regex, end) in marks {
            if self.regexes.nullable(regex) {
                assert!(end.is_none(), "a mark ends at two places");
                *end = Some(place);
            }
        }
    }
}

/// 3 if the longest start lacks the whole opening, 5 if it has the first hyphen of the closing, 4 between.
fn grammar_refusal(course: &Course) -> Refusal {
    let number = match (course.ends.opening, course.ends.first_hyphen) {
        (None, _) => number::IN_OPENING,
        (Some(_), None) => number::IN_BODY,
        (Some(_), Some(_)) => number::IN_CLOSING,
    };
    Refusal {
        number,
        place: course.reach,
    }
}

/// Checks 6 to 9 of a whole message.
fn message_of(grammar: Grammar, text: &[u8], course: &Course) -> Result<Message, Refusal> {
    let of_whole = |end: Option<usize>| end.expect("a whole message has all its marks");
    let opening = of_whole(course.ends.opening);
    let label = of_whole(course.ends.begin)..opening - HYPHENS.len();
    let closing_label = of_whole(course.ends.end)..of_whole(course.ends.closing) - HYPHENS.len();
    if label.len() > LABEL_LIMIT {
        return Err(Refusal {
            number: number::LONG_LABEL,
            place: label.start,
        });
    }
    if text[label.clone()] != text[closing_label.clone()] {
        return Err(Refusal {
            number: number::LABELS_DIFFER,
            place: closing_label.start,
        });
    }
    let first_hyphen = of_whole(course.ends.first_hyphen) - 1;
    let data = data_of(grammar, text, opening, first_hyphen)?;
    Ok(Message {
        start: course.start,
        length: course.reach - course.start,
        label: (label.start, label.len()),
        family: family_of(&text[label]),
        data,
    })
}

/// Checks 8 and 9 of the body between the opening and the closing.
fn data_of(grammar: Grammar, text: &[u8], opening: usize, closing: usize) -> Result<Vec<u8>, Refusal> {
    let body = &text[opening..closing];
    let is_character = |byte: &&u8| bits::value(**byte).is_some();
    let characters: Vec<u8> = body.iter().filter(is_character).copied().collect();
    let pads = body.iter().filter(|&&byte| byte == bits::PAD).count();
    if !matches!((characters.len() % GROUP, pads), (0, 0) | (2, 2) | (3, 1)) {
        return Err(Refusal {
            number: number::COUNTS_DO_NOT_FIT,
            place: closing,
        });
    }
    let (data, spare) = bits::decode(&characters);
    // Change request K8: only lax drops them.
    if grammar.number != LAX && spare.contains(&true) {
        let last = body
            .iter()
            .rposition(|byte| is_character(&byte))
            .expect("spare bits of a character");
        return Err(Refusal {
            number: number::SPARE_BITS,
            place: opening + last,
        });
    }
    Ok(data)
}

/// The count, then start, length, label offset, label length, data size and family of each message.
pub fn table(messages: &[Message]) -> Vec<u32> {
    let mut table = Vec::with_capacity(1 + NUMBERS_PER_MESSAGE * messages.len());
    table.push(messages.len() as u32);
    for message in messages {
        let (label_offset, label_length) = message.label;
        let numbers = [
            message.start,
            message.length,
            label_offset,
            label_length,
            message.data.len(),
        ];
        table.extend(numbers.map(|number| number as u32));
        table.push(message.family);
    }
    table
}

/// The kind of line end that a symbol is, if it is one.
fn kind_of(symbol: usize) -> Option<u32> {
    const LF_SYMBOL: usize = LF as usize;
    const CR_SYMBOL: usize = CR as usize;
    match symbol {
        LF_SYMBOL => Some(style::LF),
        CRLF => Some(style::CRLF),
        CR_SYMBOL => Some(style::CR),
        _ => None,
    }
}

/// The symbols of a text, from the left: CR followed by LF is always one.
fn symbols_of(text: &[u8]) -> impl Iterator<Item = usize> + '_ {
    let mut place = 0;
    std::iter::from_fn(move || {
        (place < text.len()).then(|| {
            let (symbol, length) = symbol_at(text, place);
            place += length;
            symbol
        })
    })
}

/// Which line ends a text has, every one counted.
fn style_of(text: &[u8]) -> u32 {
    let kinds = symbols_of(text).filter_map(kind_of);
    kinds.fold(style::NONE, |found, kind| match found {
        style::NONE => kind,
        _ if found == kind => kind,
        _ => style::MIXED,
    })
}

/// The line end of a style that the writer takes.
pub fn line_end_of(style: u32) -> Option<&'static [u8]> {
    match style {
        style::LF => Some(&[LF]),
        style::CRLF => Some(&[CR, LF]),
        style::CR => Some(&[CR]),
        _ => None,
    }
}

/// Opening, lines of 64 characters, the rest, closing, each with its line end.
fn written(label: &[u8], data: &[u8], line_end: &[u8]) -> Vec<u8> {
    let mut text = [BEGIN, label, HYPHENS, line_end].concat();
    for line in bits::encode(data).chunks(LINE) {
        text.extend_from_slice(line);
        text.extend_from_slice(line_end);
    }
    text.extend([END, label, HYPHENS, line_end].concat());
    text
}

/// Check 10, and what is lent: the result and then zeros, or zeros only. Only what is accepted has a style; label and family
/// are told where the room alone is too small, too.
pub fn answer<T: Copy + Default>(judgement: &Judgement<T>, room: usize) -> Answer<T> {
    let mut lent = vec![T::default(); room];
    match judgement {
        Err(refusal) => Answer {
            number: refusal.number,
            place: refusal.place,
            size: 0,
            label: (0, 0),
            family: OTHER,
            style: 0,
            lent,
        },
        Ok(found) => {
            let size = found.result.len();
            let fits = size <= room;
            if fits {
                lent[..size].copy_from_slice(&found.result);
            }
            let number = if fits { number::ACCEPTED } else { number::SMALL_OUTPUT };
            Answer {
                number,
                place: 0,
                size,
                label: found.label,
                family: found.family,
                style: if fits { found.style } else { 0 },
                lent,
            }
        }
    }
}

/// Where checks 1 to 9 refuse, the label's part has length zero, and it is reported at 0.
pub fn label_part(judgement: &Judgement<u8>) -> (usize, usize) {
    judgement.as_ref().map_or((0, 0), |found| found.label)
}
