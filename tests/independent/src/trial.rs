//! Runs the library's calls, each on outputs that hold old values, and compares all that they answer with the paper.

use crate::known::{family_of, OTHER};
use crate::lent::{Cell, Lent, LentReport};
use crate::paper::{answer, label_part, number, Answer, Found, Judgement, Paper};
use crate::paper::{BEGIN, DATA_LIMIT, GRAMMARS, NUMBERS_PER_MESSAGE, STRICT, STYLES};
use crate::random::Random;
use crate::tally::{Call, Tally, Teller};
use crate::texts::LONG_TEXT;
use std::thread;
use zullifern::raw::{self, Report};

/// A room that no result is too near to.
const LARGE: usize = 200;
/// Rooms around a line of data and a line of characters, which may be written at once.
const AT_ONCE: [usize; 6] = [47, 48, 49, 63, 64, 65];
/// Rooms from 0 up to the size and this many more are all of them.
const BEYOND: usize = 2;
/// No message is shorter.
const SHORTEST_MESSAGE: usize = 30;
/// What the boundaries have beside their labels, with their line ends and those of a short line.
const FRAME: usize = 40;
/// A random input that is refused is lent no more than this: if it is over its limit it then costs its own memory alone.
const LENT_IF_REFUSED: usize = LONG_TEXT;
/// Of longer inputs a disagreement shows the ends alone, of this length each.
const SHOWN_WHOLE: usize = 2 * LONG_TEXT;
const SHOWN_END: usize = 200;

/// Which rooms a call is tried with.
pub enum Rooms<'a> {
    /// None, all up to the size, and some more.
    All,
    /// Those around the ends.
    Edges,
    /// Those, and those around what may be written at once.
    Leaps,
    /// One less than the size, and the size.
    Tight,
    /// The size alone.
    Exact,
    /// One with the size or more, and any one around the ends.
    Two(&'a mut Random),
}

impl Rooms<'_> {
    fn around(&mut self, size: usize) -> Vec<usize> {
        let edges = [0, 1, size.saturating_sub(1), size, size + 1, size + LARGE];
        match self {
            Rooms::All => (0..=size + BEYOND).collect(),
            Rooms::Edges => edges.to_vec(),
            Rooms::Leaps => [edges, AT_ONCE].concat(),
            Rooms::Tight => edges[2..4].to_vec(),
            Rooms::Exact => vec![size],
            Rooms::Two(random) => vec![random.pick(&edges[3..]), random.pick(&edges)],
        }
    }

    /// Rooms around the size of the result, or of what a careless call might leave where there is none.
    fn of<T>(&mut self, judgement: &Judgement<T>, size_if_refused: usize) -> Vec<usize> {
        let size = match (judgement, &self) {
            (Ok(found), _) => found.result.len(),
            (Err(_), Rooms::Two(_)) => size_if_refused.min(LENT_IF_REFUSED),
            (Err(_), _) => size_if_refused,
        };
        self.around(size)
    }
}

/// What was put into a call, for the message on a disagreement.
struct Input<'a> {
    call: Call,
    /// The number of the grammar, or of the style in which to write.
    asked: u32,
    text: &'a [u8],
    data: Option<&'a [u8]>,
}

impl<'a> Input<'a> {
    fn text(call: Call, text: &'a [u8], grammar: u32) -> Input<'a> {
        Input {
            call,
            asked: grammar,
            text,
            data: None,
        }
    }
}

/// What the paper says of a text under one grammar.
pub struct Judged {
    pub message: Judgement<u8>,
    pub bundle: Judgement<u32>,
}

impl Judged {
    /// Whether all that is accepted here is accepted there with the same answers.
    fn is_within(&self, wider: &Judged) -> bool {
        let message = self.message.is_err() || self.message == wider.message;
        let bundle = self.bundle.is_err() || self.bundle == wider.bundle;
        message && bundle
    }
}

pub struct Trial {
    paper: Paper,
    pub tally: Tally,
    /// The stack of the library's calls, in bytes, where they are not to have that of the run.
    pub stack: Option<usize>,
    cases: u64,
}

impl Trial {
    pub fn new() -> Trial {
        Trial {
            paper: Paper::new(),
            tally: Tally::default(),
            stack: None,
            cases: 0,
        }
    }

    /// All calls on a text, under the three grammars.
    pub fn text(&mut self, text: &[u8], rooms: &mut Rooms) -> [Judged; 3] {
        let judged = GRAMMARS.map(|grammar| self.text_under(text, grammar, rooms));
        // The third demand: what a narrower grammar accepts, the wider one accepts with the same answers.
        if !judged[2].is_within(&judged[1]) || !judged[1].is_within(&judged[0]) {
            fail(&format!("a wider grammar answers otherwise\ntext: {}", shown(text)));
        }
        judged
    }

    /// All calls on a text under one grammar, of any number.
    pub fn text_under(&mut self, text: &[u8], grammar: u32, rooms: &mut Rooms) -> Judged {
        Judged {
            message: self.message_under(text, grammar, rooms),
            bundle: self.bundle_under(text, grammar, rooms),
        }
    }

    /// The calls on a text as one message.
    pub fn message_under(&mut self, text: &[u8], grammar: u32, rooms: &mut Rooms) -> Judgement<u8> {
        let message = self.paper.judge_read(text, grammar);
        let lent = rooms.of(&message, text.len() * 3 / 4);
        lent.iter().for_each(|&room| self.read(text, grammar, room, &message));
        self.label(text, grammar, &message);
        self.restore(text, grammar, &message);
        message
    }

    /// The call on a text as a bundle.
    pub fn bundle_under(&mut self, text: &[u8], grammar: u32, rooms: &mut Rooms) -> Judgement<u32> {
        let bundle = self.paper.judge_index(text, grammar);
        let most = 1 + text.len() / SHORTEST_MESSAGE * NUMBERS_PER_MESSAGE;
        let lent = rooms.of(&bundle, most);
        lent.iter().for_each(|&room| self.index(text, grammar, room, &bundle));
        bundle
    }

    /// Writing what was read, in the style read, restores an accepted strict text of one style whose data is within the limit.
    fn restore(&mut self, text: &[u8], grammar: u32, message: &Judgement<u8>) {
        let Ok(found) = message else { return };
        let (data, (offset, length)) = (&found.result, found.label);
        if grammar == STRICT && STYLES.contains(&found.style) && data.len() <= DATA_LIMIT {
            let restored = Ok(Found::alone(text.to_vec()));
            let label = &text[offset..offset + length];
            self.write_once(label, data, found.style, text.len(), &restored);
        }
    }

    /// Writes with the rooms given, reads back what was written, and hands that over if there is any.
    pub fn write(&mut self, label: &[u8], data: &[u8], style: u32, rooms: &mut Rooms) -> Option<Vec<u8>> {
        let judgement = self.paper.judge_write(label, data, style);
        for room in rooms.of(&judgement, most_written(label, data)) {
            self.write_once(label, data, style, room, &judgement);
        }
        let text = judgement.ok()?.result;
        self.read_back(label, data, style, &text);
        Some(text)
    }

    /// Under all grammars a written text has the label, its family, the data and the style.
    fn read_back(&mut self, label: &[u8], data: &[u8], style: u32, text: &[u8]) {
        let back = Ok(Found {
            result: data.to_vec(),
            label: (BEGIN.len(), label.len()),
            family: family_of(label),
            style,
        });
        for grammar in GRAMMARS {
            self.read(text, grammar, data.len(), &back);
            self.label(text, grammar, &back);
        }
    }

    pub fn read(&mut self, text: &[u8], grammar: u32, room: usize, judgement: &Judgement<u8>) {
        let input = Input::text(Call::Read, text, grammar);
        let expected = answer(judgement, room);
        self.compare(&input, &expected, |lent, report| raw::read(text, grammar, lent, report));
        let teller = match expected.number {
            number::ACCEPTED => Teller::Read,
            number::SMALL_OUTPUT => Teller::ReadWithoutRoom,
            _ => return,
        };
        self.tally.tell(teller, grammar, expected.family);
    }

    pub fn index(&mut self, text: &[u8], grammar: u32, room: usize, judgement: &Judgement<u32>) {
        let input = Input::text(Call::Index, text, grammar);
        let expected = answer(judgement, room);
        self.compare(&input, &expected, |lent, report| {
            raw::index(text, grammar, lent, report)
        });
        if expected.number == number::ACCEPTED {
            let entries = expected.lent[1..expected.size].chunks_exact(NUMBERS_PER_MESSAGE);
            entries.for_each(|entry| self.tally.tell(Teller::Entry, grammar, entry[NUMBERS_PER_MESSAGE - 1]));
        }
    }

    fn write_once(&mut self, label: &[u8], data: &[u8], style: u32, room: usize, judgement: &Judgement<u8>) {
        let input = Input {
            call: Call::Write,
            asked: style,
            text: label,
            data: Some(data),
        };
        let expected = answer(judgement, room);
        self.compare(&input, &expected, |lent, report| {
            raw::write(label, data, style, lent, report)
        });
    }

    /// The label call has no number: 0 stands in its report, and nothing else but the part.
    fn label(&mut self, text: &[u8], grammar: u32, judgement: &Judgement<u8>) {
        let input = Input::text(Call::Label, text, grammar);
        let expected = Answer {
            number: 0,
            place: 0,
            size: 0,
            label: label_part(judgement),
            family: OTHER,
            style: 0,
            lent: Vec::<u8>::new(),
        };
        let refused_by = judgement.as_ref().map_or_else(|refusal| refusal.number, |_| 0);
        self.compare_as(&input, refused_by, &expected, |_, report| {
            raw::label(text, grammar, report)
        });
    }

    fn compare<T: Cell>(
        &mut self,
        input: &Input,
        expected: &Answer<T>,
        call: impl FnOnce(&mut [T], &mut Report) -> u32 + Send,
    ) {
        self.compare_as(input, expected.number, expected, call);
    }

    /// One case: runs the call, compares, and counts it under the number given.
    fn compare_as<T: Cell>(
        &mut self,
        input: &Input,
        counted: u32,
        expected: &Answer<T>,
        call: impl FnOnce(&mut [T], &mut Report) -> u32 + Send,
    ) {
        self.cases += 1;
        let mut lent = Lent::new(expected.lent.len(), self.cases);
        let mut report = LentReport::new();
        let call = || call(lent.part_mut(), report.part_mut());
        let returned = match self.stack {
            None => call(),
            Some(size) => on_stack_of(size, call),
        };
        if let Some(difference) = difference(expected, returned, &report, &lent) {
            fail(&describe(input, expected.lent.len(), &difference));
        }
        self.tally.count(input.call, input.asked, counted, expected.style);
    }
}

/// No text that a careless call might write of a label and data is longer, in whichever style.
fn most_written(label: &[u8], data: &[u8]) -> usize {
    FRAME + 2 * (label.len() + data.len())
}

/// What a function answers in a thread of its own, whose stack has this many bytes.
fn on_stack_of<T: Send>(size: usize, function: impl FnOnce() -> T + Send) -> T {
    thread::scope(|scope| {
        let thread = thread::Builder::new().stack_size(size).spawn_scoped(scope, function);
        thread.expect("a thread with a small stack").join()
    })
    .expect("a call that ends")
}

fn expected_report<T>(expected: &Answer<T>) -> Report {
    Report {
        number: u64::from(expected.number),
        place: expected.place as u64,
        size: expected.size as u64,
        label_offset: expected.label.0 as u64,
        label_length: expected.label.1 as u64,
        family: u64::from(expected.family),
        style: u64::from(expected.style),
        reserved7: 0,
    }
}

/// In which way the call answered otherwise than expected, if it did.
fn difference<T: Cell>(expected: &Answer<T>, returned: u32, report: &LentReport, lent: &Lent<T>) -> Option<String> {
    let wanted = expected_report(expected);
    if returned != expected.number {
        return Some(format!(
            "expected number: {}\ngot number: {returned}, {:?}",
            expected.number,
            report.part()
        ));
    }
    if *report.part() != wanted {
        return Some(format!("expected: {wanted:?}\ngot: {:?}", report.part()));
    }
    if !lent.guards_untouched() || !report.guards_untouched() {
        return Some("bytes beside what was lent were changed".to_string());
    }
    let place = lent
        .part()
        .iter()
        .zip(&expected.lent)
        .position(|(got, wanted)| got != wanted)?;
    let (wanted, got) = (expected.lent[place], lent.part()[place]);
    Some(format!(
        "expected in the lent part at {place}: {wanted:?}\ngot: {got:?}\nreport: {:?}",
        report.part()
    ))
}

fn describe(input: &Input, room: usize, difference: &str) -> String {
    let (name, asked) = match input.call {
        Call::Write => ("label", "style"),
        _ => ("text", "grammar"),
    };
    let text = format!("{name}: {}", shown(input.text));
    let data = input
        .data
        .map_or(String::new(), |data| format!("\ndata: {}", shown(data)));
    let call = format!("{:?}", input.call).to_lowercase();
    format!(
        "{call} disagrees with the paper\n{text}{data}\n{asked}: {}\nroom: {room}\n{difference}",
        input.asked
    )
}

/// An input, or the ends of a very long one.
fn shown(bytes: &[u8]) -> String {
    let quoted = |part: &[u8]| format!("\"{}\"", part.escape_ascii());
    if bytes.len() <= SHOWN_WHOLE {
        return quoted(bytes);
    }
    let (first, last) = (&bytes[..SHOWN_END], &bytes[bytes.len() - SHOWN_END..]);
    format!("{} bytes, from {} to {}", bytes.len(), quoted(first), quoted(last))
}

/// Ends the run on the first disagreement.
pub fn fail(message: &str) -> ! {
    eprintln!("{message}");
    std::process::exit(1)
}
