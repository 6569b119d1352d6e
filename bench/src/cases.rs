//! The cases: a call, a grammar and an input for it, as all sides take them.

use crate::library;
use crate::texts::{self, End, Layout, Messages, Text, FAMILY, LABEL, LABEL_AT, LONG_TEXT, WRITTEN};
use crate::yardstick::{Message, YARDSTICKS};
use std::fmt::Debug;
use std::hint::black_box;
use zullifern::{table_bound, Grammar, LineEnding, READ_LIMIT, TABLE_LIMIT, WRITTEN_LIMIT};

/// What is lent as `whole` for a text up to [`LONG_TEXT`]: bytes of an output, or numbers of a table.
pub const LONG_OUTPUT: usize = LONG_TEXT;
pub const LONG_TABLE: usize = table_bound(LONG_TEXT);

/// The sides, in the order of the tables: the library, and behind it the yardsticks.
pub const SIDES: [&str; 3] = ["library", YARDSTICKS[0].name, YARDSTICKS[1].name];

#[derive(Clone, Copy, PartialEq, Eq)]
pub enum Call {
    Read,
    Index,
    Write,
}

/// What makes a text one that is refused, and only at its end.
#[derive(Clone, Copy, PartialEq, Eq)]
pub enum Damage {
    LastByte,
    ClosingLabel,
}

#[derive(Clone, Copy, PartialEq, Eq)]
pub struct Case {
    pub call: Call,
    /// Of the library's side, and without a meaning where it writes. The yardsticks' is the strict one.
    pub grammar: Grammar,
    pub messages: Messages,
    pub layout: Layout,
    pub damage: Option<Damage>,
    /// Whether the most that a caller may need is lent too, and not only what the result needs.
    pub whole: bool,
}

impl Case {
    /// A call on strict text as it is written.
    pub const fn strict(call: Call, messages: Messages) -> Case {
        Case {
            call,
            grammar: Grammar::Strict,
            messages,
            layout: WRITTEN,
            damage: None,
            whole: false,
        }
    }

    pub fn name(&self) -> String {
        let messages = self.messages.name();
        let (grammar, layout) = (self.grammar.name(), self.layout.name());
        let damage = match self.damage {
            None => "",
            Some(Damage::LastByte) => ", bad last byte",
            Some(Damage::ClosingLabel) => ", other label",
        };
        match self.call {
            Call::Read => format!("read {grammar}, {layout}, {messages}{damage}"),
            Call::Index => format!("index {grammar}, {layout}, {messages}{damage}"),
            Call::Write if self.layout == WRITTEN => format!("write, {messages}"),
            Call::Write => format!("write, {layout}, {messages}"),
        }
    }

    /// What the library reads or indexes.
    fn text(&self) -> Text {
        self.damaged(Text::of(self.messages, self.layout))
    }

    /// What the yardsticks read or index where it is another text: the strict one of the same messages.
    fn strict_text(&self) -> Option<Text> {
        let other = self.grammar != Grammar::Strict && self.layout != WRITTEN;
        other.then(|| self.damaged(Text::of(self.messages, WRITTEN)))
    }

    fn damaged(&self, mut text: Text) -> Text {
        let last = text.bytes.len() - 1;
        match self.damage {
            None => (),
            Some(Damage::LastByte) => text.bytes[last] = b'-',
            // Before the last byte are the five hyphens.
            Some(Damage::ClosingLabel) => text.bytes[last - 6] ^= 1,
        }
        text
    }
}

/// What is lent: bytes of an output, or numbers of a table.
pub trait Item: Copy + PartialEq + From<u8> {}

impl Item for u8 {}
impl Item for u32 {}

/// Takes what is lent, and answers `None` where it refuses.
type Calling<'a, T, A> = dyn Fn(&mut [T]) -> Option<A> + 'a;

/// One side of a case.
pub struct Side<'a, T, A> {
    pub call: Box<Calling<'a, T, A>>,
    /// Whether it sets to zeros whatever of what is lent is not a result.
    pub clears: bool,
    /// How many bytes the text has.
    pub text: usize,
    /// What it has to answer, and to leave at the start of what is lent where it accepts.
    pub answer: Option<A>,
    pub result: &'a [T],
}

/// A case with its inputs made.
pub struct Trial<'a, T, A> {
    /// In the order of [`SIDES`].
    pub sides: [Side<'a, T, A>; SIDES.len()],
    /// How much the result needs; where a text is refused, that of the text without its damage.
    pub exact: usize,
    /// The most that a caller may need.
    pub whole: usize,
}

/// What is done with a case.
pub trait Task {
    fn run<T: Item, A: PartialEq + Debug>(&self, case: &Case, trial: &Trial<T, A>);
}

/// Makes the inputs of a case, and does a task with it.
pub fn with(case: &Case, task: &impl Task) {
    match case.call {
        Call::Read => with_read(case, task),
        Call::Index => with_index(case, task),
        Call::Write => with_write(case, task),
    }
}

/// What is lent as `whole`, of these for a long text and for the longest one.
fn whole(text: usize, long: usize, most: usize) -> usize {
    if text <= LONG_TEXT {
        long
    } else {
        most
    }
}

fn with_read(case: &Case, task: &impl Task) {
    let (text, data) = (case.text().bytes, case.messages.data());
    let other = case.strict_text().map(|other| other.bytes);
    let strict = other.as_ref().unwrap_or(&text);
    let message = || Message {
        label: LABEL_AT..LABEL_AT + LABEL.len(),
        family: FAMILY,
        size: data.len(),
    };
    let library = Side {
        call: Box::new(|out| library::read(black_box(&text), case.grammar, out)),
        clears: true,
        text: text.len(),
        answer: case.damage.is_none().then(message),
        result: &data,
    };
    let [ordinary, tuned] = YARDSTICKS.map(|yardstick| Side {
        call: Box::new(move |out| (yardstick.read)(black_box(strict), out).ok()),
        clears: false,
        text: strict.len(),
        answer: case.damage.is_none().then(message),
        result: &data[..],
    });
    let trial = Trial {
        sides: [library, ordinary, tuned],
        exact: data.len(),
        whole: whole(text.len(), LONG_OUTPUT, READ_LIMIT),
    };
    task.run(case, &trial);
}

fn with_index(case: &Case, task: &impl Task) {
    let (text, other) = (case.text(), case.strict_text());
    let strict = other.as_ref().unwrap_or(&text);
    let answer = case.damage.is_none().then_some(text.table.len());
    let library = Side {
        call: Box::new(|table| library::index(black_box(&text.bytes), case.grammar, table)),
        clears: true,
        text: text.bytes.len(),
        answer,
        result: &text.table,
    };
    let [ordinary, tuned] = YARDSTICKS.map(|yardstick| Side {
        call: Box::new(move |table| (yardstick.index)(black_box(&strict.bytes), table).ok()),
        clears: false,
        text: strict.bytes.len(),
        answer,
        result: &strict.table[..],
    });
    let trial = Trial {
        sides: [library, ordinary, tuned],
        exact: text.table.len(),
        whole: whole(text.bytes.len(), LONG_TABLE, TABLE_LIMIT),
    };
    task.run(case, &trial);
}

/// The line end that the library is asked for.
fn ending(end: End) -> LineEnding {
    match end {
        End::Lf => LineEnding::Lf,
        End::CrLf => LineEnding::CrLf,
        End::BlankLf => unreachable!("no side writes blanks"),
    }
}

fn with_write(case: &Case, task: &impl Task) {
    let (data, end) = (&case.messages.data(), case.layout.end);
    let text = texts::laid_out(LABEL, data, case.layout);
    let library = Side {
        call: Box::new(|out| library::write(black_box(LABEL), black_box(data), ending(end), out)),
        clears: true,
        text: text.len(),
        answer: Some(text.len()),
        result: &text,
    };
    let [ordinary, tuned] = YARDSTICKS.map(|yardstick| Side {
        call: Box::new(move |out| (yardstick.write)(black_box(LABEL), black_box(data), end.bytes(), out).ok()),
        clears: false,
        text: text.len(),
        answer: Some(text.len()),
        result: &text[..],
    });
    let trial = Trial {
        sides: [library, ordinary, tuned],
        exact: text.len(),
        whole: whole(text.len(), LONG_OUTPUT, WRITTEN_LIMIT),
    };
    task.run(case, &trial);
}
