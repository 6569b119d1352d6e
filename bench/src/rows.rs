//! The cases that are timed, in the order of the table.

use crate::cases::{Call, Case, Damage};
use crate::texts::{End, Layout, Messages, ENDLESS, HUGE_TEXT, LONG_TEXT, SHORT_TEXT, WRITTEN};
use zullifern::Grammar::{self, Lax, Standard, Strict};

const LENGTHS: [usize; 3] = [HUGE_TEXT, LONG_TEXT, SHORT_TEXT];

/// What is written: 8 MiB is the most, and 44 KiB give a text of nearly 64 KiB.
const DATA: [usize; 3] = [8 << 20, 44 << 10, 2 << 10];

/// Widths other than 64 and 76: whole groups on a line, and not; shorter than the strict ones, and longer.
const WIDTHS: [usize; 8] = [48, 60, 61, 65, 70, 72, 100, 128];

const CRLF: Layout = ending(WRITTEN, End::CrLf);
const BLANKS: Layout = ending(WRITTEN, End::BlankLf);
const MIME: Layout = Layout::columns(76);
const MIME_CRLF: Layout = ending(MIME, End::CrLf);
const ONE_LINE: Layout = Layout::columns(ENDLESS);
const GAPS: Layout = Layout { gap: 16, ..WRITTEN };

/// The common layouts beside [`WRITTEN`] under the strict grammar.
const COMMON: [(Grammar, Layout); 5] = [
    (Strict, CRLF),
    (Standard, WRITTEN),
    (Lax, WRITTEN),
    (Standard, MIME),
    (Lax, MIME),
];

/// How many tiny messages are indexed.
const MANY: usize = 400;

const fn ending(layout: Layout, end: End) -> Layout {
    Layout { end, ..layout }
}

pub fn all() -> Vec<Case> {
    [reads(), other_reads(), indexes(), bundles(), writes(), refusals()].concat()
}

/// A case on one message whose strict text is as long as fits.
fn one(call: Call, grammar: Grammar, layout: Layout, text: usize) -> Case {
    Case {
        grammar,
        layout,
        ..Case::strict(call, Messages::One(text))
    }
}

fn lent_whole(case: Case) -> Case {
    Case { whole: true, ..case }
}

/// The common layouts, in each length.
fn reads() -> Vec<Case> {
    let strict = LENGTHS.map(|text| lent_whole(one(Call::Read, Strict, WRITTEN, text)));
    let others = COMMON.map(|(grammar, layout)| LENGTHS.map(|text| one(Call::Read, grammar, layout, text)));
    let tiny = Case::strict(Call::Read, Messages::Tiny(1));
    [&strict[..], others.as_flattened(), &[tiny]].concat()
}

fn other_reads() -> Vec<Case> {
    let widths = WIDTHS.map(Layout::columns);
    let layouts = [&[CRLF, MIME_CRLF][..], &widths, &[BLANKS, ONE_LINE]].concat();
    let under = |grammar| {
        layouts
            .iter()
            .map(move |&layout| one(Call::Read, grammar, layout, LONG_TEXT))
    };
    let mut cases: Vec<Case> = [Standard, Lax].into_iter().flat_map(under).collect();
    cases.push(one(Call::Read, Lax, GAPS, LONG_TEXT));
    cases
}

fn indexes() -> Vec<Case> {
    let strict = LENGTHS.map(|text| lent_whole(one(Call::Index, Strict, WRITTEN, text)));
    let under = |(grammar, layout)| one(Call::Index, grammar, layout, LONG_TEXT);
    let common = COMMON.map(under);
    let blanks = [(Standard, BLANKS), (Lax, BLANKS), (Lax, GAPS)].map(under);
    [&strict[..], &common, &blanks].concat()
}

fn bundles() -> Vec<Case> {
    let under = |grammar, messages| Case {
        grammar,
        ..Case::strict(Call::Index, messages)
    };
    let [huge, long] = [HUGE_TEXT, LONG_TEXT].map(Messages::Bundle);
    let tiny = Messages::Tiny(MANY);
    vec![
        lent_whole(under(Strict, huge)),
        lent_whole(under(Strict, long)),
        under(Standard, long),
        under(Lax, huge),
        under(Lax, long),
        under(Strict, tiny),
        under(Standard, tiny),
        under(Lax, tiny),
    ]
}

fn writes() -> Vec<Case> {
    let written = |messages| Case::strict(Call::Write, messages);
    let with_crlf = |case| Case { layout: CRLF, ..case };
    let lf = DATA.map(|data| lent_whole(written(Messages::Data(data))));
    let crlf = DATA.map(|data| with_crlf(written(Messages::Data(data))));
    let tiny = written(Messages::Tiny(1));
    [&lf[..], &[tiny], &crlf, &[with_crlf(tiny)]].concat()
}

fn refusals() -> Vec<Case> {
    let refused = |call, grammar, text, damage| Case {
        damage: Some(damage),
        ..one(call, grammar, WRITTEN, text)
    };
    vec![
        refused(Call::Read, Strict, LONG_TEXT, Damage::LastByte),
        refused(Call::Read, Strict, SHORT_TEXT, Damage::LastByte),
        refused(Call::Read, Standard, LONG_TEXT, Damage::LastByte),
        refused(Call::Read, Lax, LONG_TEXT, Damage::LastByte),
        refused(Call::Read, Strict, LONG_TEXT, Damage::ClosingLabel),
        refused(Call::Index, Strict, LONG_TEXT, Damage::LastByte),
    ]
}
