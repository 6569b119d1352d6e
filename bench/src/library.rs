//! The library's calls in the shape of those of [`crate::yardstick`]. A refusal is `None`.

use crate::yardstick::Message;
use zullifern::raw::{self, Report};
use zullifern::{Grammar, LineEnding};

pub fn read(text: &[u8], grammar: Grammar, out: &mut [u8]) -> Option<Message> {
    let mut report = Report::default();
    let number = raw::read(text, grammar.number(), out, &mut report);
    let start = report.label_offset as usize;
    let label = start..start + report.label_length as usize;
    (number == 0).then_some(Message {
        label,
        family: report.family as u32,
        size: report.size as usize,
    })
}

pub fn index(text: &[u8], grammar: Grammar, table: &mut [u32]) -> Option<usize> {
    let mut report = Report::default();
    let number = raw::index(text, grammar.number(), table, &mut report);
    (number == 0).then_some(report.size as usize)
}

pub fn write(label: &[u8], data: &[u8], ending: LineEnding, out: &mut [u8]) -> Option<usize> {
    let mut report = Report::default();
    let number = raw::write(label, data, ending.number(), out, &mut report);
    (number == 0).then_some(report.size as usize)
}
