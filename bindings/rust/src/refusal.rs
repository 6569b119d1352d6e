use core::error::Error;
use core::fmt;

use crate::{Place, DATA_LIMIT, LABEL_LIMIT, TEXT_LIMIT};

/// Why a text was not read or indexed. Nothing of it is then in what was lent: that is all zeros.
///
/// The first check that fails is answered. Of one message they are made in the order of their numbers. Of a bundle 2 is made
/// first; then its messages are checked from the left, each by 3 to 9 before the next; and 10 is last. So a fault in the second
/// message is told even where the table has no room for the first, and a 7 in the first comes before a 3 in the second.
#[derive(Debug, Clone, Copy, PartialEq, Eq)]
#[allow(missing_docs)] // A variant's text tells what its field is.
pub enum Refusal {
    /// 2: the text is over [`TEXT_LIMIT`] bytes.
    TextTooLong { length: usize },
    /// 3: it fails in the opening boundary, at the first byte with which no text of the grammar goes on.
    Opening { place: Place },
    /// 4: it fails so in the body, between the boundaries.
    Body { place: Place },
    /// 5: it fails so in the closing boundary or, where one message is read, behind it. In a bundle an opening is due there, and
    /// that is 3.
    Closing { place: Place },
    /// 6: the opening label, which starts at the place, is over [`LABEL_LIMIT`] bytes.
    LabelTooLong { place: Place },
    /// 7: the closing label, which starts at the place, is not the opening label.
    LabelsDiffer { place: Place },
    /// 8: the characters and the pads before the place, the closing boundary, are no whole number of bytes.
    CountsDoNotFit { place: Place },
    /// 9: the last character, at the place, has spare bits, which belong to no byte, that are not zero; standard and strict
    /// refuse them.
    SpareBits { place: Place },
    /// 10, of the read call: the lent output is too small; the data need `needed` bytes.
    OutputTooSmall { needed: usize },
    /// 10, of the index call: the lent table is too small; the index needs `needed` numbers.
    TableTooSmall { needed: usize },
}

impl Refusal {
    /// The number that the library gives it.
    pub const fn number(&self) -> u32 {
        match self {
            Refusal::TextTooLong { .. } => 2,
            Refusal::Opening { .. } => 3,
            Refusal::Body { .. } => 4,
            Refusal::Closing { .. } => 5,
            Refusal::LabelTooLong { .. } => 6,
            Refusal::LabelsDiffer { .. } => 7,
            Refusal::CountsDoNotFit { .. } => 8,
            Refusal::SpareBits { .. } => 9,
            Refusal::OutputTooSmall { .. } | Refusal::TableTooSmall { .. } => 10,
        }
    }

    /// Where in the text it is, if it is of one place.
    pub const fn place(&self) -> Option<Place> {
        match *self {
            Refusal::Opening { place }
            | Refusal::Body { place }
            | Refusal::Closing { place }
            | Refusal::LabelTooLong { place }
            | Refusal::LabelsDiffer { place }
            | Refusal::CountsDoNotFit { place }
            | Refusal::SpareBits { place } => Some(place),
            _ => None,
        }
    }
}

/// A refusal by the grammar: what it is in, and whether the text goes wrong there or merely ends.
fn write_grammar(f: &mut fmt::Formatter<'_>, part: &str, place: Place) -> fmt::Result {
    let how = if place.at_end {
        "the text ends too early"
    } else {
        "the text goes wrong"
    };
    write!(f, "{how} {part}, at {place}")
}

impl fmt::Display for Refusal {
    fn fmt(&self, f: &mut fmt::Formatter<'_>) -> fmt::Result {
        match *self {
            Refusal::TextTooLong { length } => {
                write!(f, "the text has {length} bytes; at most {TEXT_LIMIT} are read")
            }
            Refusal::Opening { place } => write_grammar(f, "in the opening boundary", place),
            Refusal::Body { place } => write_grammar(f, "between the boundaries", place),
            Refusal::Closing { place } => write_grammar(f, "in the closing boundary or behind it", place),
            Refusal::LabelTooLong { place } => {
                write!(f, "the label at {place} is longer than {LABEL_LIMIT} bytes")
            }
            Refusal::LabelsDiffer { place } => {
                write!(f, "the closing label at {place} differs from the opening label")
            }
            Refusal::CountsDoNotFit { place } => {
                write!(
                    f,
                    "the base64 characters and pads before {place} are no whole number of bytes"
                )
            }
            Refusal::SpareBits { place } => {
                write!(
                    f,
                    "the last base64 character, at {place}, has spare bits that are not zero, which standard and strict refuse"
                )
            }
            Refusal::OutputTooSmall { needed } => {
                write!(f, "the lent output is too small: the data need {needed} bytes")
            }
            Refusal::TableTooSmall { needed } => {
                write!(f, "the lent table is too small: the index needs {needed} numbers")
            }
        }
    }
}

impl Error for Refusal {}

/// Why a label and data were not written. The lent output is then all zeros.
#[derive(Debug, Clone, Copy, PartialEq, Eq)]
#[allow(missing_docs)] // A variant's text tells what its field is.
pub enum WriteRefusal {
    /// 11: the label is over [`LABEL_LIMIT`] bytes.
    LabelTooLong { length: usize },
    /// 12: it is no label: that is empty, or characters 33 to 126 with at most one hyphen or space between two others.
    NotALabel,
    /// 13: there are no data.
    NoData,
    /// 14: the data are over [`DATA_LIMIT`] bytes.
    DataTooLong { length: usize },
    /// 10: the lent output is too small; the text needs `needed` bytes.
    OutputTooSmall { needed: usize },
}

impl WriteRefusal {
    /// The number that the library gives it.
    pub const fn number(&self) -> u32 {
        match self {
            WriteRefusal::LabelTooLong { .. } => 11,
            WriteRefusal::NotALabel => 12,
            WriteRefusal::NoData => 13,
            WriteRefusal::DataTooLong { .. } => 14,
            WriteRefusal::OutputTooSmall { .. } => 10,
        }
    }
}

impl fmt::Display for WriteRefusal {
    fn fmt(&self, f: &mut fmt::Formatter<'_>) -> fmt::Result {
        match *self {
            WriteRefusal::LabelTooLong { length } => {
                write!(f, "the label has {length} bytes; at most {LABEL_LIMIT} are written")
            }
            WriteRefusal::NotALabel => f.write_str(
                "this is no label: it may have printable ASCII characters, and one hyphen or one space between two others",
            ),
            WriteRefusal::NoData => f.write_str("there are no data to write"),
            WriteRefusal::DataTooLong { length } => {
                write!(f, "the data have {length} bytes; at most {DATA_LIMIT} are written")
            }
            WriteRefusal::OutputTooSmall { needed } => {
                write!(f, "the lent output is too small: the text needs {needed} bytes")
            }
        }
    }
}

impl Error for WriteRefusal {}
