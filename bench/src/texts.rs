//! The inputs: texts of made-up data, written plainly and apart from both sides that are compared.

pub const LABEL: &[u8] = b"CERTIFICATE";
pub const FAMILY: u32 = 1;

/// The lengths of the texts that are timed, in bytes.
pub const SHORT_TEXT: usize = 2 << 10;
pub const LONG_TEXT: usize = 64 << 10;
pub const HUGE_TEXT: usize = 10 << 20;

/// The data of a tiny message, whose strict text has 99 bytes.
pub const TINY_DATA: usize = 32;

/// Where a message has its label.
pub const LABEL_AT: usize = BEGIN.len();

const BEGIN: &[u8] = b"-----BEGIN ";
const END: &[u8] = b"-----END ";
const HYPHENS: &[u8] = b"-----";

const ALPHABET: &[u8; 64] = b"ABCDEFGHIJKLMNOPQRSTUVWXYZabcdefghijklmnopqrstuvwxyz0123456789+/";

/// Characters of a full line of strict text with its LF, and the bytes they stand for; the same of a group.
const LINE_WRITTEN: usize = 65;
const LINE_DATA: usize = 48;
const GROUP_WRITTEN: usize = 4;
const GROUP_DATA: usize = 3;

/// What both boundaries have beside their labels, with their LF.
const FRAME: usize = 32;

/// How the lines of a text are laid out.
#[derive(Clone, Copy, PartialEq, Eq)]
pub struct Layout {
    /// Characters of a full line of the body.
    pub columns: usize,
    /// A blank stands between so many characters of a line and the next.
    pub gap: usize,
    pub end: End,
}

/// What stands behind each line, those of the boundaries too.
#[derive(Clone, Copy, PartialEq, Eq)]
pub enum End {
    Lf,
    CrLf,
    BlankLf,
}

/// More than a line has: all characters are on one line, or no blank is between them.
pub const ENDLESS: usize = usize::MAX;

/// As the strict grammar asks it and as the library writes it.
pub const WRITTEN: Layout = Layout::columns(64);

impl Layout {
    pub const fn columns(columns: usize) -> Layout {
        Layout {
            columns,
            gap: ENDLESS,
            end: End::Lf,
        }
    }

    pub fn name(self) -> String {
        let columns = match self.columns {
            ENDLESS => "one line".to_string(),
            columns => columns.to_string(),
        };
        let end = match self.end {
            End::Lf => "LF",
            End::CrLf => "CRLF",
            End::BlankLf => "blank LF",
        };
        match self.gap {
            ENDLESS => format!("{columns} {end}"),
            gap => format!("{columns} {end} gaps of {gap}"),
        }
    }
}

impl End {
    pub fn bytes(self) -> &'static [u8] {
        match self {
            End::Lf => b"\n",
            End::CrLf => b"\r\n",
            End::BlankLf => b" \n",
        }
    }
}

/// The messages of a text.
#[derive(Clone, Copy, PartialEq, Eq)]
pub enum Messages {
    /// One whose strict text is as long as fits in this length.
    One(usize),
    /// One with so many bytes of data.
    Data(usize),
    /// As many whose strict texts are about 2 KiB as fit in this length.
    Bundle(usize),
    /// So many with [`TINY_DATA`].
    Tiny(usize),
}

impl Messages {
    pub fn name(self) -> String {
        match self {
            Messages::One(text) => binary(text),
            Messages::Data(data) => format!("{} of data", binary(data)),
            Messages::Bundle(text) => format!("bundle of {}", binary(text)),
            Messages::Tiny(count) => format!("{count} tiny"),
        }
    }

    /// How many there are, and the bytes of data of each.
    fn sizes(self) -> (usize, usize) {
        match self {
            Messages::One(text) => (1, most_data(text)),
            Messages::Data(data) => (1, data),
            Messages::Bundle(text) => {
                let size = most_data(SHORT_TEXT);
                (text / message(LABEL, &data(size)).len(), size)
            }
            Messages::Tiny(count) => (count, TINY_DATA),
        }
    }

    /// The data of all of them, one behind the other.
    pub fn data(self) -> Vec<u8> {
        let (count, size) = self.sizes();
        data(count * size)
    }
}

/// A number of bytes in words, where it is a whole number of KiB or MiB.
fn binary(bytes: usize) -> String {
    match bytes {
        _ if bytes.is_multiple_of(1 << 20) => format!("{} MiB", bytes >> 20),
        _ if bytes.is_multiple_of(1 << 10) => format!("{} KiB", bytes >> 10),
        _ => format!("{bytes} bytes"),
    }
}

/// A text and its index table.
pub struct Text {
    pub bytes: Vec<u8>,
    pub table: Vec<u32>,
}

impl Text {
    pub fn of(messages: Messages, layout: Layout) -> Text {
        let (count, size) = messages.sizes();
        let mut text = Text {
            bytes: Vec::new(),
            table: vec![count as u32],
        };
        for data in messages.data().chunks(size) {
            let start = text.bytes.len();
            text.bytes.extend(laid_out(LABEL, data, layout));
            let length = text.bytes.len() - start;
            let numbers = [start, length, start + LABEL_AT, LABEL.len(), data.len()];
            text.table.extend(numbers.map(|number| number as u32));
            text.table.push(FAMILY);
        }
        text
    }
}

/// Bytes without a pattern, the same in each run.
pub fn data(length: usize) -> Vec<u8> {
    let mut state: u32 = 0x9E37_79B9;
    let mut next = || {
        state ^= state << 13;
        state ^= state >> 17;
        state ^= state << 5;
        (state >> 24) as u8
    };
    (0..length).map(|_| next()).collect()
}

/// The most data whose strict text is no longer than this: full lines, and what whole groups fit on one more.
pub fn most_data(text: usize) -> usize {
    let room = text.saturating_sub(FRAME + 2 * LABEL.len());
    let last = (room % LINE_WRITTEN).saturating_sub(1);
    room / LINE_WRITTEN * LINE_DATA + last / GROUP_WRITTEN * GROUP_DATA
}

/// The strict text of a label and data.
pub fn message(label: &[u8], data: &[u8]) -> Vec<u8> {
    laid_out(label, data, WRITTEN)
}

/// The text of a label and data in a layout.
pub fn laid_out(label: &[u8], data: &[u8], layout: Layout) -> Vec<u8> {
    let end = layout.end.bytes();
    let characters: Vec<u8> = data.chunks(GROUP_DATA).flat_map(group).collect();
    let mut text = [BEGIN, label, HYPHENS, end].concat();
    for line in characters.chunks(layout.columns) {
        let parts: Vec<&[u8]> = line.chunks(layout.gap).collect();
        text.extend(parts.join(&b' '));
        text.extend(end);
    }
    text.extend([END, label, HYPHENS, end].concat());
    text
}

/// The four characters of one to three bytes.
fn group(bytes: &[u8]) -> [u8; GROUP_WRITTEN] {
    let byte = |at: usize| u32::from(bytes.get(at).copied().unwrap_or(0));
    let bits = byte(0) << 16 | byte(1) << 8 | byte(2);
    let mut characters = [18, 12, 6, 0].map(|shift| ALPHABET[(bits >> shift & 63) as usize]);
    characters[bytes.len() + 1..].fill(b'=');
    characters
}

#[cfg(test)]
mod tests {
    use super::*;

    fn shown(data: &[u8], layout: Layout) -> String {
        String::from_utf8(laid_out(b"A", data, layout)).expect("the text is ASCII")
    }

    #[test]
    fn most_data_fits_and_more_does_not() {
        let longest = FRAME + 2 * LABEL.len() + 2 * LINE_WRITTEN + 1;
        for text in 0..longest {
            let most = most_data(text);
            let length = |data: usize| message(LABEL, &vec![0; data]).len();
            assert!(most == 0 || length(most) <= text, "{text}");
            assert!(length(most + 1) > text, "{text}");
        }
    }

    #[test]
    fn layouts() {
        let layout = Layout::columns(6);
        assert_eq!(
            shown(b"foobar", layout),
            "-----BEGIN A-----\nZm9vYm\nFy\n-----END A-----\n"
        );
        let layout = Layout {
            gap: 3,
            end: End::CrLf,
            ..layout
        };
        assert_eq!(
            shown(b"foobar", layout),
            "-----BEGIN A-----\r\nZm9 vYm\r\nFy\r\n-----END A-----\r\n"
        );
        let layout = Layout {
            end: End::BlankLf,
            ..Layout::columns(ENDLESS)
        };
        assert_eq!(
            shown(b"fooba", layout),
            "-----BEGIN A----- \nZm9vYmE= \n-----END A----- \n"
        );
    }

    #[test]
    fn tables() {
        let text = Text::of(Messages::Tiny(2), WRITTEN);
        assert_eq!(text.bytes.len(), 198);
        assert_eq!(text.table, [2, 0, 99, 11, 11, 32, 1, 99, 99, 110, 11, 32, 1]);
    }
}
