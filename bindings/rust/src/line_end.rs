use core::error::Error;
use core::fmt;
use core::str::FromStr;

/// A line end, as [`write`](crate::write()) puts it behind each line.
///
/// ```
/// use zullifern::{LineEnding, WriteRefusal};
///
/// let mut out = [0; 100];
/// let text = zullifern::write("NOTE", b"foo", LineEnding::CrLf, &mut out)?;
/// assert_eq!(text, "-----BEGIN NOTE-----\r\nZm9v\r\n-----END NOTE-----\r\n");
/// # Ok::<(), WriteRefusal>(())
/// ```
#[derive(Debug, Clone, Copy, PartialEq, Eq, Hash)]
pub enum LineEnding {
    /// LF, as on Linux and macOS.
    Lf = 1,
    /// CR and LF, as on Windows and in mail. CR followed by LF is always this one, and never two line ends.
    CrLf = 2,
    /// CR with no LF behind it, as on old Macintoshes.
    Cr = 3,
}

impl LineEnding {
    /// All three, in the order of their numbers.
    pub const ALL: [LineEnding; 3] = [LineEnding::Lf, LineEnding::CrLf, LineEnding::Cr];

    /// The number by which the library calls it.
    pub const fn number(self) -> u32 {
        self as u32
    }

    /// `"LF"`, `"CRLF"` or `"CR"`.
    pub const fn name(self) -> &'static str {
        match self {
            LineEnding::Lf => "LF",
            LineEnding::CrLf => "CRLF",
            LineEnding::Cr => "CR",
        }
    }

    /// The line end itself.
    pub const fn as_str(self) -> &'static str {
        match self {
            LineEnding::Lf => "\n",
            LineEnding::CrLf => "\r\n",
            LineEnding::Cr => "\r",
        }
    }
}

impl fmt::Display for LineEnding {
    fn fmt(&self, f: &mut fmt::Formatter<'_>) -> fmt::Result {
        f.pad(self.name())
    }
}

/// A number or a name that no line end has.
#[derive(Debug, Clone, Copy, PartialEq, Eq)]
pub struct UnknownLineEnding;

impl fmt::Display for UnknownLineEnding {
    fn fmt(&self, f: &mut fmt::Formatter<'_>) -> fmt::Result {
        f.write_str("unknown line end: it is LF (1), CRLF (2) or CR (3)")
    }
}

impl Error for UnknownLineEnding {}

/// ```
/// use zullifern::{LineEnding, UnknownLineEnding};
///
/// assert_eq!(LineEnding::try_from(2), Ok(LineEnding::CrLf));
/// assert_eq!(LineEnding::try_from(4), Err(UnknownLineEnding));
/// ```
impl TryFrom<u32> for LineEnding {
    type Error = UnknownLineEnding;

    fn try_from(number: u32) -> Result<Self, UnknownLineEnding> {
        let known = LineEnding::ALL.into_iter().find(|ending| ending.number() == number);
        known.ok_or(UnknownLineEnding)
    }
}

/// ```
/// use zullifern::LineEnding;
///
/// assert_eq!("CRLF".parse(), Ok(LineEnding::CrLf));
/// ```
impl FromStr for LineEnding {
    type Err = UnknownLineEnding;

    fn from_str(name: &str) -> Result<Self, UnknownLineEnding> {
        let known = LineEnding::ALL.into_iter().find(|ending| ending.name() == name);
        known.ok_or(UnknownLineEnding)
    }
}

/// Which line ends a message was found with. All of them count: under lax those before the opening, between the characters and
/// behind the closing too.
///
/// ```
/// use zullifern::{read, Grammar, LineEnding, LineStyle, Refusal};
///
/// let mut out = [0; 1];
/// let saved = read(b"-----BEGIN A-----\r\nZg==\r\n-----END A-----\r\n", Grammar::Strict, &mut out)?;
/// assert_eq!(saved.style, LineStyle::Only(LineEnding::CrLf));
///
/// let pasted = read(b"-----BEGIN A-----\r\nZg==\r\n-----END A-----\n", Grammar::Strict, &mut out)?;
/// assert_eq!(pasted.style, LineStyle::Mixed);
/// # Ok::<(), Refusal>(())
/// ```
#[derive(Debug, Clone, Copy, PartialEq, Eq, Hash)]
pub enum LineStyle {
    /// None at all, which only lax takes.
    NoLineEnd,
    /// All of this kind.
    Only(LineEnding),
    /// More than one kind.
    Mixed,
}

impl LineStyle {
    /// All five, in the order of their numbers.
    pub const ALL: [LineStyle; 5] = [
        LineStyle::NoLineEnd,
        LineStyle::Only(LineEnding::Lf),
        LineStyle::Only(LineEnding::CrLf),
        LineStyle::Only(LineEnding::Cr),
        LineStyle::Mixed,
    ];

    /// The number by which the library calls it: 0 none, that of the line end where there is but one kind, 4 mixed.
    pub const fn number(self) -> u32 {
        match self {
            LineStyle::NoLineEnd => 0,
            LineStyle::Only(ending) => ending.number(),
            LineStyle::Mixed => 4,
        }
    }

    /// `"none"`, the line end's name, or `"mixed"`.
    pub const fn name(self) -> &'static str {
        match self {
            LineStyle::NoLineEnd => "none",
            LineStyle::Only(ending) => ending.name(),
            LineStyle::Mixed => "mixed",
        }
    }

    /// The line end, where there is but one kind: a strict text that was read so is restored by writing with it.
    pub const fn ending(self) -> Option<LineEnding> {
        match self {
            LineStyle::Only(ending) => Some(ending),
            LineStyle::NoLineEnd | LineStyle::Mixed => None,
        }
    }
}

impl fmt::Display for LineStyle {
    fn fmt(&self, f: &mut fmt::Formatter<'_>) -> fmt::Result {
        f.pad(self.name())
    }
}

impl From<LineEnding> for LineStyle {
    fn from(ending: LineEnding) -> LineStyle {
        LineStyle::Only(ending)
    }
}

/// A number that no style has.
#[derive(Debug, Clone, Copy, PartialEq, Eq)]
pub struct UnknownLineStyle;

impl fmt::Display for UnknownLineStyle {
    fn fmt(&self, f: &mut fmt::Formatter<'_>) -> fmt::Result {
        f.write_str("unknown style of line ends: it is none (0), LF (1), CRLF (2), CR (3) or mixed (4)")
    }
}

impl Error for UnknownLineStyle {}

/// ```
/// use zullifern::{LineEnding, LineStyle, UnknownLineStyle};
///
/// assert_eq!(LineStyle::try_from(3), Ok(LineStyle::Only(LineEnding::Cr)));
/// assert_eq!(LineStyle::try_from(5), Err(UnknownLineStyle));
/// ```
impl TryFrom<u32> for LineStyle {
    type Error = UnknownLineStyle;

    fn try_from(number: u32) -> Result<Self, UnknownLineStyle> {
        let known = LineStyle::ALL.into_iter().find(|style| style.number() == number);
        known.ok_or(UnknownLineStyle)
    }
}
