//! How many cases there were of each call, by what was asked for and by number.

use crate::known::FAMILIES;
use crate::paper::{number::*, style, LAX, STRICT};

#[derive(Clone, Copy, Debug, PartialEq, Eq)]
pub enum Call {
    Read,
    Label,
    Index,
    Write,
}

pub const CALLS: [Call; 4] = [Call::Read, Call::Label, Call::Index, Call::Write];

/// What tells a family: the read call, with enough room or not, and an entry of an index.
#[derive(Clone, Copy, Debug, PartialEq, Eq)]
pub enum Teller {
    Read,
    ReadWithoutRoom,
    Entry,
}

pub const TELLERS: [Teller; 3] = [Teller::Read, Teller::ReadWithoutRoom, Teller::Entry];
const NUMBERS: usize = WRITER_UNKNOWN_STYLE as usize + 1;
/// What is asked for are grammars, or of the writer styles. Both have the numbers 1, 2 and 3; all others have this slot.
pub const UNKNOWN: u32 = 0;
const SLOTS: usize = 4;
/// How many styles a message may be found in.
const FOUND: usize = style::MIXED as usize + 1;

const BY_READERS: [u32; 10] = [
    ACCEPTED,
    LONG_TEXT,
    IN_OPENING,
    IN_BODY,
    IN_CLOSING,
    LONG_LABEL,
    LABELS_DIFFER,
    COUNTS_DO_NOT_FIT,
    SPARE_BITS,
    SMALL_OUTPUT,
];
const BY_WRITER: [u32; 7] = [
    ACCEPTED,
    SMALL_OUTPUT,
    WRITER_LONG_LABEL,
    WRITER_NO_LABEL,
    WRITER_NO_DATA,
    WRITER_LONG_DATA,
    WRITER_UNKNOWN_STYLE,
];

#[derive(Default, Clone)]
pub struct Tally {
    numbers: [[[u64; NUMBERS]; SLOTS]; CALLS.len()],
    /// Of the messages that were read, by grammar and style.
    styles: [[u64; FOUND]; SLOTS],
    /// By what told them, grammar and family.
    families: [[[u64; FAMILIES]; SLOTS]; TELLERS.len()],
}

fn slot(asked: u32) -> usize {
    match asked as usize {
        asked if asked < SLOTS => asked,
        _ => UNKNOWN as usize,
    }
}

impl Tally {
    pub fn count(&mut self, call: Call, asked: u32, number: u32, style: u32) {
        let slot = slot(asked);
        self.numbers[call as usize][slot][number as usize] += 1;
        if call == Call::Read && number == ACCEPTED {
            self.styles[slot][style as usize] += 1;
        }
    }

    pub fn tell(&mut self, teller: Teller, grammar: u32, family: u32) {
        self.families[teller as usize][slot(grammar)][family as usize] += 1;
    }

    pub fn of_call(&self, call: Call) -> u64 {
        self.numbers[call as usize].iter().flatten().sum()
    }

    /// How many cases of a call and of what was asked for were accepted, and how many were refused whatever the room.
    pub fn accepted_and_refused(&self, call: Call, asked: u32) -> (u64, u64) {
        let numbers = &self.numbers[call as usize][slot(asked)];
        let [accepted, small] = [ACCEPTED, SMALL_OUTPUT].map(|number| numbers[number as usize]);
        (accepted, numbers.iter().sum::<u64>() - accepted - small)
    }

    pub fn total(&self) -> u64 {
        CALLS.iter().map(|&call| self.of_call(call)).sum()
    }

    pub fn add(&mut self, other: &Tally) {
        let ours = self.numbers.iter_mut().flatten().flatten();
        let ours = ours.chain(self.styles.iter_mut().flatten());
        let ours = ours.chain(self.families.iter_mut().flatten().flatten());
        let theirs = other.numbers.iter().flatten().flatten();
        let theirs = theirs.chain(other.styles.iter().flatten());
        let theirs = theirs.chain(other.families.iter().flatten().flatten());
        ours.zip(theirs).for_each(|(ours, theirs)| *ours += theirs);
    }

    /// One line for a call: how often each number occurred. For `label`, which has no number, it is the one for which the
    /// reader's checks 1 to 9 leave its part empty, or 0.
    pub fn line(&self, call: Call) -> String {
        let by_number = |number: usize| {
            let slots = self.numbers[call as usize].iter();
            slots.map(move |slot| slot[number]).sum::<u64>()
        };
        let counts = (0..NUMBERS)
            .map(|number| (number, by_number(number)))
            .filter(|&(_, count)| count > 0);
        let counts: Vec<String> = counts.map(|(number, count)| format!("{number}: {count}")).collect();
        format!(
            "{:5} {:>9} cases  {}",
            format!("{call:?}").to_lowercase(),
            self.of_call(call),
            counts.join(", ")
        )
    }

    /// One line for the styles of the messages that were read.
    pub fn styles_line(&self) -> String {
        let of_style = |style: usize| self.styles.iter().map(|slot| slot[style]).sum::<u64>();
        let counts: Vec<String> = (0..FOUND)
            .map(|style| format!("{style}: {}", of_style(style)))
            .collect();
        format!("styles that were read  {}", counts.join(", "))
    }

    /// One line for the families that something told.
    pub fn families_line(&self, teller: Teller) -> String {
        let slots = &self.families[teller as usize];
        let of_family = |family: usize| slots.iter().map(|slot| slot[family]).sum::<u64>();
        let counts: Vec<String> = (0..FAMILIES)
            .map(|family| format!("{family}: {}", of_family(family)))
            .collect();
        let by = match teller {
            Teller::Read => "by read",
            Teller::ReadWithoutRoom => "by read without room",
            Teller::Entry => "by entries of an index",
        };
        format!("families told {by}  {}", counts.join(", "))
    }

    /// The numbers that the paper lists for a call and what is asked for but that never occurred.
    pub fn missing(&self) -> Vec<(Call, u32, u32)> {
        let listed = CALLS
            .iter()
            .flat_map(|&call| (0..SLOTS as u32).map(move |asked| (call, asked)));
        let listed = listed.flat_map(|(call, asked)| listed_for(call, asked).map(move |n| (call, asked, n)));
        listed
            .filter(|&(call, asked, number)| self.numbers[call as usize][slot(asked)][number as usize] == 0)
            .collect()
    }

    /// The grammars and styles that may be found under them but never were.
    pub fn missing_styles(&self) -> Vec<(u32, u32)> {
        let listed = (LAX..=STRICT).flat_map(|grammar| (0..FOUND as u32).map(move |style| (grammar, style)));
        listed
            .filter(|&(grammar, style)| grammar == LAX || style != style::NONE)
            .filter(|&(grammar, style)| self.styles[slot(grammar)][style as usize] == 0)
            .collect()
    }

    /// The families that something may tell under each grammar but never did.
    pub fn missing_families(&self) -> Vec<(Teller, u32, u32)> {
        let listed = TELLERS.into_iter();
        let listed = listed.flat_map(|teller| (LAX..=STRICT).map(move |grammar| (teller, grammar)));
        let listed = listed.flat_map(|(teller, grammar)| (0..FAMILIES as u32).map(move |n| (teller, grammar, n)));
        listed
            .filter(|&(teller, grammar, family)| self.families[teller as usize][slot(grammar)][family as usize] == 0)
            .collect()
    }
}

/// Strict bodies fit by their grammar, lax drops spare bits, and the label call has no room. The writer takes no unknown style,
/// and refuses no other for it.
fn listed_for(call: Call, asked: u32) -> impl Iterator<Item = u32> {
    let numbers: &[u32] = match (call, asked) {
        (Call::Write, _) => &BY_WRITER,
        (_, UNKNOWN) => &[UNKNOWN_GRAMMAR],
        _ => &BY_READERS,
    };
    let unknown_style = call == Call::Write && asked == UNKNOWN;
    numbers.iter().copied().filter(move |&number| match number {
        COUNTS_DO_NOT_FIT => asked != STRICT,
        SPARE_BITS => asked != LAX,
        ACCEPTED => !unknown_style,
        SMALL_OUTPUT => call != Call::Label && !unknown_style,
        WRITER_UNKNOWN_STYLE => unknown_style,
        _ => true,
    })
}
