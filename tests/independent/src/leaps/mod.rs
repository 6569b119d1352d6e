//! Inputs that reach the edges of leaps. A leap is what may be taken at once: a group, a block of 16 or of 64 characters, a
//! line with its line end, a run of blanks, a word of a boundary, a label with its hyphens; by the writer, a line of 48 bytes.
//! No answer may show whether there was one.

mod bodies;
mod boundaries;
mod damage;
mod line_ends;
mod lines;
mod outputs;
mod random_lines;

use crate::paper::{style, LAX, STANDARD, STRICT};
use crate::random::Random;
use crate::tally::{Call, Tally};
use crate::trial::{fail, Trial};
pub use random_lines::text as random_text;

/// Cases of one kind.
struct Batch {
    name: &'static str,
    /// The calls, and their grammars or styles, that it tries with inputs that are accepted and with ones that are refused.
    tried: &'static [(Call, u32)],
    run: fn(&mut Trial, &mut Random),
}

const INDEX: &[(Call, u32)] = &[(Call::Index, LAX), (Call::Index, STANDARD), (Call::Index, STRICT)];
const READERS: &[(Call, u32)] = &[
    (Call::Read, LAX),
    (Call::Read, STANDARD),
    (Call::Read, STRICT),
    (Call::Label, LAX),
    (Call::Label, STANDARD),
    (Call::Label, STRICT),
    (Call::Index, LAX),
    (Call::Index, STANDARD),
    (Call::Index, STRICT),
];
const READ_LAX: &[(Call, u32)] = &[(Call::Read, LAX)];
const READ_LINES: &[(Call, u32)] = &[(Call::Read, STANDARD), (Call::Read, STRICT)];
const READ_STRICT: &[(Call, u32)] = &[(Call::Read, STRICT)];
const WRITER: &[(Call, u32)] = &[
    (Call::Write, style::LF),
    (Call::Write, style::CRLF),
    (Call::Write, style::CR),
];

const fn batch(name: &'static str, tried: &'static [(Call, u32)], run: fn(&mut Trial, &mut Random)) -> Batch {
    Batch { name, tried, run }
}

const BATCHES: [Batch; 17] = [
    batch("plain lines", READERS, bodies::plain),
    batch("spaced lines", READERS, bodies::spaced),
    batch("ragged lines", READERS, bodies::ragged),
    batch("damaged lines", READERS, bodies::damaged),
    batch("damaged bundles", INDEX, bodies::damaged_in_bundles),
    batch("starts", READERS, bodies::starts),
    batch("bytes", READERS, bodies::every_byte),
    batch("runs of white", READERS, bodies::runs),
    batch("odd line ends", READ_LINES, line_ends::odd),
    batch("mixed line ends", READ_STRICT, line_ends::mixed),
    batch("line ends alone", READ_LAX, line_ends::alone),
    batch("boundaries", READERS, boundaries::damaged),
    batch("labels", READERS, boundaries::labels),
    batch("joints", INDEX, boundaries::joints),
    batch("rooms", READERS, outputs::rooms),
    batch("long texts", READERS, long),
    batch("written", WRITER, outputs::written),
];

fn long(trial: &mut Trial, random: &mut Random) {
    bodies::long(trial, random);
    line_ends::long(trial, random);
}

/// Runs all batches, and tells how many cases each had.
pub fn run(trial: &mut Trial, random: &mut Random) -> Vec<String> {
    let counted = |batch: &Batch| format!("{} {}", batch.name, batch.cases(trial, random));
    BATCHES.iter().map(counted).collect()
}

impl Batch {
    fn cases(&self, trial: &mut Trial, random: &mut Random) -> u64 {
        let before = std::mem::take(&mut trial.tally);
        (self.run)(trial, random);
        self.require_both(&trial.tally);
        let count = trial.tally.total();
        trial.tally.add(&before);
        count
    }

    /// A batch that no longer comes upon both, what is accepted and what is refused, is noticed.
    fn require_both(&self, tally: &Tally) {
        for &(call, asked) in self.tried {
            let (accepted, refused) = tally.accepted_and_refused(call, asked);
            if accepted == 0 || refused == 0 {
                let counts = format!("{accepted} cases are accepted, {refused} refused");
                fail(&format!("{}, {call:?}, asked for {asked}: {counts}", self.name));
            }
        }
    }
}

/// Each of the first with each of the second.
fn pairs<A: Copy, B: Copy>(first: &[A], second: &[B]) -> Vec<(A, B)> {
    let with = |a: A| second.iter().map(move |&b| (a, b));
    first.iter().flat_map(|&a| with(a)).collect()
}
