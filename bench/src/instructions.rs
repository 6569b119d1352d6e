//! Counts the instructions of one call of a side: this program runs itself under valgrind's callgrind, which collects
//! inside of [`bench_measured`] only.

use crate::cases::{self, Call, Case, Item, Task, Trial, SIDES};
use crate::grouped;
use crate::texts::{self, Messages};
use std::env;
use std::fmt::Debug;
use std::hint::black_box;
use std::io;
use std::process::{Command, ExitCode, Output};
use zullifern::{written_size, LineEnding, DATA_LIMIT};

/// The lengths of texts whose instructions are counted, in bytes.
const LENGTHS: [usize; 3] = [64 << 10, 1 << 20, 16 << 20];

/// The word for the mode in which this program calls a side once.
pub const ONCE: &str = "once";

const MEASURED: &str = "bench_measured";

/// What stands before callgrind's number.
const COLLECTED: &str = "Collected :";

/// A case for each length of the text.
struct Series {
    name: &'static str,
    case: fn(usize) -> Case,
}

const SERIES: [Series; 4] = [
    Series {
        name: "read, one message",
        case: |text| Case::strict(Call::Read, Messages::One(text)),
    },
    Series {
        name: "index, one message",
        case: |text| Case::strict(Call::Index, Messages::One(text)),
    },
    Series {
        name: "index, bundle",
        case: |text| Case::strict(Call::Index, Messages::Bundle(text)),
    },
    Series {
        name: "write",
        case: |text| Case::strict(Call::Write, Messages::Data(texts::most_data(text).min(DATA_LIMIT))),
    },
];

pub fn print_table() -> ExitCode {
    print_head();
    for series in SERIES {
        for side in SIDES {
            for length in LENGTHS {
                if let Err(why) = print_line(series.name, side, length) {
                    eprintln!("{why}");
                    return ExitCode::FAILURE;
                }
            }
        }
    }
    ExitCode::SUCCESS
}

fn print_head() {
    let written = written_size(texts::LABEL.len(), DATA_LIMIT, LineEnding::Lf);
    let [data, written] = [DATA_LIMIT, written].map(grouped);
    println!(
        "\
Strict text, instructions of one call as valgrind's callgrind counts them, with as much lent as the result needs.
text      Bytes of the text that is read, indexed or written: what fits in 64 KiB, 1 MiB and 16 MiB. The bundle has
          messages of about 2 KiB. Write takes {data} bytes of data at most, so its text has at most {written}.
"
    );
    println!(
        "{:18} {:8} {:>10} {:>14} {:>7}",
        "case", "side", "text", "instructions", "a byte"
    );
}

fn print_line(name: &str, side: &str, length: usize) -> Result<(), String> {
    let run = counted(name, side, length).map_err(|error| match error.kind() {
        io::ErrorKind::NotFound => "valgrind is not installed: without it instructions are not counted".to_string(),
        _ => format!("valgrind could not be run: {error}"),
    })?;
    let (said, errors) = (
        String::from_utf8_lossy(&run.stdout),
        String::from_utf8_lossy(&run.stderr),
    );
    let text: usize = said.trim().parse().map_err(|_| errors.to_string())?;
    let instructions = collected(&errors).ok_or_else(|| errors.to_string())?;
    println!(
        "{:18} {:8} {:>10} {:>14} {:7.2}",
        name,
        side,
        grouped(text),
        grouped(instructions),
        instructions as f64 / text as f64
    );
    Ok(())
}

/// Runs this program under callgrind, for one call.
fn counted(name: &str, side: &str, length: usize) -> io::Result<Output> {
    Command::new("valgrind")
        .args(["--tool=callgrind", "--callgrind-out-file=/dev/null"])
        .arg(format!("--toggle-collect={MEASURED}"))
        .arg(env::current_exe()?)
        .args([ONCE, side, name, &length.to_string()])
        .output()
}

/// How many instructions callgrind says that it has collected. They are none only where it did not find [`MEASURED`].
fn collected(errors: &str) -> Option<usize> {
    let (_, behind) = errors.split_once(COLLECTED)?;
    let number = behind.split_whitespace().next()?.parse().ok()?;
    (number > 0).then_some(number)
}

/// Calls a side once, as these words say, and prints how many bytes the text has.
pub fn once(side: &str, name: &str, length: &str) -> Option<()> {
    let side = SIDES.into_iter().position(|one| one == side)?;
    let series = SERIES.into_iter().find(|one| one.name == name)?;
    cases::with(&(series.case)(length.parse().ok()?), &Once(side));
    Some(())
}

/// The place of a side in [`SIDES`].
struct Once(usize);

impl Task for Once {
    fn run<T: Item, A: PartialEq + Debug>(&self, _: &Case, trial: &Trial<T, A>) {
        let side = &trial.sides[self.0];
        let mut lent = vec![T::from(0); trial.exact];
        let accepted = bench_measured(&mut || (side.call)(&mut lent).is_some());
        black_box(&lent);
        assert!(accepted, "an input was refused");
        println!("{}", side.text);
    }
}

/// What callgrind collects. It has its name in the program's symbols, and stays a function of its own.
#[no_mangle]
#[inline(never)]
fn bench_measured(call: &mut dyn FnMut() -> bool) -> bool {
    black_box(call())
}
