//! Times the library, the yardsticks, OpenSSL's PEM_read_bio and Python's ssl on the same strict texts. The two latter
//! are called by a Python program that this one starts; where one is missing, its lines say so.

use crate::helper::{Found, Helper, PEERS};
use crate::texts::{Messages, Text, HUGE_TEXT, LONG_TEXT, SHORT_TEXT, WRITTEN};
use crate::timing::{self, Spread};
use crate::yardstick::YARDSTICKS;
use crate::{grouped, library};
use std::array;
use std::hint::black_box;
use zullifern::Grammar;

/// The peers, in the order in which the helper has them.
const NAMES: [&str; PEERS] = ["OpenSSL, PEM_read_bio", "Python, ssl"];

const STOPPED: &str = "the program that calls the peers has stopped";

const TEXTS: [Messages; 4] = [
    Messages::One(HUGE_TEXT),
    Messages::One(LONG_TEXT),
    Messages::One(SHORT_TEXT),
    Messages::Tiny(1),
];

/// The width of the column with the readers' names.
const NAME: usize = 22;

pub fn print_table() {
    let mut peers = Peers::start();
    print_head(&peers);
    for messages in TEXTS {
        let text = Text::of(messages, WRITTEN).bytes;
        let mut lent = Lent {
            out: vec![0; messages.data().len()],
            peers,
        };
        print_lines(&text, &mut lent);
        peers = lent.peers;
    }
    if let Some(helper) = peers.helper {
        helper.finish().expect(STOPPED);
    }
}

fn print_head(peers: &Peers) {
    println!(
        "\
One strict message, lines of 64 characters with LF, label CERTIFICATE, read by each reader in turn.
library   Into a lent output as long as the data.
ordinary  The same, with this benchmark's code in safe Rust as most would write it.
tuned     The same, with the fastest in safe Rust that we know.
OpenSSL   By ctypes from Python: a memory BIO is made, PEM_read_bio, and what came of both is freed.
Python    ssl.PEM_cert_to_DER_cert of a string. It looks at both boundaries and leaves the rest to base64.
          Both make their outputs anew on each call, and the interpreter's part is in their times: the text of 99 bytes
          shows how much that is at most. They do not check all that the strict grammar asks for.
us/call   The median of the microseconds for one call, and the quartiles. MB/s counts the bytes of the text.
times     The reader's time over the library's in the same round: 2 where it takes twice as long. The median.
"
    );
    for (name, found) in NAMES.iter().zip(&peers.found) {
        match found {
            Ok(version) => println!("{name}: {version}"),
            Err(why) => println!("{name}: {why}"),
        }
    }
    print!("\n{:>10}  {:NAME$}  {:>6}  ", "text", "reader", "rounds");
    println!("{:>9} {:24} {:>6}  {:>6}", "us/call", "(quartiles)", "MB/s", "times");
}

/// What the readers are lent: an output, and the program that calls the peers.
struct Lent {
    out: Vec<u8>,
    peers: Peers,
}

/// A reader, and what times it, or why it is not timed.
struct Reader<'a> {
    name: &'static str,
    timed: Result<Box<Timed<'a>>, &'static str>,
}

type Timed<'a> = dyn Fn(&mut Lent, u32) -> f64 + 'a;

fn readers<'a>(text: &'a [u8], peers: &mut Peers) -> Vec<Reader<'a>> {
    let by_library = |out: &mut [u8]| library::read(black_box(text), Grammar::Strict, out).is_some();
    let mut readers = vec![reader("library", by_library)];
    readers.extend(YARDSTICKS.map(|yardstick| {
        let by_yardstick = move |out: &mut [u8]| (yardstick.read)(black_box(text), out).is_ok();
        reader(yardstick.name, by_yardstick)
    }));
    let taken = peers.take(text);
    readers.extend(NAMES.iter().enumerate().map(|(at, name)| Reader {
        name,
        timed: taken[at].map(|()| Box::new(move |lent: &mut Lent, calls| lent.peers.time(at, calls)) as Box<Timed>),
    }));
    readers
}

/// A reader in this program, which answers whether it has read the text into the output.
fn reader<'a>(name: &'static str, read: impl Fn(&mut [u8]) -> bool + 'a) -> Reader<'a> {
    // The answer may not be left out as unused.
    let used = move |out: &mut [u8]| assert!(black_box(read(out)), "a text was refused");
    Reader {
        name,
        timed: Ok(Box::new(move |lent, calls| timing::each(calls, || used(&mut lent.out)))),
    }
}

fn print_lines(text: &[u8], lent: &mut Lent) {
    let readers = readers(text, &mut lent.peers);
    let sides: Vec<&Timed> = readers
        .iter()
        .filter_map(|reader| reader.timed.as_deref().ok())
        .collect();
    let all = timing::interleaved(lent, &sides);
    let mut left = all.iter();
    for reader in &readers {
        print!("{:>10}  {:NAME$}  ", grouped(text.len()), reader.name);
        match reader.timed {
            Ok(_) => print_times(left.next().expect("it has been timed"), &all[0], text.len()),
            Err(why) => println!("{why}"),
        }
    }
}

fn print_times(times: &[f64], library: &[f64], text: usize) {
    let (time, ratio) = (Spread::of(times), Spread::of_ratios(times, library));
    let (quartiles, speed) = (time.quartiles(2), text as f64 / time.median);
    print!("{:6}  {:9.2} {quartiles:24} {speed:6.0}  ", times.len(), time.median);
    println!("{:6.2}", ratio.median);
}

/// The peers, as far as they are there.
struct Peers {
    found: [Found; PEERS],
    helper: Option<Helper>,
}

impl Peers {
    fn start() -> Peers {
        match Helper::start() {
            Ok((helper, found)) => Peers {
                found,
                helper: Some(helper),
            },
            Err(error) => Peers {
                found: NAMES.map(|_| Err(format!("python3, which calls it, could not be run: {error}"))),
                helper: None,
            },
        }
    }

    /// Gives the peers a text to read, and answers of each why it is not to be timed, if so.
    fn take(&mut self, text: &[u8]) -> [Result<(), &'static str>; PEERS] {
        let Some(helper) = &mut self.helper else {
            return NAMES.map(|_| Err("not called: there is no python3"));
        };
        let taken = helper.take(text).expect(STOPPED);
        array::from_fn(|at| match (&self.found[at], taken[at]) {
            (Err(_), _) => Err("not installed"),
            (Ok(_), false) => Err("does not take this text"),
            (Ok(_), true) => Ok(()),
        })
    }

    /// The microseconds for one of so many calls of a peer that has taken the text.
    fn time(&mut self, peer: usize, calls: u32) -> f64 {
        let helper = self.helper.as_mut().expect("what is not there has taken no text");
        helper.time(peer, calls).expect(STOPPED)
    }
}
