//! The program in Python that calls the peers for [`crate::peers`]: it is asked in lines, and answers in lines.

use std::io::{self, BufRead, BufReader, Write};
use std::process::{Child, ChildStdin, ChildStdout, Command, ExitStatus, Stdio};

const PROGRAM: &str = include_str!("../peers.py");

/// How many peers it has.
pub const PEERS: usize = 2;

/// A peer's version, or why it is missing.
pub type Found = Result<String, String>;

pub struct Helper {
    child: Child,
    questions: ChildStdin,
    answers: BufReader<ChildStdout>,
}

impl Helper {
    /// Starts it, and answers what it tells of the peers.
    pub fn start() -> io::Result<(Helper, [Found; PEERS])> {
        let mut command = Command::new("python3");
        command
            .args(["-c", PROGRAM])
            .stdin(Stdio::piped())
            .stdout(Stdio::piped());
        let mut child = command.spawn()?;
        let mut helper = Helper {
            questions: child.stdin.take().expect("it has been piped"),
            answers: BufReader::new(child.stdout.take().expect("it has been piped")),
            child,
        };
        let mut all = [(); PEERS].map(|()| Err(String::new()));
        for found in &mut all {
            *found = helper.found()?;
        }
        Ok((helper, all))
    }

    fn answer(&mut self) -> io::Result<String> {
        let mut line = String::new();
        match self.answers.read_line(&mut line)? {
            0 => Err(io::ErrorKind::UnexpectedEof.into()),
            _ => Ok(line.trim_end().to_string()),
        }
    }

    fn found(&mut self) -> io::Result<Found> {
        let line = self.answer()?;
        Ok(match line.split_once('\t') {
            Some(("there", version)) => Ok(version.to_string()),
            Some((_, why)) => Err(why.to_string()),
            None => Err(line),
        })
    }

    /// Gives it a text, and answers which of the peers take it.
    pub fn take(&mut self, text: &[u8]) -> io::Result<[bool; PEERS]> {
        writeln!(self.questions, "text {}", text.len())?;
        self.questions.write_all(text)?;
        let mut all = [false; PEERS];
        for taken in &mut all {
            *taken = self.answer()? == "taken";
        }
        Ok(all)
    }

    /// The microseconds for one of so many calls of a peer.
    pub fn time(&mut self, peer: usize, calls: u32) -> io::Result<f64> {
        writeln!(self.questions, "time {peer} {calls}")?;
        self.answer()?.parse().map_err(io::Error::other)
    }

    /// Ends it: it has no more questions to wait for.
    pub fn finish(mut self) -> io::Result<ExitStatus> {
        drop(self.questions);
        self.child.wait()
    }
}
