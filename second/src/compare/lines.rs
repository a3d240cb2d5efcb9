//! The tree program's text: by the library's call, and by the program itself.

use super::draw;
use super::files::{file_of, hex, sinks_in, value_of_sinks};
use super::kinds::{self, Kind as CaseKind, PROGRAM};
use super::lent::{told, Outcome, Parts, Room};
use super::session::{Session, Task};
use super::Case;
use crate::files::{write_joined, write_sinks, Kind};
use crate::generate::{damaged_file, every_damage, file_damage, good_joins, Random};
use crate::lines::{tree_lines, MOST_INPUT};
use crate::proved::{self, Answer};
use std::io::Write;
use std::path::PathBuf;
use std::process::{Command, Stdio};

/// The cases of this family.
pub const CASES: &[Case] = &[
    ("lines of good files", lines_good),
    ("lines of many", lines_large),
    ("lines of damaged files", lines_damaged),
    ("lines of bad sinks", lines_bad),
    ("lines of odd inputs", lines_odd),
];

/// The call that makes the text.
struct Lines {
    input: Vec<u8>,
    room: Room,
}

impl Lines {
    fn new(input: &[u8]) -> Lines {
        Lines {
            input: input.to_vec(),
            room: Room {
                bytes: proved::LINES,
                ..Room::default()
            },
        }
    }

    /// The text goes to the front, and nowhere else.
    fn ask_reference(&self, lent: Parts<'_>) -> Answer {
        let text = tree_lines(&self.input);
        lent.bytes[..text.len()].copy_from_slice(text.as_bytes());
        told(Ok(text.len() as u64))
    }

    fn ask_proved(&self, lent: Parts<'_>) -> Answer {
        let out = lent.bytes.try_into().expect("the room of an array");
        told(Ok(proved::tree_lines(&self.input, out) as u64))
    }
}

impl Task for Lines {
    type Outcome = Outcome;

    fn describe(&self) -> String {
        format!("tree_lines, input {}", hex(&self.input))
    }

    fn reference(&self, salt: u64) -> Outcome {
        Outcome::of(self.room, salt, |lent| self.ask_reference(lent))
    }

    fn proved(&self, salt: u64) -> Outcome {
        Outcome::of(self.room, salt, |lent| self.ask_proved(lent))
    }

    fn tell(reference: &Outcome, proved: &Outcome) -> String {
        Outcome::tell(reference, proved)
    }

    fn kinds(&self, outcome: &Outcome) -> Vec<CaseKind> {
        let length = outcome.answer.map_or(0, |said| said.value as usize);
        text_kinds("tree_lines", &self.input, outcome.bytes(length))
    }
}

/// The kinds of a text for the given input.
fn text_kinds(call: &'static str, input: &[u8], text: &[u8]) -> Vec<CaseKind> {
    let (x, y) = sinks_in(input);
    kinds::of_text(call, &String::from_utf8_lossy(text), &x, &y)
}

/// The proved program, run in a process of its own.
struct Program {
    path: PathBuf,
    input: Vec<u8>,
}

impl Program {
    /// Standard output, or why there is none: a refusal is an answer, and no
    /// input makes the program fail. All inputs fit a pipe, so the
    /// writing cannot wait for a program that has not read yet.
    fn output(&self) -> Result<Vec<u8>, String> {
        let mut child = Command::new(&self.path)
            .stdin(Stdio::piped())
            .stdout(Stdio::piped())
            .spawn()
            .map_err(|error| format!("cannot start: {error}"))?;
        if let Some(mut pipe) = child.stdin.take() {
            // A program that knows the input is too long may stop reading.
            let _ = pipe.write_all(&self.input);
        }
        let output = child.wait_with_output();
        let output = output.map_err(|error| format!("cannot read: {error}"))?;
        match output.status.success() {
            true => Ok(output.stdout),
            false => Err(format!("ended with {}", output.status)),
        }
    }
}

impl Task for Program {
    type Outcome = Result<Vec<u8>, String>;

    fn describe(&self) -> String {
        let (path, bytes) = (self.path.display(), hex(&self.input));
        format!("program {path}, input {bytes}")
    }

    fn reference(&self, _salt: u64) -> Self::Outcome {
        Ok(tree_lines(&self.input).into_bytes())
    }

    fn proved(&self, _salt: u64) -> Self::Outcome {
        self.output()
    }

    fn tell(reference: &Self::Outcome, proved: &Self::Outcome) -> String {
        let text = |outcome: &Self::Outcome| match outcome {
            Ok(bytes) => format!("printed\n{}", String::from_utf8_lossy(bytes)),
            Err(why) => format!("{why}\n"),
        };
        let (ours, theirs) = (text(reference), text(proved));
        format!("  reference {ours}  proved program {theirs}")
    }

    fn kinds(&self, outcome: &Self::Outcome) -> Vec<CaseKind> {
        let text = outcome.as_deref().unwrap_or(&[]);
        text_kinds(PROGRAM, &self.input, text)
    }
}

/// Checks the program, where there is one, and the call.
pub fn check(session: &mut Session, input: &[u8]) {
    session.check(&Lines::new(input));
    if let Some(path) = session.program().map(PathBuf::from) {
        let input = input.to_vec();
        session.check(&Program { path, input });
    }
}

/// A sink file of any sinks, good or bad.
pub fn sink_file(lists: &draw::Lists) -> Vec<u8> {
    file_of(&[(1, &[1]), (2, &value_of_sinks(&lists.0, &lists.1))])
}

fn lines_good(session: &mut Session, random: &mut Random) {
    let n = session.small();
    for lists in draw::every_good(random, n) {
        check(session, &sink_file(&lists));
    }
}

fn lines_large(session: &mut Session, random: &mut Random) {
    let n = draw::large(random, session.round());
    check(session, &sink_file(&draw::good(random, n)));
}

fn lines_damaged(session: &mut Session, random: &mut Random) {
    let (x, y) = draw::good(random, 1 + session.round() % 3);
    let mut file = vec![0; Kind::Sinks.file_length(x.len())];
    assert_eq!(write_sinks(&x, &y, &mut file), Ok(file.len()));
    for damage in every_damage(random, &file) {
        let input = damaged_file(&file, &damage);
        session.check(&Lines::new(&input));
    }
    for _ in 0..3 {
        let damage = file_damage(random, file.len());
        check(session, &damaged_file(&file, &damage));
    }
}

fn lines_bad(session: &mut Session, random: &mut Random) {
    let n = session.small();
    for lists in draw::bad(random, n) {
        check(session, &sink_file(&lists));
    }
    let (x, y) = draw::good(random, n);
    let joins = good_joins(random, n);
    let mut joined = vec![0; Kind::Joined.file_length(n)];
    assert_eq!(write_joined(&x, &y, &joins, &mut joined), Ok(joined.len()));
    check(session, &joined);
}

/// Inputs around the longest, and files with odd numbers of sinks.
fn lines_odd(session: &mut Session, random: &mut Random) {
    if session.round() % 8 != 0 {
        return;
    }
    for length in [0, MOST_INPUT - 1, MOST_INPUT, MOST_INPUT + 1, 40_000] {
        check(session, &vec![1; length]);
        // A good sink file with bytes after it.
        let mut file = sink_file(&draw::good(random, 3));
        file.resize(length.max(file.len()), 0);
        check(session, &file);
    }
    for n in [0, 12, 13, 512, 513, 4000, 4096] {
        let lists = draw::any_number(random, n);
        check(session, &sink_file(&lists));
    }
}
