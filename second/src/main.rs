//! The commands over the library: everything they decide is decided there.

use second::files::Kind;
use second::lines::{tree_lines, MOST_INPUT};
use second::text;
use std::env;
use std::io::{self, Read, Write};
use std::process::ExitCode;

const USAGE: &str = "usage: second tree                        sink file to the tree's lines
       second encode sinks|joined|tree    lines of text to a house file
       second decode sinks|joined|tree    house file to lines of text
These commands read standard input and write standard output.
       second compare [--rounds N] [--program PATH] [--trace]
                                          the proved library against this one
       second bench [--seed S]            times of both and of peers in C, as tables
These two want the features proved and bench, and take seed 1 if not told. That of compare is told by
the environment variable SEED; if not told, it goes 14 rounds, about 30 seconds under an emulator.";

fn main() -> ExitCode {
    let arguments: Vec<String> = env::args_os()
        .skip(1)
        .map(|argument| argument.to_string_lossy().into_owned())
        .collect();
    let words: Vec<&str> = arguments.iter().map(String::as_str).collect();
    match words.as_slice() {
        ["compare", rest @ ..] => return compare(rest),
        ["bench", rest @ ..] => return bench(rest),
        _ => {}
    }
    let kind = words.get(1).and_then(|word| text::kind_of_word(word));
    let answer = match (words.as_slice(), kind) {
        (["tree"], _) => tree(),
        (["encode", _], Some(kind)) => encode(kind),
        (["decode", _], Some(kind)) => decode(kind),
        _ => {
            eprintln!("{USAGE}");
            return ExitCode::from(2);
        }
    };
    match answer.and_then(|bytes| put(&bytes)) {
        Ok(()) => ExitCode::SUCCESS,
        Err(message) => {
            eprintln!("{message}");
            ExitCode::FAILURE
        }
    }
}

/// The proved library against the reference; a difference makes it fail.
#[cfg(feature = "proved")]
fn compare(rest: &[&str]) -> ExitCode {
    use second::compare::{options::Options, run};
    let seed = env::var_os("SEED").map(|value| value.to_string_lossy().into_owned());
    match Options::of_words(rest, seed.as_deref()).map(run) {
        Ok(true) => ExitCode::SUCCESS,
        Ok(false) => ExitCode::FAILURE,
        Err(message) => wrong_words(&message),
    }
}

#[cfg(not(feature = "proved"))]
fn compare(_rest: &[&str]) -> ExitCode {
    eprintln!("compare wants a build with the feature proved");
    ExitCode::from(2)
}

/// The times of all sides.
#[cfg(feature = "bench")]
fn bench(rest: &[&str]) -> ExitCode {
    use second::bench::{run, seed_of_words};
    match seed_of_words(rest).map(run) {
        Ok(()) => ExitCode::SUCCESS,
        Err(message) => wrong_words(&message),
    }
}

#[cfg(not(feature = "bench"))]
fn bench(_rest: &[&str]) -> ExitCode {
    eprintln!("bench wants a build with the feature bench");
    ExitCode::from(2)
}

#[cfg(feature = "proved")]
fn wrong_words(message: &str) -> ExitCode {
    eprintln!("{message}\n{USAGE}");
    ExitCode::from(2)
}

/// The program's text, a refusal's too, is an answer on standard output.
fn tree() -> Result<Vec<u8>, String> {
    // One byte over the limit is enough to know that the input is too long.
    let input = take(MOST_INPUT as u64 + 1)?;
    Ok(tree_lines(&input).into_bytes())
}

fn encode(kind: Kind) -> Result<Vec<u8>, String> {
    let input = take(u64::MAX)?;
    let text = String::from_utf8(input).map_err(|_| "the input is no text".to_string())?;
    text::encode(kind, &text).map_err(|trouble| trouble.to_string())
}

fn decode(kind: Kind) -> Result<Vec<u8>, String> {
    let file = take(u64::MAX)?;
    let lines = text::decode(kind, &file).map_err(|refusal| refusal.to_string())?;
    Ok(lines.into_bytes())
}

fn take(most: u64) -> Result<Vec<u8>, String> {
    let mut input = Vec::new();
    let read = io::stdin().lock().take(most).read_to_end(&mut input);
    match read {
        Ok(_) => Ok(input),
        Err(error) => Err(format!("cannot read: {error}")),
    }
}

fn put(bytes: &[u8]) -> Result<(), String> {
    let mut out = io::stdout().lock();
    let written = out.write_all(bytes).and_then(|()| out.flush());
    written.map_err(|error| format!("cannot write: {error}"))
}
