//! House files as lines of text, and back.
//!
//! One sink per line, "x y". For joined and tree files an empty line follows
//! and then one pair per line, "a b". The empty line stands there even where
//! no pair follows, so that the kinds stay apart.

use crate::files::{self, Kind};
use crate::refusal::Refusal;
use std::fmt;
use std::fmt::Write;
use std::str::FromStr;

/// Why a text was not made into a file.
#[derive(Clone, Debug, PartialEq, Eq)]
pub enum Trouble {
    /// The text is malformed: the line, counted from 1, and what is wrong.
    Malformed(usize, &'static str),
    /// The text was read, but the file's writer refused it.
    Refused(Refusal),
}

impl fmt::Display for Trouble {
    fn fmt(&self, out: &mut fmt::Formatter<'_>) -> fmt::Result {
        match self {
            Trouble::Malformed(line, why) => write!(out, "line {line}: {why}"),
            Trouble::Refused(refusal) => write!(out, "{refusal}"),
        }
    }
}

/// The kind of file by its word on the command line.
pub fn kind_of_word(word: &str) -> Option<Kind> {
    match word {
        "sinks" => Some(Kind::Sinks),
        "joined" => Some(Kind::Joined),
        "tree" => Some(Kind::Tree),
        _ => None,
    }
}

/// The house file of the given kind from its lines.
pub fn encode(kind: Kind, text: &str) -> Result<Vec<u8>, Trouble> {
    let listing = parse(kind, text)?;
    let (x, y, joins) = (&listing.x, &listing.y, &listing.joins);
    let mut out = vec![0; kind.file_length(x.len())];
    let written = match kind {
        Kind::Sinks => files::write_sinks(x, y, &mut out),
        Kind::Joined => files::write_joined(x, y, joins, &mut out),
        Kind::Tree => files::write_tree(x, y, joins, &mut out),
    };
    written.map_err(Trouble::Refused)?;
    Ok(out)
}

/// The lines of a house file of the given kind.
pub fn decode(kind: Kind, file: &[u8]) -> Result<String, Refusal> {
    let contents = files::contents(kind, file)?;
    let mut out = String::new();
    // Writing to a String cannot fail.
    for (x, y) in contents.x.iter().zip(&contents.y) {
        let _ = writeln!(out, "{x} {y}");
    }
    if kind != Kind::Sinks {
        out.push('\n');
    }
    for pair in contents.joins.chunks_exact(2) {
        let _ = writeln!(out, "{} {}", pair[0], pair[1]);
    }
    Ok(out)
}

/// The numbers of a text, before any check of their meaning.
#[derive(Debug, Default, PartialEq, Eq)]
struct Listing {
    x: Vec<i32>,
    y: Vec<i32>,
    joins: Vec<u16>,
}

fn parse(kind: Kind, text: &str) -> Result<Listing, Trouble> {
    let mut listing = Listing::default();
    let mut lines = 0;
    let mut in_pairs = false;
    for (at, line) in text.lines().enumerate() {
        lines = at + 1;
        if line.trim().is_empty() {
            if in_pairs || kind == Kind::Sinks {
                return Err(Trouble::Malformed(lines, "an empty line too many"));
            }
            in_pairs = true;
        } else if in_pairs {
            let (a, b): (u16, u16) = two_numbers(lines, line)?;
            listing.joins.extend([a, b]);
        } else {
            let (x, y) = two_numbers(lines, line)?;
            listing.x.push(x);
            listing.y.push(y);
        }
    }
    if kind != Kind::Sinks && !in_pairs {
        let why = "no empty line between sinks and pairs";
        return Err(Trouble::Malformed(lines + 1, why));
    }
    Ok(listing)
}

/// The two numbers of a line, which must hold nothing else.
fn two_numbers<T: FromStr>(at: usize, line: &str) -> Result<(T, T), Trouble> {
    let malformed = |why| Trouble::Malformed(at, why);
    let words: Vec<&str> = line.split_whitespace().collect();
    if words.len() != 2 {
        return Err(malformed("two numbers are wanted"));
    }
    let number = |word: &str| {
        word.parse()
            .map_err(|_| malformed("not a whole number of its range"))
    };
    Ok((number(words[0])?, number(words[1])?))
}

#[cfg(test)]
mod tests {
    use super::*;

    #[test]
    fn text_goes_to_files_and_back() {
        let sinks = "0 0\n4 0\n7 -3\n";
        let joined = "0 0\n4 0\n7 -3\n\n0 1\n3 2\n";
        let texts = [sinks, joined, joined];
        for (kind, text) in Kind::ALL.into_iter().zip(texts) {
            let file = encode(kind, text).unwrap();
            assert_eq!(file.len(), kind.file_length(3));
            assert_eq!(decode(kind, &file).unwrap(), text);
        }
        let lone = encode(Kind::Tree, "3 -5\n\n").unwrap();
        assert_eq!(decode(Kind::Tree, &lone).unwrap(), "3 -5\n\n");
    }

    #[test]
    fn malformed_texts_name_their_line() {
        let line = |kind, text: &str| match encode(kind, text) {
            Err(Trouble::Malformed(line, _)) => line,
            other => panic!("{other:?}"),
        };
        assert_eq!(line(Kind::Sinks, "0 0\n4\n"), 2);
        assert_eq!(line(Kind::Sinks, "0 0 0\n"), 1);
        assert_eq!(line(Kind::Sinks, "0 0\n\n"), 2);
        assert_eq!(line(Kind::Sinks, "0 x\n"), 1);
        assert_eq!(line(Kind::Sinks, "0 99999999999\n"), 1);
        assert_eq!(line(Kind::Joined, "0 0\n4 0\n"), 3);
        assert_eq!(line(Kind::Joined, "0 0\n4 0\n\n0 -1\n"), 4);
        assert_eq!(line(Kind::Tree, "0 0\n4 0\n\n0 1\n\n"), 5);
    }

    #[test]
    fn refused_texts_keep_their_refusal() {
        let refusal = |kind, text| encode(kind, text).unwrap_err();
        assert_eq!(refusal(Kind::Sinks, ""), Trouble::Refused(Refusal::NoSink));
        assert_eq!(
            refusal(Kind::Joined, "\n"),
            Trouble::Refused(Refusal::NoSink)
        );
        assert_eq!(
            refusal(Kind::Tree, "0 0\n4 0\n\n0 0"),
            Trouble::Refused(Refusal::WrongJoins(0))
        );
    }
}
