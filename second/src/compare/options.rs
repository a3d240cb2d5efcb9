//! The words after `compare`, and the seed from the environment.

use std::path::PathBuf;
use std::str::FromStr;

/// The rounds of a run that is not told how many: about 30 seconds of an
/// emulator on two shared cores.
pub const ROUNDS: usize = 14;
/// The seed of a run that is not told one.
pub const SEED: u64 = 1;

/// What a comparison is asked to do.
#[derive(Clone, Debug, PartialEq, Eq)]
pub struct Options {
    /// The seed of every input.
    pub seed: u64,
    /// How often all cases are gone through.
    pub rounds: usize,
    /// The proved tree program, if it is compared too.
    pub program: Option<PathBuf>,
    /// Whether each input goes to standard error before it is tried, so that
    /// one that brings the process down is known.
    pub trace: bool,
}

impl Options {
    /// The options in the given words and in the value of SEED, if it is
    /// set, or what is wrong with them.
    pub fn of_words(words: &[&str], seed: Option<&str>) -> Result<Options, String> {
        let mut options = Options {
            seed: seed.map_or(Ok(SEED), |value| number("SEED", value))?,
            rounds: ROUNDS,
            program: None,
            trace: false,
        };
        let mut rest = words.iter();
        while let Some(&word) = rest.next() {
            if word == "--trace" {
                options.trace = true;
                continue;
            }
            let value = rest.next().ok_or(format!("{word} wants a value"))?;
            match word {
                "--rounds" => options.rounds = number(word, value)?,
                "--program" => options.program = Some(PathBuf::from(value)),
                _ => return Err(format!("unknown word {word}")),
            }
        }
        Ok(options)
    }
}

/// The number after a word.
pub(crate) fn number<T: FromStr>(word: &str, value: &str) -> Result<T, String> {
    let wrong = |_| format!("{word} wants a whole number, not {value}");
    value.parse().map_err(wrong)
}

#[cfg(test)]
mod tests {
    use super::*;

    #[test]
    fn no_words_mean_the_usual_rounds_of_the_usual_seed() {
        let options = Options::of_words(&[], None).unwrap();
        assert_eq!((options.seed, options.rounds), (SEED, ROUNDS));
        assert_eq!((options.program, options.trace), (None, false));
    }

    #[test]
    fn words_are_taken_in_any_order() {
        let words = ["--rounds", "50", "--trace", "--program", "./tree"];
        let options = Options::of_words(&words, Some("77")).unwrap();
        assert_eq!((options.seed, options.rounds), (77, 50));
        assert_eq!(options.program, Some(PathBuf::from("./tree")));
        assert!(options.trace);
    }

    #[test]
    fn wrong_words_are_named() {
        let wrong = |words: &[&str]| Options::of_words(words, None).unwrap_err();
        assert_eq!(wrong(&["--rounds"]), "--rounds wants a value");
        assert!(wrong(&["--rounds", "x"]).starts_with("--rounds wants a whole"));
        assert_eq!(wrong(&["--bread", "1"]), "unknown word --bread");
        let seed = Options::of_words(&[], Some("")).unwrap_err();
        assert_eq!(seed, "SEED wants a whole number, not ");
    }
}
