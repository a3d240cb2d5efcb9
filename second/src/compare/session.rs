//! One run of comparisons: what has been checked, and what has failed.

use super::kinds::{Kind, Tally};
use super::options::Options;
use std::path::Path;

/// Differences printed in full; later ones are only counted.
const MOST_PRINTED: u64 = 10;

/// One input, which either side can be asked about.
pub trait Task {
    /// All that a side leaves behind.
    type Outcome: PartialEq;
    /// The call and its input, so that it can be run again.
    fn describe(&self) -> String;
    /// What the reference leaves; `salt` stands for the buffers' pattern.
    fn reference(&self, salt: u64) -> Self::Outcome;
    /// What the proved library leaves.
    fn proved(&self, salt: u64) -> Self::Outcome;
    /// Both outcomes in lines that show how they differ.
    fn tell(reference: &Self::Outcome, proved: &Self::Outcome) -> String;
    /// The kinds of case that the task was, when this came of it.
    fn kinds(&self, outcome: &Self::Outcome) -> Vec<Kind>;
}

/// The state of a run.
pub struct Session {
    options: Options,
    tally: Tally,
    passed: u64,
    failed: u64,
    case: &'static str,
    round: usize,
}

impl Session {
    /// A run that has checked nothing yet.
    pub fn new(options: Options) -> Session {
        Session {
            tally: Tally::new(options.program.is_some()),
            options,
            passed: 0,
            failed: 0,
            case: "",
            round: 0,
        }
    }

    /// Names the case that the next checks belong to.
    pub fn enter(&mut self, case: &'static str, round: usize) {
        self.case = case;
        self.round = round;
    }

    /// How often all cases have been gone through before.
    pub fn round(&self) -> usize {
        self.round
    }

    /// A small number of sinks, 1 to 14, each once in as many rounds; two
    /// rounds that follow each other are far apart.
    pub fn small(&self) -> usize {
        1 + 5 * self.round % 14
    }

    /// The proved tree program, if it is compared too.
    pub fn program(&self) -> Option<&Path> {
        self.options.program.as_deref()
    }

    fn checked(&self) -> u64 {
        self.passed + self.failed
    }

    /// Asks both sides.
    pub fn check<T: Task>(&mut self, task: &T) {
        let heading = || {
            let (case, seed, round) = (self.case, self.options.seed, self.round);
            let check = self.checked();
            let input = task.describe();
            format!("case {case}, seed {seed}, round {round}, check {check}\n  {input}")
        };
        if self.options.trace {
            eprintln!("{}", heading());
        }
        let salt = self.options.seed ^ self.checked().rotate_left(32);
        let (reference, proved) = (task.reference(salt), task.proved(salt));
        if reference == proved {
            self.passed += 1;
            self.tally.count(&task.kinds(&reference));
            return;
        }
        if self.failed < MOST_PRINTED {
            println!("difference: {}", heading());
            print!("{}", T::tell(&reference, &proved));
        }
        self.failed += 1;
    }

    /// How often each kind was reached, then a line for each that was not
    /// and for a run that passed nothing.
    pub fn report(&self) -> String {
        let faults: String = self
            .faults()
            .iter()
            .map(|line| format!("{line}\n"))
            .collect();
        self.tally.tables() + &faults
    }

    /// What makes a run fail besides a difference.
    fn faults(&self) -> Vec<String> {
        let mut faults = self.tally.faults();
        if self.passed == 0 {
            faults.push("nothing passed".to_string());
        }
        faults
    }

    /// The last line of the run; a fault counts as a check that failed.
    pub fn summary(&self) -> String {
        let failed = self.failed + self.faults().len() as u64;
        format!("{} passed, {failed} failed", self.passed)
    }

    /// Whether something passed, no difference was found, and every kind was
    /// reached.
    pub fn is_clean(&self) -> bool {
        self.failed == 0 && self.faults().is_empty()
    }
}

#[cfg(test)]
mod tests {
    use super::*;

    struct Fixed(u64);

    impl Task for Fixed {
        type Outcome = u64;
        fn describe(&self) -> String {
            format!("fixed {}", self.0)
        }
        fn reference(&self, _salt: u64) -> u64 {
            7
        }
        fn proved(&self, _salt: u64) -> u64 {
            self.0
        }
        fn tell(reference: &u64, proved: &u64) -> String {
            format!("  {reference} {proved}\n")
        }
        fn kinds(&self, _outcome: &u64) -> Vec<Kind> {
            Tally::new(false).kinds()[..1].to_vec()
        }
    }

    fn session() -> Session {
        Session::new(Options::of_words(&[], None).unwrap())
    }

    /// The numbers of the last line.
    fn counts(session: &Session) -> (u64, u64) {
        let line = session.summary();
        let words: Vec<&str> = line.split(' ').collect();
        assert_eq!((words[1], words[3]), ("passed,", "failed"));
        (words[0].parse().unwrap(), words[2].parse().unwrap())
    }

    #[test]
    fn differences_are_counted_as_failed() {
        let mut session = session();
        for proved in [7, 8, 7, 9, 10] {
            session.check(&Fixed(proved));
        }
        let faults = session.faults().len() as u64;
        assert_eq!(counts(&session), (2, 3 + faults));
        assert!(!session.is_clean());
    }

    #[test]
    fn a_run_without_a_check_fails() {
        let session = session();
        let (passed, failed) = counts(&session);
        assert!(passed == 0 && failed > 0 && !session.is_clean());
        assert!(session.report().ends_with("\nnothing passed\n"));
    }

    #[test]
    fn a_run_is_clean_once_every_kind_was_reached() {
        let mut session = session();
        let kinds = Tally::new(false).faults().len() as u64;
        session.check(&Fixed(7));
        // Of the one kind that it is of, no other was reached.
        assert_eq!(counts(&session), (1, kinds - 1));
        assert!(!session.is_clean());
        session.check(&Everything);
        assert_eq!(counts(&session), (2, 0));
        assert!(session.is_clean());
        session.check(&Fixed(8));
        assert_eq!(counts(&session), (2, 1));
        assert!(!session.is_clean());
    }

    /// A check of every kind there is.
    struct Everything;

    impl Task for Everything {
        type Outcome = ();
        fn describe(&self) -> String {
            String::new()
        }
        fn reference(&self, _salt: u64) {}
        fn proved(&self, _salt: u64) {}
        fn tell(_reference: &(), _proved: &()) -> String {
            String::new()
        }
        fn kinds(&self, _outcome: &()) -> Vec<Kind> {
            Tally::new(false).kinds()
        }
    }
}
