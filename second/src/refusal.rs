//! The refusals, each with its number and its place.
//!
//! The numbers are 1 to 4, 6 to 9 and 15. Number 5 is withdrawn, since a
//! place may hold several pins; no other refusal takes it. Number 15 is
//! checked right after 4, wherever delays are taken.

use std::fmt;

/// Why a call was refused. Places count from 0; "none" is its own case and
/// never stands for place 0.
#[derive(Clone, Copy, Debug, PartialEq, Eq)]
pub enum Refusal {
    /// 1: the lists of x, y and delays differ in length; where no delays are
    /// taken, those of x and y.
    ListsDiffer,
    /// 2: there is no sink.
    NoSink,
    /// 3: there are more sinks than the call takes.
    TooManySinks,
    /// 4: the lowest sink with a coordinate outside its range.
    OutOfRange(usize),
    /// 6: the first bad pair, or the smaller of given and wanted pairs.
    WrongJoins(usize),
    /// 7: a lent buffer is too short.
    ShortBuffer,
    /// 8: the byte offset where a file leaves its form.
    NotOfTheForm(usize),
    /// 9: the lowest node whose stored place or wire is wrong; none where a
    /// count is wrong.
    NotTheEmbedding(Option<usize>),
    /// 15: the lowest sink with a delay outside its range.
    DelayOutOfRange(usize),
}

impl Refusal {
    /// The refusal's number, never 5.
    pub fn number(self) -> u8 {
        match self {
            Refusal::ListsDiffer => 1,
            Refusal::NoSink => 2,
            Refusal::TooManySinks => 3,
            Refusal::OutOfRange(_) => 4,
            Refusal::WrongJoins(_) => 6,
            Refusal::ShortBuffer => 7,
            Refusal::NotOfTheForm(_) => 8,
            Refusal::NotTheEmbedding(_) => 9,
            Refusal::DelayOutOfRange(_) => 15,
        }
    }

    /// The place returned with the number, if there is one.
    pub fn place(self) -> Option<usize> {
        match self {
            Refusal::ListsDiffer
            | Refusal::NoSink
            | Refusal::TooManySinks
            | Refusal::ShortBuffer => None,
            Refusal::OutOfRange(place)
            | Refusal::WrongJoins(place)
            | Refusal::NotOfTheForm(place)
            | Refusal::DelayOutOfRange(place) => Some(place),
            Refusal::NotTheEmbedding(place) => place,
        }
    }
}

impl fmt::Display for Refusal {
    /// The words of the program's refusal line, without the line feed.
    fn fmt(&self, out: &mut fmt::Formatter<'_>) -> fmt::Result {
        match self.place() {
            None => write!(out, "refused {}", self.number()),
            Some(place) => write!(out, "refused {} {}", self.number(), place),
        }
    }
}

#[cfg(test)]
mod tests {
    use super::*;

    #[test]
    fn place_zero_is_printed_and_none_is_not() {
        assert_eq!(Refusal::NotOfTheForm(0).to_string(), "refused 8 0");
        assert_eq!(Refusal::NoSink.to_string(), "refused 2");
        assert_eq!(Refusal::NotTheEmbedding(None).to_string(), "refused 9");
        assert_eq!(Refusal::NotTheEmbedding(Some(0)).to_string(), "refused 9 0");
        assert_eq!(Refusal::DelayOutOfRange(0).to_string(), "refused 15 0");
    }

    #[test]
    fn the_numbers_are_one_to_nine_without_five_and_fifteen() {
        let one_of_each = [
            Refusal::ListsDiffer,
            Refusal::NoSink,
            Refusal::TooManySinks,
            Refusal::OutOfRange(5),
            Refusal::WrongJoins(5),
            Refusal::ShortBuffer,
            Refusal::NotOfTheForm(5),
            Refusal::NotTheEmbedding(Some(5)),
            Refusal::DelayOutOfRange(5),
        ];
        let numbers = [1, 2, 3, 4, 6, 7, 8, 9, 15];
        assert_eq!(one_of_each.map(Refusal::number), numbers);
    }
}
