//! The kinds of case that a run has to reach, and how often it did.
//!
//! A comparison that never comes by a kind says nothing of it, however many
//! checks it passes; so a kind that no check was of counts as a failure.

use crate::plane::{MOST_DELAY, REACH};
use crate::proved::Answer;
use crate::search::full_steps;
use std::collections::{BTreeMap, HashSet};
use std::fmt::Write;

/// The tables that kinds stand in.
#[derive(Clone, Copy, Debug, PartialEq, Eq, PartialOrd, Ord)]
pub enum Of {
    /// What a call said.
    Answers,
    /// The number of sinks of an accepted call, or of one refused for it.
    Sinks,
    /// How the sinks of an accepted call are spread.
    Spread,
    /// The delays of an accepted call.
    Delays,
    /// The budget of an accepted search.
    Budgets,
    /// The raw numbers of a held box.
    Boxes,
    /// The number of sinks of a tree that was followed from its root.
    Arrivals,
}

/// A cell of a table: a check may be of several kinds.
#[derive(Clone, Copy, Debug, PartialEq, Eq, PartialOrd, Ord)]
pub struct Kind {
    /// The table.
    pub of: Of,
    /// Its row, most often a call.
    pub row: &'static str,
    /// Its column.
    pub column: &'static str,
}

/// The cells of a table, in words.
struct Layout {
    of: Of,
    title: &'static str,
    columns: &'static str,
    /// Each row with its name and the columns that it can reach.
    rows: &'static [(&'static str, &'static str)],
}

/// The row that is there only where the program is compared too.
pub const PROGRAM: &str = "program";

const COUNTS: &str = "n=1 n=12 n=13 n=512 n=513";
const ACCEPTED_COUNTS: &str = "n=1 n=12 n=13 n=512";
const SPREADS: &str = "one-place shared lattice corner";
const DELAYS: &str = "none equal swallow greatest";
const BUDGETS: &str = "0 below F-1 F above";
const BOXES: &str = "near far crossed-u crossed-v";
const WIDENED: &str = "near far crossed-u crossed-v changed kept";

/// All tables. The numbers that a call can say are those that the header
/// names at it.
const LAYOUTS: [Layout; 7] = [
    Layout {
        of: Of::Answers,
        title: "answers",
        columns: "accepted 1 2 3 4 15 6 7 8 9 9-at input",
        rows: &[
            ("box_of", "accepted 1 2 3 4 15"),
            ("widen", "accepted 4 15"),
            ("ends", "accepted"),
            ("diameter", "accepted"),
            ("embed", "accepted 1 2 3 4 15 6 7"),
            ("join_nearest", "accepted 1 2 3 4 15 7"),
            ("embed_nearest", "accepted 1 2 3 4 15 7"),
            ("search", "accepted 1 2 3 4 15 7"),
            ("write_sinks", "accepted 1 2 3 4 7"),
            ("write_joined", "accepted 1 2 3 4 6 7"),
            ("write_tree", "accepted 1 2 3 4 6 7"),
            ("read_sinks", "accepted 2 3 4 7 8"),
            ("read_joined", "accepted 2 3 4 6 7 8"),
            ("read_tree", "accepted 2 3 4 6 7 8 9 9-at"),
            ("tree_lines", "accepted 2 3 4 8 input"),
            (PROGRAM, "accepted 2 3 4 8 input"),
        ],
    },
    Layout {
        of: Of::Sinks,
        title: "sinks",
        columns: COUNTS,
        rows: &[
            ("box_of", COUNTS),
            ("embed", COUNTS),
            ("join_nearest", COUNTS),
            ("embed_nearest", COUNTS),
            ("search", COUNTS),
            ("write_sinks", COUNTS),
            ("write_joined", COUNTS),
            ("write_tree", COUNTS),
            ("read_sinks", COUNTS),
            ("read_joined", COUNTS),
            ("read_tree", COUNTS),
            ("tree_lines", COUNTS),
            (PROGRAM, COUNTS),
        ],
    },
    Layout {
        of: Of::Spread,
        title: "spread",
        columns: SPREADS,
        rows: &[
            ("box_of", SPREADS),
            ("embed", SPREADS),
            ("join_nearest", SPREADS),
            ("embed_nearest", SPREADS),
            ("search", SPREADS),
            ("write_sinks", SPREADS),
            ("write_joined", SPREADS),
            ("write_tree", SPREADS),
            ("read_sinks", SPREADS),
            ("read_joined", SPREADS),
            ("read_tree", SPREADS),
            ("tree_lines", SPREADS),
            (PROGRAM, SPREADS),
        ],
    },
    Layout {
        of: Of::Delays,
        title: "delays",
        columns: DELAYS,
        rows: &[
            ("box_of", DELAYS),
            ("embed", DELAYS),
            ("join_nearest", DELAYS),
            ("embed_nearest", DELAYS),
            ("search", DELAYS),
        ],
    },
    Layout {
        of: Of::Budgets,
        title: "budgets",
        columns: BUDGETS,
        // F is 0 for one sink and 1 for two.
        rows: &[
            ("n=1", "F above"),
            ("n=2", "F-1 F above"),
            ("n=3", BUDGETS),
            ("n=4", BUDGETS),
            ("n=5", BUDGETS),
            ("n=6", BUDGETS),
            ("n=7", BUDGETS),
            ("n=8", BUDGETS),
            ("n=9", BUDGETS),
            ("n=10", BUDGETS),
            ("n=11", BUDGETS),
            ("n=12", BUDGETS),
        ],
    },
    Layout {
        of: Of::Boxes,
        title: "raw boxes",
        columns: WIDENED,
        rows: &[("widen", WIDENED), ("ends", BOXES), ("diameter", BOXES)],
    },
    Layout {
        of: Of::Arrivals,
        title: "arrivals",
        columns: ACCEPTED_COUNTS,
        rows: &[
            ("embed", ACCEPTED_COUNTS),
            ("embed_nearest", ACCEPTED_COUNTS),
            ("search", "n=1 n=12"),
        ],
    },
];

impl Layout {
    fn columns(&self) -> Vec<&'static str> {
        self.columns.split(' ').collect()
    }

    /// The kinds of a row, with none where the row cannot reach a column.
    fn kinds(&self, (row, reached): (&'static str, &'static str)) -> Vec<Option<Kind>> {
        let of = self.of;
        let kind = |column| Kind { of, row, column };
        let can = |column: &str| reached.split(' ').any(|word| word == column);
        let columns = self.columns().into_iter();
        columns
            .map(|column| Some(kind(column)).filter(|_| can(column)))
            .collect()
    }
}

/// How often each kind was reached.
pub struct Tally {
    counts: BTreeMap<Kind, u64>,
    /// Kinds that no table has a cell for.
    unforeseen: Vec<Kind>,
}

impl Tally {
    /// Every kind at 0, those of the program only where it is compared.
    pub fn new(with_program: bool) -> Tally {
        let all = LAYOUTS.iter().flat_map(|layout| {
            let rows = layout.rows.iter();
            rows.flat_map(move |&row| layout.kinds(row).into_iter().flatten())
        });
        let wanted = all.filter(|kind| with_program || kind.row != PROGRAM);
        Tally {
            counts: wanted.map(|kind| (kind, 0)).collect(),
            unforeseen: vec![],
        }
    }

    /// All kinds that are wanted.
    #[cfg(test)]
    pub fn kinds(&self) -> Vec<Kind> {
        self.counts.keys().copied().collect()
    }

    /// Counts a check under all of its kinds.
    pub fn count(&mut self, kinds: &[Kind]) {
        for kind in kinds {
            match self.counts.get_mut(kind) {
                Some(count) => *count += 1,
                None if self.unforeseen.contains(kind) => (),
                None => self.unforeseen.push(*kind),
            }
        }
    }

    /// A line for each kind that was never reached, and for each that should
    /// not be there.
    pub fn faults(&self) -> Vec<String> {
        let words = |kind: &Kind| format!("{:?}, {}, {}", kind.of, kind.row, kind.column);
        let never = self.counts.iter().filter(|(_, &count)| count == 0);
        let never = never.map(|(kind, _)| format!("never reached: {}", words(kind)));
        let odd = self.unforeseen.iter();
        never
            .chain(odd.map(|kind| format!("not foreseen: {}", words(kind))))
            .collect()
    }

    /// All tables with their counts.
    pub fn tables(&self) -> String {
        LAYOUTS.iter().map(|layout| self.table(layout)).collect()
    }

    fn table(&self, layout: &Layout) -> String {
        let mut text = format!("{:13}", layout.title);
        for column in layout.columns() {
            let _ = write!(text, "{column:>11}");
        }
        text.push('\n');
        for &row in layout.rows {
            let _ = write!(text, "{:13}", row.0);
            for kind in layout.kinds(row) {
                let count = kind.and_then(|kind| self.counts.get(&kind));
                let count = count.map_or("-".to_string(), |count| count.to_string());
                let _ = write!(text, "{count:>11}");
            }
            text.push('\n');
        }
        text
    }
}

/// What a call said.
pub fn said(row: &'static str, answer: Answer) -> Kind {
    let column = match answer {
        Ok(_) => "accepted",
        Err((1, _)) => "1",
        Err((2, _)) => "2",
        Err((3, _)) => "3",
        Err((4, _)) => "4",
        Err((6, _)) => "6",
        Err((7, _)) => "7",
        Err((8, _)) => "8",
        Err((9, None)) => "9",
        Err((9, Some(_))) => "9-at",
        Err((15, _)) => "15",
        Err(_) => "another",
    };
    let of = Of::Answers;
    Kind { of, row, column }
}

/// What a text of the tree program says.
fn printed(row: &'static str, text: &str) -> Kind {
    let mut words = text.split_whitespace();
    let column = match (words.next(), words.next()) {
        (Some("sinks"), _) => "accepted",
        (Some("refused"), Some("2")) => "2",
        (Some("refused"), Some("3")) => "3",
        (Some("refused"), Some("4")) => "4",
        (Some("refused"), Some("8")) => "8",
        (Some("refused"), Some("input")) => "input",
        _ => "another",
    };
    let of = Of::Answers;
    Kind { of, row, column }
}

/// The number of sinks, where it is one of those at an edge.
pub fn sinks(of: Of, row: &'static str, n: usize) -> Option<Kind> {
    let column = match n {
        1 => "n=1",
        12 => "n=12",
        13 => "n=13",
        512 => "n=512",
        513 => "n=513",
        _ => return None,
    };
    Some(Kind { of, row, column })
}

/// The kinds of a call that was given these sinks and said so.
pub fn of_sinks(row: &'static str, answer: Answer, x: &[i32], y: &[i32]) -> Vec<Kind> {
    with_sinks(said(row, answer), x, y)
}

/// The kinds of a text of the tree program for these sinks.
pub fn of_text(row: &'static str, text: &str, x: &[i32], y: &[i32]) -> Vec<Kind> {
    with_sinks(printed(row, text), x, y)
}

/// The kind of an answer, with those of the sinks where it speaks of all.
fn with_sinks(answer: Kind, x: &[i32], y: &[i32]) -> Vec<Kind> {
    let mut kinds = vec![answer];
    if answer.column == "accepted" || answer.column == "3" {
        kinds.extend(sinks(Of::Sinks, answer.row, x.len()));
    }
    if answer.column == "accepted" {
        kinds.extend(spread(answer.row, x, y));
    }
    kinds
}

/// How accepted sinks are spread: several on one place, in rows and columns
/// with few places left empty, or in a corner of the range.
pub fn spread(row: &'static str, x: &[i32], y: &[i32]) -> Vec<Kind> {
    let n = x.len();
    let places = x.iter().zip(y).collect::<HashSet<_>>().len();
    let lines = |list: &[i32]| list.iter().collect::<HashSet<_>>().len();
    let edge = |at: i32| at.abs() == REACH;
    let mut columns = vec![];
    if n >= 2 && places == 1 {
        columns.push("one-place");
    } else if places < n {
        columns.push("shared");
    } else if n >= 4 && lines(x) * lines(y) <= 3 * n {
        columns.push("lattice");
    }
    if x.iter().zip(y).any(|(&x, &y)| edge(x) && edge(y)) {
        columns.push("corner");
    }
    of_columns(Of::Spread, row, columns)
}

fn of_columns(of: Of, row: &'static str, columns: Vec<&'static str>) -> Vec<Kind> {
    let kind = |column| Kind { of, row, column };
    columns.into_iter().map(kind).collect()
}

/// The delays of two or more accepted sinks.
pub fn delays(row: &'static str, x: &[i32], y: &[i32], delays: &[u32]) -> Vec<Kind> {
    let mut columns = vec![];
    if delays.len() >= 2 {
        let equal = delays.iter().all(|&delay| delay == delays[0]);
        match delays[0] {
            0 if equal => columns.push("none"),
            _ if equal => columns.push("equal"),
            _ if swallows(x, y, delays) => columns.push("swallow"),
            _ => (),
        }
        if delays.contains(&MOST_DELAY) {
            columns.push("greatest");
        }
    }
    of_columns(Of::Delays, row, columns)
}

/// Whether the box of one sink holds those of all others: it can only be
/// that of a sink with the greatest delay.
fn swallows(x: &[i32], y: &[i32], delays: &[u32]) -> bool {
    let greatest = (0..x.len()).max_by_key(|&sink| delays[sink]).unwrap_or(0);
    let apart = |sink: usize| x[sink].abs_diff(x[greatest]) + y[sink].abs_diff(y[greatest]);
    let mut others = (0..x.len()).filter(|&sink| sink != greatest);
    others.all(|sink| apart(sink) + delays[sink] <= delays[greatest])
}

/// The budget of a search over `n` sinks.
pub fn budget(n: usize, budget: u64) -> Kind {
    let full = full_steps(n);
    let rows = LAYOUTS[Of::Budgets as usize].rows;
    let column = match budget {
        _ if budget > full => "above",
        _ if budget == full => "F",
        _ if budget + 1 == full => "F-1",
        0 => "0",
        _ => "below",
    };
    Kind {
        of: Of::Budgets,
        row: rows[n - 1].0,
        column,
    }
}

/// The ends that the raw numbers of a held box stand for: no box of sinks
/// has one beyond 3,000,000, and there a least end is never above a greatest.
pub fn held_box(row: &'static str, ends: [i64; 4]) -> Vec<Kind> {
    let near = ends.iter().all(|end| end.abs() <= 3_000_010);
    let mut columns = vec![if near { "near" } else { "far" }];
    if near && ends[0] > ends[1] {
        columns.push("crossed-u");
    }
    if near && ends[2] > ends[3] {
        columns.push("crossed-v");
    }
    of_columns(Of::Boxes, row, columns)
}

/// Whether an accepted widening changed the box.
pub fn widened(changed: bool) -> Kind {
    Kind {
        of: Of::Boxes,
        row: "widen",
        column: if changed { "changed" } else { "kept" },
    }
}

#[cfg(test)]
mod tests {
    use super::*;
    use crate::proved::Said;

    const ACCEPTED: Kind = Kind {
        of: Of::Answers,
        row: "ends",
        column: "accepted",
    };

    #[test]
    fn a_layout_stands_at_its_own_place() {
        for (at, layout) in LAYOUTS.iter().enumerate() {
            assert_eq!(layout.of as usize, at);
        }
    }

    #[test]
    fn every_word_of_a_row_is_a_column() {
        for layout in &LAYOUTS {
            let columns = layout.columns();
            for &(row, reached) in layout.rows {
                let kinds = layout.kinds((row, reached)).into_iter().flatten();
                assert_eq!(kinds.count(), reached.split(' ').count(), "{row}");
                assert!(reached.split(' ').all(|word| columns.contains(&word)));
            }
        }
    }

    #[test]
    fn a_kind_that_is_never_reached_is_a_fault() {
        let mut tally = Tally::new(true);
        let all = tally.kinds();
        assert_eq!(tally.faults().len(), all.len());
        let reached: Vec<Kind> = all.into_iter().filter(|&kind| kind != ACCEPTED).collect();
        tally.count(&reached);
        assert_eq!(tally.faults(), ["never reached: Answers, ends, accepted"]);
        tally.count(&[ACCEPTED]);
        assert!(tally.faults().is_empty());
        assert_eq!(tally.counts.get(&ACCEPTED), Some(&1));
    }

    #[test]
    fn a_kind_without_a_cell_is_a_fault() {
        let mut tally = Tally::new(true);
        let before = tally.faults().len();
        let odd = said("ends", Err((7, None)));
        tally.count(&[odd, odd, said("box_of", Err((12, None)))]);
        assert_eq!(tally.faults().len(), before + 2);
        let last = tally.faults().pop().unwrap();
        assert_eq!(last, "not foreseen: Answers, box_of, another");
    }

    #[test]
    fn the_program_has_rows_only_where_it_is_compared() {
        let rows = |tally: Tally| tally.kinds().iter().filter(|k| k.row == PROGRAM).count();
        assert_eq!(rows(Tally::new(true)), 15);
        assert_eq!(rows(Tally::new(false)), 0);
    }

    fn columns(kinds: Vec<Kind>) -> Vec<&'static str> {
        kinds.into_iter().map(|kind| kind.column).collect()
    }

    #[test]
    fn answers_and_texts_have_their_columns() {
        assert_eq!(said("ends", Ok(Said::default())), ACCEPTED);
        assert_eq!(said("read_tree", Err((9, Some(0)))).column, "9-at");
        assert_eq!(said("read_tree", Err((9, None))).column, "9");
        let text = |text| printed(PROGRAM, text).column;
        assert_eq!(text("refused 8 0\n"), "8");
        assert_eq!(text("refused input\n"), "input");
        assert_eq!(text("sinks 1 wire 0 proven\n"), "accepted");
        assert_eq!(text("refused\n"), "another");
    }

    #[test]
    fn spreads_are_told_apart() {
        let of = |x: &[i32], y: &[i32]| columns(spread("embed", x, y));
        assert_eq!(of(&[5], &[5]), [""; 0]);
        assert_eq!(of(&[5, 5], &[5, 5]), ["one-place"]);
        assert_eq!(of(&[5, 5, 0], &[5, 5, 0]), ["shared"]);
        assert_eq!(of(&[0, 1, 0, 1], &[0, 0, 1, 1]), ["lattice"]);
        assert_eq!(of(&[0, 1, 2, 3], &[0, 7, 4, 9]), [""; 0]);
        assert_eq!(of(&[0, REACH], &[0, -REACH]), ["corner"]);
        assert_eq!(of(&[0, REACH], &[0, 0]), [""; 0]);
    }

    #[test]
    fn delays_are_told_apart() {
        let x = [0, 3, 10];
        let of = |waits: &[u32]| columns(delays("embed", &x, &[0; 3], waits));
        assert_eq!(of(&[0, 0, 0]), ["none"]);
        assert_eq!(of(&[4, 4, 4]), ["equal"]);
        assert_eq!(of(&[MOST_DELAY; 3]), ["equal", "greatest"]);
        assert_eq!(of(&[11, 0, 1]), ["swallow"]);
        assert_eq!(of(&[10, 0, 1]), [""; 0]);
        assert_eq!(columns(delays("embed", &[0], &[0], &[5])), [""; 0]);
    }

    #[test]
    fn budgets_are_told_apart() {
        let of = |n, steps| budget(n, steps).column;
        let found: Vec<&str> = (0..8).map(|steps| of(3, steps)).collect();
        assert_eq!(
            found,
            ["0", "below", "below", "below", "below", "F-1", "F", "above"]
        );
        assert_eq!((of(1, 0), of(1, 1)), ("F", "above"));
        assert_eq!((of(2, 0), of(2, 1), of(2, 2)), ("F-1", "F", "above"));
        assert_eq!((of(12, u64::MAX), budget(12, 0).row), ("above", "n=12"));
    }

    #[test]
    fn boxes_are_told_apart() {
        let of = |ends| columns(held_box("ends", ends));
        assert_eq!(of([-1, 1, 5, 5]), ["near"]);
        assert_eq!(of([2, 1, 6, 5]), ["near", "crossed-u", "crossed-v"]);
        assert_eq!(of([0, 4_000_000, 6, 5]), ["far"]);
    }
}
