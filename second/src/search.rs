//! The exact search over subsets, with a budget of steps.

use crate::embed::{self, Lent};
use crate::least;
use crate::plane::{self, MOST_SEARCHED};
use crate::refusal::Refusal;

/// What a subset of two or more sinks holds before any split is examined.
pub const UNEXAMINED: u32 = u32::MAX;

/// Distances between sinks plus both delays, in grid units, so that twice its
/// own delay stands for a sink with itself; rows and columns from n on hold 0.
pub type Square = [[u32; MOST_SEARCHED]; MOST_SEARCHED];

/// The numbers of an answered search.
#[derive(Clone, Copy, Debug, PartialEq, Eq)]
pub struct Found {
    /// Total wire in half units.
    pub total: u32,
    /// Splits examined.
    pub steps: u64,
    /// Whether the tree is proven to be the least.
    pub proven: bool,
}

/// F(n): the number of splits of all subsets of `n` sinks. Up to 40 sinks the
/// powers fit 64 bits, far beyond the 12 that a search takes.
pub fn full_steps(n: usize) -> u64 {
    let n = n as u32;
    (3u64.pow(n) + 1) / 2 - 2u64.pow(n)
}

/// The square of distances plus delays, with refusals 1 to 4, then 15, at 12
/// sinks.
pub fn distance_square(x: &[i32], y: &[i32], delays: &[u32]) -> Result<Square, Refusal> {
    plane::check_sinks(x, y, delays, MOST_SEARCHED)?;
    Ok(square(x, y, delays))
}

fn square(x: &[i32], y: &[i32], delays: &[u32]) -> Square {
    let mut square = [[0; MOST_SEARCHED]; MOST_SEARCHED];
    for i in 0..x.len() {
        for j in 0..x.len() {
            let apart = x[i].abs_diff(x[j]) + y[i].abs_diff(y[j]);
            square[i][j] = apart + delays[i] + delays[j];
        }
    }
    square
}

/// Searches with the budget, leaves the work table as the examined splits
/// make it, and fills in the tree: the least one where the budget reaches
/// F(n), else the one of joining by least diameter. Refusals 1 to 4 with at
/// most 12 sinks, 15, then 7.
pub fn search(
    x: &[i32],
    y: &[i32],
    delays: &[u32],
    budget: u64,
    table: &mut [u32],
    pairs: &mut [u16],
    lent: Lent<'_>,
) -> Result<Found, Refusal> {
    plane::check_sinks(x, y, delays, MOST_SEARCHED)?;
    let n = x.len();
    if table.len() < 1 << n || pairs.len() < 2 * (n - 1) {
        return Err(Refusal::ShortBuffer);
    }
    lent.check(n)?;
    let diameters = subset_diameters(&square(x, y, delays), n);
    let examined = fill_table(&diameters, budget, &mut table[..1 << n]);
    let proven = budget >= full_steps(n);
    let joins = if proven {
        kept_joins(n, &examined.kept)
    } else {
        least::least_joins(x, y, delays)
    };
    pairs[..joins.len()].copy_from_slice(&joins);
    let total = embed::work_out(x, y, delays, &joins).hand_out(lent);
    Ok(Found {
        total,
        steps: examined.steps,
        proven,
    })
}

/// The diameter of every subset. The two sinks that set it, which may be one
/// sink twice, either leave out its lowest, or leave out its highest, or are
/// just those two.
fn subset_diameters(square: &Square, n: usize) -> Vec<u32> {
    let mut diameters = vec![0; 1 << n];
    for subset in 1usize..1 << n {
        let low = subset.trailing_zeros() as usize;
        let high = (usize::BITS - 1 - subset.leading_zeros()) as usize;
        let without = |sink: usize| diameters[subset & !(1 << sink)];
        diameters[subset] = square[low][high].max(without(low)).max(without(high));
    }
    diameters
}

/// What filling the table leaves besides the table itself.
struct Examined {
    steps: u64,
    /// For each subset the part with its lowest sink of the kept split.
    kept: Vec<usize>,
}

/// Examines splits in the document's order until the budget is spent. Single
/// sinks hold 0 whatever their delays: those are in the diameters alone.
fn fill_table(diameters: &[u32], budget: u64, table: &mut [u32]) -> Examined {
    let mut steps = 0;
    let mut kept = vec![0; table.len()];
    for subset in 0..table.len() {
        if subset.count_ones() < 2 {
            table[subset] = 0;
            continue;
        }
        let seen = examine(subset, budget - steps, table);
        steps += seen.steps;
        kept[subset] = seen.part;
        table[subset] = if seen.steps > 0 {
            diameters[subset] + seen.least
        } else {
            UNEXAMINED
        };
    }
    Examined { steps, kept }
}

/// The outcome of examining the splits of one subset; without a step there
/// is no least sum and no part.
struct Seen {
    least: u32,
    part: usize,
    steps: u64,
}

/// Examines the splits of a subset while `allowed` steps last. The parts
/// that hold the lowest sink rise with the rest they hold besides it, and
/// `(rest - mask) & mask` counts up through the subsets of a mask alone.
fn examine(subset: usize, allowed: u64, table: &[u32]) -> Seen {
    let lowest = subset & subset.wrapping_neg();
    let others = subset ^ lowest;
    // Sums of finished subsets stay below 72,000,000: any first one is less.
    let mut least = u32::MAX;
    let mut kept = 0;
    let mut steps = 0;
    let mut rest = 0;
    while rest != others && steps < allowed {
        let part = lowest | rest;
        let sum = table[part] + table[subset ^ part];
        if sum < least {
            least = sum;
            kept = part;
        }
        steps += 1;
        rest = rest.wrapping_sub(others) & others;
    }
    Seen {
        least,
        part: kept,
        steps,
    }
}

/// The joining order of the kept splits.
fn kept_joins(n: usize, kept: &[usize]) -> Vec<u16> {
    let mut joins = Vec::new();
    number_subset((1 << n) - 1, n, kept, &mut joins);
    joins
}

/// Numbers the part with the lowest sink, then the other part, then their
/// join; gives the number of the node that stands for the subset.
fn number_subset(subset: usize, n: usize, kept: &[usize], joins: &mut Vec<u16>) -> u16 {
    if subset.count_ones() == 1 {
        return subset.trailing_zeros() as u16;
    }
    let part = kept[subset];
    let first = number_subset(part, n, kept, joins);
    let second = number_subset(subset ^ part, n, kept, joins);
    joins.extend([first, second]);
    (n + joins.len() / 2 - 1) as u16
}

#[cfg(test)]
mod tests {
    use super::*;
    use crate::generate::{delays, sinks, DelayKind, Random, SinkKind};
    use crate::plane::diameter_of_sinks;

    #[test]
    fn full_steps_count_all_splits() {
        let counts: Vec<u64> = (1..=4).map(full_steps).collect();
        assert_eq!(counts, [0, 1, 6, 25]);
        assert_eq!(full_steps(12), 261_625);
    }

    #[test]
    fn the_square_is_zero_from_n_on() {
        let square = distance_square(&[0, 3], &[0, -2], &[0, 0]).unwrap();
        let mut expected = [[0; 12]; 12];
        expected[0][1] = 5;
        expected[1][0] = 5;
        assert_eq!(square, expected);
        let none = distance_square(&[8; 12], &[3; 12], &[0; 12]);
        assert_eq!(none, Ok([[0; 12]; 12]));
        let many: Vec<i32> = (0..13).collect();
        let refused = distance_square(&many, &many, &[0; 13]);
        assert_eq!(refused, Err(Refusal::TooManySinks));
    }

    #[test]
    fn the_square_counts_both_delays_and_twice_the_own() {
        let square = distance_square(&[0, 3], &[0, -2], &[7, 4]).unwrap();
        let mut expected = [[0; 12]; 12];
        expected[0][..2].copy_from_slice(&[14, 16]);
        expected[1][..2].copy_from_slice(&[16, 8]);
        assert_eq!(square, expected);
        let long = distance_square(&[0, 3], &[0, -2], &[7, 1_000_001]);
        assert_eq!(long, Err(Refusal::DelayOutOfRange(1)));
        let few = distance_square(&[0, 3], &[0, -2], &[7]);
        assert_eq!(few, Err(Refusal::ListsDiffer));
    }

    #[test]
    fn subset_diameters_are_those_of_the_boxes() {
        let mut random = Random::new(61);
        for kind in SinkKind::GOOD {
            let (x, y) = sinks(&mut random, kind, 7);
            for kind in DelayKind::GOOD {
                let waits = delays(&mut random, kind, &x, &y);
                let diameters = subset_diameters(&square(&x, &y, &waits), 7);
                assert_eq!(diameters[0], 0);
                for (subset, &d) in diameters.iter().enumerate().skip(1) {
                    let (x, y) = (members(subset, &x), members(subset, &y));
                    let waits = members(subset, &waits);
                    assert_eq!(diameter_of_sinks(&x, &y, &waits), Ok(d));
                }
            }
        }
    }

    /// The entries of a list that belong to the sinks of a subset.
    fn members<T: Copy>(subset: usize, list: &[T]) -> Vec<T> {
        let inside = (0..list.len()).filter(|i| subset >> i & 1 == 1);
        inside.map(|i| list[i]).collect()
    }

    #[test]
    fn one_sink_may_set_the_diameter_of_a_subset() {
        // Sink 1 reaches from -7 to 13 and holds sinks 0 and 2, which are at 0
        // and 5 to 7: whatever has sink 1 in it has 20.
        let square = square(&[0, 3, 6], &[0; 3], &[0, 10, 1]);
        assert_eq!(subset_diameters(&square, 3), [0, 0, 20, 20, 2, 7, 20, 20]);
    }
}
