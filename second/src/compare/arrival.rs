//! Trees of the proved library by what must hold of them, whatever tree the
//! reference would make: the clock is at all sinks at once, and the total is
//! the sum of the wires.

use super::draw::{self, Pins};
use super::kinds::{self, Kind, Of};
use super::lent::{refused, Parts};
use super::session::{self, Session};
use super::trees::{Call, Task};
use super::Case;
use crate::embed::Lent;
use crate::generate::{budget, good_joins, Random};
use crate::plane::{diameter_of_sinks, MOST_SEARCHED};
use crate::proved;

/// The cases of this family.
pub const CASES: &[Case] = &[("arrival", arrive_small), ("arrival at many", arrive_large)];

/// What was found in a tree.
#[derive(Clone, Debug, PartialEq, Eq)]
struct Found {
    /// For each sink its path plus twice its delay, in half units.
    arrivals: Vec<u64>,
    /// The total said, less the sum of all wires.
    surplus: i128,
}

/// A call that embeds.
struct Arrival(Task);

impl Arrival {
    /// Asks the library, and follows its wires from the root down.
    fn follow(&self) -> Result<Found, proved::Refused> {
        let n = self.0.pins.x.len();
        // The embedding is given its joins; the other calls fill them in.
        let mut joins = self.0.joins.clone();
        joins.resize(2 * (n - 1), 0);
        let mut table = vec![0; 1 << n.min(MOST_SEARCHED)];
        let (mut u, mut v) = (vec![0; 2 * n - 1], vec![0; 2 * n - 1]);
        let mut wires = vec![0; 2 * n - 1];
        let parts = Parts {
            table: &mut table,
            joins: &mut joins,
            tree: Lent {
                u: &mut u,
                v: &mut v,
                wires: &mut wires,
            },
            x: &mut [],
            y: &mut [],
            bytes: &mut [],
        };
        let said = self.0.ask_proved(parts)?;
        let sum: u64 = wires.iter().map(|&wire| u64::from(wire)).sum();
        Ok(Found {
            arrivals: arrivals(&self.0.pins.delays, &joins, &wires),
            surplus: i128::from(said.value) - i128::from(sum),
        })
    }
}

/// The path of each sink plus twice its delay. Names of no node are passed
/// over: the arrival at a sink without parent is then too early.
fn arrivals(delays: &[u32], joins: &[u16], wires: &[u32]) -> Vec<u64> {
    let n = delays.len();
    let mut paths = vec![0; wires.len()];
    for (at, &name) in joins.iter().enumerate().rev() {
        let name = usize::from(name);
        if name < wires.len() {
            paths[name] = paths[n + at / 2] + u64::from(wires[name]);
        }
    }
    let waits = delays.iter().map(|&delay| 2 * u64::from(delay));
    paths.into_iter().zip(waits).map(|(p, w)| p + w).collect()
}

impl session::Task for Arrival {
    type Outcome = Result<Found, proved::Refused>;

    fn describe(&self) -> String {
        format!("arrival in the tree of {:?}", self.0)
    }

    /// All that the reference is asked for is the diameter of all sinks.
    fn reference(&self, _salt: u64) -> Self::Outcome {
        let Pins { x, y, delays } = &self.0.pins;
        let all = diameter_of_sinks(x, y, delays).map_err(refused)?;
        Ok(Found {
            arrivals: vec![u64::from(all); x.len()],
            surplus: 0,
        })
    }

    fn proved(&self, _salt: u64) -> Self::Outcome {
        self.follow()
    }

    fn tell(reference: &Self::Outcome, proved: &Self::Outcome) -> String {
        format!("  wanted: {reference:?}\n  proved: {proved:?}\n")
    }

    fn kinds(&self, outcome: &Self::Outcome) -> Vec<Kind> {
        match outcome {
            Ok(found) => {
                let call = self.0.call.name();
                let edge = kinds::sinks(Of::Arrivals, call, found.arrivals.len());
                edge.into_iter().collect()
            }
            Err(_) => vec![],
        }
    }
}

/// The trees of all calls that embed.
pub fn check_trees(session: &mut Session, random: &mut Random, pins: Pins) {
    let n = pins.x.len();
    let joins = good_joins(random, n);
    let embedded = Task::new(Call::Embed, pins.clone()).with_joins(joins);
    session.check(&Arrival(embedded));
    session.check(&Arrival(Task::new(Call::EmbedNearest, pins.clone())));
    if n <= MOST_SEARCHED {
        let budget = budget(random, n);
        let searched = Task::new(Call::Search, pins).with_budget(budget);
        session.check(&Arrival(searched));
    }
}

fn arrive_small(session: &mut Session, random: &mut Random) {
    let n = session.small();
    for pins in draw::every_delay(random, n) {
        check_trees(session, random, pins);
    }
}

fn arrive_large(session: &mut Session, random: &mut Random) {
    let n = draw::large(random, session.round());
    let pins = draw::good_pins(random, n);
    check_trees(session, random, pins);
}

#[cfg(test)]
mod tests {
    use super::*;

    #[test]
    fn arrivals_are_paths_plus_double_delays() {
        // Two sinks at 0 and 10 with delays of 3 and 1: wires of 8 and 12.
        assert_eq!(arrivals(&[3, 1], &[0, 1], &[8, 12, 0]), [14, 14]);
        // Node 3 joins 1 and 2, and the root it and 0.
        let wires = [7, 1, 2, 5, 0];
        assert_eq!(arrivals(&[0, 0, 1], &[1, 2, 3, 0], &wires), [7, 6, 9]);
        // A name of no node leaves sink 1 without a path.
        assert_eq!(arrivals(&[3, 1], &[0, 9], &[8, 12, 0]), [14, 2]);
    }
}
