//! Calls with buffers of just the right size, shared by the tests.
#![allow(dead_code)]

pub mod slow;

use second::embed::{embed, Lent};
use second::plane::Doubled;
use second::refusal::Refusal;
use second::search::search;
use second::segment::Place;

/// All that a call gives back, lent buffers included.
#[derive(Clone, Debug, Default, PartialEq, Eq)]
pub struct Answer {
    pub total: u32,
    pub steps: u64,
    pub proven: bool,
    pub table: Vec<u32>,
    pub pairs: Vec<u16>,
    pub u: Vec<i32>,
    pub v: Vec<i32>,
    pub wires: Vec<u32>,
}

impl Answer {
    /// Buffers for `n` sinks, each with `more` entries to spare.
    pub fn with_room(n: usize, more: usize) -> Answer {
        let nodes = (2 * n).saturating_sub(1) + more;
        Answer {
            table: vec![77; (1 << n.min(13)) + more],
            pairs: vec![77; 2 * n.saturating_sub(1) + more],
            u: vec![77; nodes],
            v: vec![77; nodes],
            wires: vec![77; nodes],
            ..Answer::default()
        }
    }

    pub fn place(&self, node: usize) -> Place {
        Place {
            u: Doubled(self.u[node]),
            v: Doubled(self.v[node]),
        }
    }

    /// Searches into these buffers.
    pub fn search(
        &mut self,
        x: &[i32],
        y: &[i32],
        delays: &[u32],
        budget: u64,
    ) -> Result<(), Refusal> {
        let lent = Lent {
            u: &mut self.u,
            v: &mut self.v,
            wires: &mut self.wires,
        };
        let found = search(x, y, delays, budget, &mut self.table, &mut self.pairs, lent)?;
        self.total = found.total;
        self.steps = found.steps;
        self.proven = found.proven;
        Ok(())
    }
}

/// The delays of sinks that have none.
pub fn zeros(x: &[i32]) -> Vec<u32> {
    vec![0; x.len()]
}

/// The search's answer in buffers of just the right size, without delays.
pub fn searched(x: &[i32], y: &[i32], budget: u64) -> Result<Answer, Refusal> {
    delayed_searched(x, y, &zeros(x), budget)
}

/// The search's answer in buffers of just the right size.
pub fn delayed_searched(
    x: &[i32],
    y: &[i32],
    delays: &[u32],
    budget: u64,
) -> Result<Answer, Refusal> {
    let mut answer = Answer::with_room(x.len(), 0);
    answer.search(x, y, delays, budget)?;
    Ok(answer)
}

/// The embedding's answer in buffers of just the right size, without delays.
pub fn treed(x: &[i32], y: &[i32], joins: &[u16]) -> Result<Answer, Refusal> {
    delayed_treed(x, y, &zeros(x), joins)
}

/// The embedding's answer in buffers of just the right size.
pub fn delayed_treed(
    x: &[i32],
    y: &[i32],
    delays: &[u32],
    joins: &[u16],
) -> Result<Answer, Refusal> {
    let mut answer = Answer::with_room(x.len(), 0);
    let lent = Lent {
        u: &mut answer.u,
        v: &mut answer.v,
        wires: &mut answer.wires,
    };
    answer.total = embed(x, y, delays, joins, lent)?;
    Ok(answer)
}
