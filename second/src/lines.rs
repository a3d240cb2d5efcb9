//! The text that the tree program prints.

use crate::embed::Lent;
use crate::files::{self, Kind};
use crate::joins;
use crate::least;
use crate::plane::{self, MOST_SEARCHED};
use crate::refusal::Refusal;
use crate::search;
use std::fmt::Write;

/// Most bytes of input that the program looks at.
pub const MOST_INPUT: usize = 32_768;

/// The program's whole output for the given input.
pub fn tree_lines(input: &[u8]) -> String {
    if input.len() > MOST_INPUT {
        return "refused input\n".to_string();
    }
    match build(input) {
        Ok(tree) => tree.lines(),
        Err(refusal) => format!("{refusal}\n"),
    }
}

/// A finished tree with all that its lines show.
struct Tree {
    sinks: usize,
    total: u32,
    mark: &'static str,
    pairs: Vec<u16>,
    u: Vec<i32>,
    v: Vec<i32>,
    wires: Vec<u32>,
}

/// Reads the sink file, which holds no delays, and builds its tree.
fn build(input: &[u8]) -> Result<Tree, Refusal> {
    let sinks = files::contents(Kind::Sinks, input)?;
    let (x, y) = (&sinks.x, &sinks.y);
    let n = x.len();
    let delays = &plane::no_delays(n);
    let mut tree = Tree {
        sinks: n,
        total: 0,
        mark: "greedy",
        pairs: vec![0; 2 * (n - 1)],
        u: vec![0; 2 * n - 1],
        v: vec![0; 2 * n - 1],
        wires: vec![0; 2 * n - 1],
    };
    let lent = Lent {
        u: &mut tree.u,
        v: &mut tree.v,
        wires: &mut tree.wires,
    };
    if n <= MOST_SEARCHED {
        let budget = search::full_steps(n);
        let mut table = vec![0; 1 << n];
        let found = search::search(x, y, delays, budget, &mut table, &mut tree.pairs, lent)?;
        tree.total = found.total;
        tree.mark = "proven";
    } else {
        tree.total = least::build_least(x, y, delays, &mut tree.pairs, lent)?;
    }
    Ok(tree)
}

impl Tree {
    fn lines(&self) -> String {
        let mut out = format!("sinks {} wire {} {}\n", self.sinks, self.total, self.mark);
        self.brackets(self.wires.len() - 1, &mut out);
        out.push('\n');
        let parents = joins::parents(self.sinks, &self.pairs);
        for (node, parent) in parents.iter().enumerate() {
            let parent = parent.map_or("-".to_string(), |p| p.to_string());
            let (u, v, wire) = (self.u[node], self.v[node], self.wires[node]);
            // Writing to a String cannot fail.
            let _ = writeln!(out, "{node} {u} {v} {wire} {parent}");
        }
        out
    }

    /// Writes a node in brackets; its children have smaller numbers, so the
    /// calls come to an end.
    fn brackets(&self, node: usize, out: &mut String) {
        if node < self.sinks {
            out.push_str(&node.to_string());
            return;
        }
        let at = 2 * (node - self.sinks);
        out.push('(');
        self.brackets(usize::from(self.pairs[at]), out);
        out.push(' ');
        self.brackets(usize::from(self.pairs[at + 1]), out);
        out.push(')');
    }
}
