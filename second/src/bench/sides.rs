//! The calls that are timed, by the side that answers them.

use crate::embed::{self, Lent};
use crate::files::{read_tree, write_sinks, write_tree, Kind};
use crate::generate::{good_joins, sinks, Random, SinkKind};
use crate::least;
use crate::peers;
use crate::proved;
use crate::refusal::Refusal;
use crate::search;

/// One call of one side; gives the value said, which all must agree on.
pub type Side = fn(&Input, &mut Work) -> u64;

/// The sides of each call: the proved library, the reference, and the peer
/// where there is one.
pub const CHECK: [Side; 2] = [proved_check, reference_check];
pub const EMBED: [Side; 3] = [proved_embed, reference_embed, peer_embed];
pub const JOIN: [Side; 3] = [proved_join, reference_join, peer_join];
pub const SEARCH: [Side; 3] = [proved_search, reference_search, peer_search];
pub const READ: [Side; 2] = [proved_read, reference_read];
pub const WRITE: [Side; 2] = [proved_write, reference_write];

/// What a call takes.
pub struct Input {
    x: Vec<i32>,
    y: Vec<i32>,
    delays: Vec<u32>,
    joins: Vec<u16>,
    file: Vec<u8>,
}

impl Input {
    /// Sinks of the given kind without delay, with any joining order, and the
    /// file of both.
    pub fn draw(random: &mut Random, kind: SinkKind, n: usize) -> Input {
        let (x, y) = sinks(random, kind, n);
        let joins = good_joins(random, n);
        let mut file = vec![0; Kind::Tree.file_length(n)];
        assert_eq!(write_tree(&x, &y, &joins, &mut file), Ok(file.len()));
        let delays = vec![0; n];
        Input {
            x,
            y,
            delays,
            joins,
            file,
        }
    }

    /// Gives each sink any delay up to `most`; the file holds none of them.
    pub fn delay(&mut self, random: &mut Random, most: u32) {
        for delay in &mut self.delays {
            *delay = random.below(most as usize + 1) as u32;
        }
    }
}

/// What a call is lent, of exactly the lengths that are filled.
#[derive(PartialEq, Eq)]
pub struct Work {
    table: Vec<u32>,
    joins: Vec<u16>,
    u: Vec<i32>,
    v: Vec<i32>,
    wires: Vec<u32>,
    x: Vec<i32>,
    y: Vec<i32>,
    bytes: Vec<u8>,
}

impl Work {
    /// Room for the answers on `n` sinks.
    pub fn new(n: usize) -> Work {
        Work {
            table: vec![0; 1 << n.min(12)],
            joins: vec![0; 2 * (n - 1)],
            u: vec![0; 2 * n - 1],
            v: vec![0; 2 * n - 1],
            wires: vec![0; 2 * n - 1],
            x: vec![0; n],
            y: vec![0; n],
            bytes: vec![0; Kind::Tree.file_length(n)],
        }
    }

    /// The work table, the joins, and the places and wires.
    fn tree(&mut self) -> (&mut [u32], &mut [u16], Lent<'_>) {
        let lent = Lent {
            u: &mut self.u,
            v: &mut self.v,
            wires: &mut self.wires,
        };
        (&mut self.table, &mut self.joins, lent)
    }
}

/// A sink file for which there is no room is refused 7 as soon as its sinks
/// have been checked; anything else would measure something else.
fn proved_check(input: &Input, _work: &mut Work) -> u64 {
    let refused = proved::write(Kind::Sinks, &input.x, &input.y, &[], &mut []);
    assert_eq!(refused, Err((7, None)));
    7
}

fn reference_check(input: &Input, _work: &mut Work) -> u64 {
    let refused = write_sinks(&input.x, &input.y, &mut []);
    assert_eq!(refused, Err(Refusal::ShortBuffer));
    7
}

fn proved_embed(input: &Input, work: &mut Work) -> u64 {
    let (_, _, lent) = work.tree();
    let said = proved::embed(&input.x, &input.y, &input.delays, &input.joins, lent);
    said.map_or(u64::MAX, |said| said.value)
}

fn reference_embed(input: &Input, work: &mut Work) -> u64 {
    let (_, _, lent) = work.tree();
    let total = embed::embed(&input.x, &input.y, &input.delays, &input.joins, lent);
    total.map_or(u64::MAX, u64::from)
}

fn peer_embed(input: &Input, work: &mut Work) -> u64 {
    let (_, _, lent) = work.tree();
    peers::embed(&input.x, &input.y, &input.delays, &input.joins, lent)
}

/// The call says nothing on acceptance; the pairs are compared all the same.
fn proved_join(input: &Input, work: &mut Work) -> u64 {
    let said = proved::join_nearest(&input.x, &input.y, &input.delays, &mut work.joins);
    said.map_or(u64::MAX, |said| said.value)
}

fn reference_join(input: &Input, work: &mut Work) -> u64 {
    let pairs = least::join_least(&input.x, &input.y, &input.delays, &mut work.joins);
    pairs.map_or(u64::MAX, |_| 0)
}

fn peer_join(input: &Input, work: &mut Work) -> u64 {
    peers::join(&input.x, &input.y, &input.delays, &mut work.joins)
}

fn proved_search(input: &Input, work: &mut Work) -> u64 {
    let Input { x, y, delays, .. } = input;
    let (table, joins, lent) = work.tree();
    let said = proved::search(x, y, delays, u64::MAX, table, joins, lent);
    said.map_or(u64::MAX, |said| said.value)
}

fn reference_search(input: &Input, work: &mut Work) -> u64 {
    let Input { x, y, delays, .. } = input;
    let (table, joins, lent) = work.tree();
    let found = search::search(x, y, delays, u64::MAX, table, joins, lent);
    found.map_or(u64::MAX, |found| u64::from(found.total))
}

fn peer_search(input: &Input, work: &mut Work) -> u64 {
    let (table, joins, lent) = work.tree();
    peers::search(&input.x, &input.y, &input.delays, table, joins, lent)
}

fn proved_read(input: &Input, work: &mut Work) -> u64 {
    let Work { x, y, joins, .. } = work;
    let said = proved::read(Kind::Tree, &input.file, x, y, joins);
    said.map_or(u64::MAX, |said| said.value)
}

fn reference_read(input: &Input, work: &mut Work) -> u64 {
    let Work { x, y, joins, .. } = work;
    let sinks = read_tree(&input.file, x, y, joins);
    sinks.map_or(u64::MAX, |sinks| sinks as u64)
}

fn proved_write(input: &Input, work: &mut Work) -> u64 {
    let Input { x, y, joins, .. } = input;
    let said = proved::write(Kind::Tree, x, y, joins, &mut work.bytes);
    said.map_or(u64::MAX, |said| said.value)
}

fn reference_write(input: &Input, work: &mut Work) -> u64 {
    let length = write_tree(&input.x, &input.y, &input.joins, &mut work.bytes);
    length.map_or(u64::MAX, |length| length as u64)
}
