//! Writers and readers of the three house files.
//!
//! Files of version 1, the only one, hold no delays: every sink of theirs has
//! the delay 0.

use crate::embed::{self, Embedding};
pub use crate::form::Kind;
use crate::form::{put_field, take_apart, VERSION};
use crate::joins;
use crate::plane::{self, MOST_SINKS};
use crate::refusal::Refusal;

/// Writes a sink file into the lent bytes and gives its length.
/// Refusals 1 to 4, then 7.
pub fn write_sinks(x: &[i32], y: &[i32], out: &mut [u8]) -> Result<usize, Refusal> {
    plane::check_places(x, y, MOST_SINKS)?;
    lend(Kind::Sinks, x.len(), out, || sink_bytes(x, y))
}

/// Writes a joined file into the lent bytes and gives its length.
/// Refusals 1 to 4, 6, then 7.
pub fn write_joined(x: &[i32], y: &[i32], joins: &[u16], out: &mut [u8]) -> Result<usize, Refusal> {
    plane::check_places(x, y, MOST_SINKS)?;
    joins::check(x.len(), joins)?;
    lend(Kind::Joined, x.len(), out, || joined_bytes(x, y, joins))
}

/// Writes a tree file into the lent bytes and gives its length; places and
/// wires are worked out here. Refusals 1 to 4, 6, then 7.
pub fn write_tree(x: &[i32], y: &[i32], joins: &[u16], out: &mut [u8]) -> Result<usize, Refusal> {
    plane::check_places(x, y, MOST_SINKS)?;
    joins::check(x.len(), joins)?;
    lend(Kind::Tree, x.len(), out, || tree_bytes(x, y, joins))
}

/// Makes the file of `n` sinks and copies it to the front of the lent bytes;
/// where it does not fit, it is not made at all.
fn lend(
    kind: Kind,
    n: usize,
    out: &mut [u8],
    make: impl FnOnce() -> Vec<u8>,
) -> Result<usize, Refusal> {
    let length = kind.file_length(n);
    let front = out.get_mut(..length).ok_or(Refusal::ShortBuffer)?;
    front.copy_from_slice(&make());
    Ok(length)
}

fn sink_bytes(x: &[i32], y: &[i32]) -> Vec<u8> {
    let mut file = Vec::new();
    put_field(&mut file, 1, &[VERSION]);
    let sinks = x.iter().zip(y).map(|(&x, &y)| (x, y));
    put_field(&mut file, 2, &place_bytes(sinks));
    file
}

fn joined_bytes(x: &[i32], y: &[i32], joins: &[u16]) -> Vec<u8> {
    let mut file = sink_bytes(x, y);
    let pairs: Vec<u8> = joins.iter().flat_map(|j| j.to_be_bytes()).collect();
    put_field(&mut file, 3, &pairs);
    file
}

fn tree_bytes(x: &[i32], y: &[i32], joins: &[u16]) -> Vec<u8> {
    let mut file = joined_bytes(x, y, joins);
    let tree = embed::work_out(x, y, &plane::no_delays(x.len()), joins);
    let places = tree.places.iter().map(|place| (place.u.0, place.v.0));
    put_field(&mut file, 4, &place_bytes(places));
    let wires: Vec<u8> = tree.wires.iter().flat_map(|w| w.to_be_bytes()).collect();
    put_field(&mut file, 5, &wires);
    file
}

/// Records of two numbers each, x and y or U and V.
fn place_bytes(places: impl Iterator<Item = (i32, i32)>) -> Vec<u8> {
    let mut bytes = Vec::new();
    for (a, b) in places {
        bytes.extend(a.to_be_bytes());
        bytes.extend(b.to_be_bytes());
    }
    bytes
}

/// Reads a sink file, fills x and y from the front and gives the number of
/// sinks. Refusals 8, 2 to 4, then 7.
pub fn read_sinks(file: &[u8], x: &mut [i32], y: &mut [i32]) -> Result<usize, Refusal> {
    contents(Kind::Sinks, file)?.hand_out(x, y, &mut [])
}

/// Reads a joined file, fills x, y and the joins from the front and gives
/// the number of sinks. Refusals 8, 2 to 4, 6, then 7.
pub fn read_joined(
    file: &[u8],
    x: &mut [i32],
    y: &mut [i32],
    joins: &mut [u16],
) -> Result<usize, Refusal> {
    contents(Kind::Joined, file)?.hand_out(x, y, joins)
}

/// Reads a tree file as a joined file is read; its places and wires are
/// checked, not handed out. Refusals 8, 2 to 4, 6, 9, then 7.
pub fn read_tree(
    file: &[u8],
    x: &mut [i32],
    y: &mut [i32],
    joins: &mut [u16],
) -> Result<usize, Refusal> {
    contents(Kind::Tree, file)?.hand_out(x, y, joins)
}

/// The accepted contents of a file; a sink file has no joins.
pub(crate) struct Contents {
    pub x: Vec<i32>,
    pub y: Vec<i32>,
    pub joins: Vec<u16>,
}

impl Contents {
    /// Refusal 7, or the front entries filled and the number of sinks.
    fn hand_out(&self, x: &mut [i32], y: &mut [i32], joins: &mut [u16]) -> Result<usize, Refusal> {
        let (n, names) = (self.x.len(), self.joins.len());
        if x.len() < n || y.len() < n || joins.len() < names {
            return Err(Refusal::ShortBuffer);
        }
        x[..n].copy_from_slice(&self.x);
        y[..n].copy_from_slice(&self.y);
        joins[..names].copy_from_slice(&self.joins);
        Ok(n)
    }
}

/// Everything of a file but refusal 7, which belongs to lent buffers.
pub(crate) fn contents(kind: Kind, file: &[u8]) -> Result<Contents, Refusal> {
    let values = take_apart(kind, file)?;
    let sinks = numbers(values[1]);
    let x: Vec<i32> = sinks.iter().copied().step_by(2).collect();
    let y: Vec<i32> = sinks.iter().copied().skip(1).step_by(2).collect();
    plane::check_places(&x, &y, MOST_SINKS)?;
    let mut joins = Vec::new();
    if kind != Kind::Sinks {
        let names = values[2].chunks_exact(2);
        joins.extend(names.map(|b| u16::from_be_bytes([b[0], b[1]])));
        joins::check(x.len(), &joins)?;
    }
    if kind == Kind::Tree {
        let tree = embed::work_out(&x, &y, &plane::no_delays(x.len()), &joins);
        check_tree(&tree, &numbers(values[3]), &numbers(values[4]))?;
    }
    Ok(Contents { x, y, joins })
}

/// Big-endian numbers of four bytes in two's complement.
fn numbers(value: &[u8]) -> Vec<i32> {
    let number = |b: &[u8]| i32::from_be_bytes([b[0], b[1], b[2], b[3]]);
    value.chunks_exact(4).map(number).collect()
}

/// Refusal 9: both counts first, then the lowest node that differs in U, V
/// or wire. Wires are unsigned in the file; the same four bytes are compared.
fn check_tree(tree: &Embedding, places: &[i32], wires: &[i32]) -> Result<(), Refusal> {
    let nodes = tree.places.len();
    if places.len() != 2 * nodes || wires.len() != nodes {
        return Err(Refusal::NotTheEmbedding(None));
    }
    let differs = |&node: &usize| {
        places[2 * node] != tree.places[node].u.0
            || places[2 * node + 1] != tree.places[node].v.0
            || wires[node] as u32 != tree.wires[node]
    };
    match (0..nodes).find(differs) {
        Some(node) => Err(Refusal::NotTheEmbedding(Some(node))),
        None => Ok(()),
    }
}
