//! Embedding without delays against a slow rendering of the document's
//! sentences, which knows of none.

mod common;

use common::slow::{axis, sinks_under};
use common::treed;
use second::generate::{good_joins, Random};

/// Greatest Manhattan distance of two sinks of the set.
fn diameter(x: &[i32], y: &[i32], set: &[usize]) -> i32 {
    let apart = |i: usize, j: usize| (x[i] - x[j]).abs() + (y[i] - y[j]).abs();
    let pairs = set.iter().flat_map(|&i| set.iter().map(move |&j| (i, j)));
    pairs.map(|(i, j)| apart(i, j)).max().unwrap()
}

/// All values of a node's range on the axis with these tilted coordinates.
fn range(tilted: &[i32], set: &[usize], d: i32) -> Vec<i32> {
    let greatest = set.iter().map(|&i| tilted[i]).max().unwrap();
    let least = set.iter().map(|&i| tilted[i]).min().unwrap();
    (2 * greatest - d..=2 * least + d).collect()
}

fn check(x: &[i32], y: &[i32], joins: &[u16]) {
    let n = x.len();
    let sets = sinks_under(n, joins);
    let ds: Vec<i32> = sets.iter().map(|set| diameter(x, y, set)).collect();
    let us: Vec<i32> = (0..n).map(|i| x[i] + y[i]).collect();
    let vs: Vec<i32> = (0..n).map(|i| x[i] - y[i]).collect();
    let ranges = |tilted: &[i32]| -> Vec<Vec<i32>> {
        let nodes = sets.iter().zip(&ds);
        nodes.map(|(set, &d)| range(tilted, set, d)).collect()
    };
    let answer = treed(x, y, joins).unwrap();
    assert_eq!(answer.u, axis(n, joins, &ranges(&us)));
    assert_eq!(answer.v, axis(n, joins, &ranges(&vs)));
    for (at, &node) in joins.iter().enumerate() {
        let wire = ds[n + at / 2] - ds[node as usize];
        assert_eq!(answer.wires[node as usize], wire as u32);
    }
    assert_eq!(answer.wires[2 * n - 2], 0);
    let total: i32 = ds[n..].iter().sum::<i32>() + ds[2 * n - 2];
    assert_eq!(answer.total, total as u32);
}

#[test]
fn small_trees_follow_the_sentences() {
    let mut random = Random::new(301);
    for round in 0..300 {
        let n = 1 + round % 8;
        // Eight different columns keep the places apart.
        let x: Vec<i32> = (0..n as i32).map(|i| i * 5 % 8 - 4).collect();
        let y: Vec<i32> = (0..n).map(|_| random.between(-12, 12)).collect();
        let joins = good_joins(&mut random, n);
        check(&x, &y, &joins);
        check(&y, &x, &joins);
    }
}

#[test]
fn small_trees_with_shared_places_follow_the_sentences() {
    let mut random = Random::new(302);
    for round in 0..300 {
        let n = 2 + round % 7;
        let most = random.pick(&[0, 1, 2]);
        let mut list = || -> Vec<i32> { (0..n).map(|_| random.between(0, most)).collect() };
        let (x, y) = (list(), list());
        check(&x, &y, &good_joins(&mut random, n));
    }
}

#[test]
fn pins_on_one_place_need_no_wire_between_them() {
    let two = treed(&[3, 3], &[-5, -5], &[0, 1]).unwrap();
    assert_eq!((two.u, two.v), (vec![-4; 3], vec![16; 3]));
    assert_eq!((two.wires, two.total), (vec![0; 3], 0));
    let (x, y) = ([0, 10, 0, 10], [0; 4]);
    let four = treed(&x, &y, &[0, 2, 1, 3, 4, 5]).unwrap();
    assert_eq!(four.u, [0, 20, 0, 20, 0, 20, 10]);
    assert_eq!(four.v, [0, 20, 0, 20, 0, 20, 10]);
    assert_eq!(four.wires, [0, 0, 0, 0, 10, 10, 0]);
    assert_eq!(four.total, 20);
}

#[test]
fn a_pin_joined_late_has_a_wire_of_its_own() {
    // Pins 0 and 2 share a place, but 0 is joined to the far pin 1 first:
    // the root stands on that join, 10 half units from the place of both.
    let answer = treed(&[0, 10, 0], &[0; 3], &[0, 1, 3, 2]).unwrap();
    assert_eq!(answer.u, [0, 20, 0, 10, 10]);
    assert_eq!(answer.v, [0, 20, 0, 10, 10]);
    assert_eq!(answer.wires, [10, 10, 10, 0, 0]);
    assert_eq!(answer.total, 30);
}

#[test]
fn the_root_takes_the_least_u_then_the_least_v() {
    let level = treed(&[0, 3], &[0, 2], &[0, 1]).unwrap();
    assert_eq!((level.u[2], level.v[2]), (5, -3));
    let steep = treed(&[0, 3], &[0, -2], &[0, 1]).unwrap();
    assert_eq!((steep.u[2], steep.v[2]), (-3, 5));
}
