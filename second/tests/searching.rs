//! The exact search without delays against slow renderings of the document's
//! sentences, which know of none.

mod common;

use common::slow::{self, all_steps, every_order};
use common::{searched, treed, zeros, Answer};
use second::generate::{budget, sinks, Random, SinkKind};
use second::least::join_least;
use second::refusal::Refusal;
use second::search::full_steps;

type Sinks<'a> = (&'a [i32], &'a [i32]);

/// Greatest Manhattan distance of two sinks of the subset.
fn diameter(sinks: Sinks, subset: u32) -> u32 {
    let mut greatest = 0;
    for i in (0..sinks.0.len()).filter(|i| subset >> i & 1 == 1) {
        for j in (0..i).filter(|j| subset >> j & 1 == 1) {
            let apart = (sinks.0[i] - sinks.0[j]).abs() + (sinks.1[i] - sinks.1[j]).abs();
            greatest = greatest.max(apart as u32);
        }
    }
    greatest
}

/// Compares one call with the sentences: table, steps, mark, spare entries.
fn check_at(sinks: Sinks, budget: u64) {
    let (n, full) = (sinks.0.len(), full_steps(sinks.0.len()));
    let mut answer = Answer::with_room(n, 3);
    let delays = zeros(sinks.0);
    answer.search(sinks.0, sinks.1, &delays, budget).unwrap();
    let (table, spare) = answer.table.split_at(1 << n);
    let expected = slow::table(&|subset| diameter(sinks, subset), n, budget);
    assert_eq!(table, expected, "budget {budget}");
    assert_eq!(spare, [77; 3]);
    assert_eq!(answer.steps, budget.min(full));
    assert_eq!(answer.proven, budget >= full);
    assert_eq!(answer.pairs[2 * n - 2..], [77; 3]);
    assert_eq!(answer.u[2 * n - 1..], [77; 3]);
    assert_eq!(answer.v[2 * n - 1..], [77; 3]);
    assert_eq!(answer.wires[2 * n - 1..], [77; 3]);
    let mut least = vec![0; 2 * n - 2];
    join_least(sinks.0, sinks.1, &delays, &mut least).unwrap();
    if !answer.proven {
        assert_eq!(answer.pairs[..2 * n - 2], least);
    }
    let again = treed(sinks.0, sinks.1, &answer.pairs[..2 * n - 2]).unwrap();
    assert_eq!(answer.total, again.total);
    assert_eq!(answer.u[..2 * n - 1], again.u);
    assert_eq!(answer.v[..2 * n - 1], again.v);
    assert_eq!(answer.wires[..2 * n - 1], again.wires);
}

#[test]
fn the_table_at_every_budget_up_to_four_sinks() {
    let mut random = Random::new(101);
    for n in 1..=4 {
        assert_eq!(all_steps(n).len() as u64, full_steps(n));
        for kind in [SinkKind::GOOD, SinkKind::GOOD].concat() {
            let (x, y) = sinks(&mut random, kind, n);
            for budget in (0..=full_steps(n) + 2).chain([u64::MAX - 1, u64::MAX]) {
                check_at((&x, &y), budget);
            }
        }
    }
}

#[test]
fn the_table_at_some_budgets_of_five_and_six_sinks() {
    let mut random = Random::new(102);
    for n in [5, 6] {
        for kind in SinkKind::GOOD {
            let (x, y) = sinks(&mut random, kind, n);
            check_at((&x, &y), budget(&mut random, n));
        }
    }
}

#[test]
fn proven_trees_are_the_first_least_splits() {
    let mut random = Random::new(103);
    for n in 1..=5 {
        for kind in SinkKind::GOOD {
            let (x, y) = sinks(&mut random, kind, n);
            let answer = searched(&x, &y, u64::MAX).unwrap();
            let joins = slow::joins(&|subset| diameter((&x, &y), subset), n);
            assert_eq!(answer.pairs, joins);
        }
    }
}

#[test]
fn no_other_order_beats_the_proven_tree() {
    let mut random = Random::new(104);
    let kinds = [SinkKind::GOOD, SinkKind::GOOD].concat();
    for n in 1..=5 {
        for &kind in &kinds {
            let (x, y) = sinks(&mut random, kind, n);
            let proven = searched(&x, &y, full_steps(n)).unwrap();
            let mut least = u32::MAX;
            let live: Vec<u16> = (0..n as u16).collect();
            every_order(n, &live, &mut Vec::new(), &mut |joins| {
                least = least.min(treed(&x, &y, joins).unwrap().total);
            });
            assert_eq!(proven.total, least);
        }
    }
}

#[test]
fn two_pins_on_one_place() {
    let (x, y) = ([3, 3], [-5, -5]);
    let below = searched(&x, &y, 0).unwrap();
    assert_eq!((below.proven, below.steps), (false, 0));
    assert_eq!(below.table, [0, 0, 0, 4_294_967_295]);
    let at = searched(&x, &y, 1).unwrap();
    assert_eq!((at.proven, at.steps), (true, 1));
    assert_eq!(at.table, [0; 4]);
    for answer in [below, at] {
        assert_eq!((answer.total, answer.pairs), (0, vec![0, 1]));
        assert_eq!((answer.u, answer.v), (vec![-4; 3], vec![16; 3]));
        assert_eq!(answer.wires, [0; 3]);
    }
}

#[test]
fn four_pins_on_two_places() {
    let (x, y) = ([0, 10, 0, 10], [0; 4]);
    let below = searched(&x, &y, 24).unwrap();
    let at = searched(&x, &y, 25).unwrap();
    assert_eq!((below.proven, at.proven), (false, true));
    // By subsets of pins 0 to 3: only those within one place cost nothing.
    let table = [0, 0, 0, 10, 0, 0, 10, 10, 0, 10, 0, 10, 10, 10, 10, 10];
    assert_eq!(at.table, table);
    for answer in [below, at] {
        assert_eq!((answer.total, answer.pairs), (20, vec![0, 2, 1, 3, 4, 5]));
        assert_eq!(answer.wires, [0, 0, 0, 0, 10, 10, 0]);
        assert_eq!(answer.u, [0, 20, 0, 20, 0, 20, 10]);
        assert_eq!(answer.v, [0, 20, 0, 20, 0, 20, 10]);
    }
}

#[test]
fn twelve_pins_on_one_place() {
    let (x, y) = ([1; 12], [0; 12]);
    let at = searched(&x, &y, full_steps(12)).unwrap();
    assert_eq!((at.proven, at.steps, at.total), (true, 261_625, 0));
    assert_eq!(at.table, [0; 4096]);
    assert_eq!((at.u, at.v), (vec![2; 23], vec![2; 23]));
    assert_eq!(at.wires, [0; 23]);
    // All sums are 0, so the first split stays: the lowest pin by itself.
    let first: Vec<u16> = (0..11).flat_map(|i| [10 - i, 11 + i]).collect();
    assert_eq!(at.pairs, first);
    // All diameters are 0, so the two lowest live nodes are joined in turn.
    let below = searched(&x, &y, full_steps(12) - 1).unwrap();
    assert_eq!((below.proven, below.total), (false, 0));
    assert_eq!(below.pairs, (0..22).collect::<Vec<u16>>());
    assert_eq!(below.wires, [0; 23]);
}

#[test]
fn search_refusals_leave_every_buffer() {
    let (x, y) = ([0, 4, 7], [0, 0, 1]);
    let cases: [(&[i32], &[i32], Refusal); 5] = [
        (&x, &y[..2], Refusal::ListsDiffer),
        (&[], &[], Refusal::NoSink),
        (&[8; 13], &[8; 13], Refusal::TooManySinks),
        (&[0, 0, -1_000_001], &[0, 0, 1], Refusal::OutOfRange(2)),
        (&[0, 4, 0], &[0, 0, 0], Refusal::ShortBuffer),
    ];
    for (x, y, refusal) in cases {
        // With entries to spare too, so that there is something to leave; but
        // then no buffer is short.
        for room in [(0, 0), (13, 2)] {
            let mut answer = Answer::with_room(room.0, room.1);
            let before = answer.clone();
            if refusal != Refusal::ShortBuffer || room == (0, 0) {
                assert_eq!(answer.search(x, y, &zeros(x), 9), Err(refusal));
                assert_eq!(answer, before);
            }
        }
    }
}

#[test]
fn a_short_buffer_leaves_the_others() {
    let (x, y) = ([0, 4, 7], [0, 0, 1]);
    for short in 0..5 {
        let mut answer = Answer::with_room(3, 0);
        match short {
            0 => drop(answer.table.pop()),
            1 => drop(answer.pairs.pop()),
            2 => drop(answer.u.pop()),
            3 => drop(answer.v.pop()),
            _ => drop(answer.wires.pop()),
        }
        let before = answer.clone();
        let refused = answer.search(&x, &y, &zeros(&x), 9);
        assert_eq!(refused, Err(Refusal::ShortBuffer));
        assert_eq!(answer, before);
    }
}

#[test]
fn twelve_sinks_at_budgets_around_the_full_count() {
    let mut random = Random::new(105);
    for kind in SinkKind::GOOD {
        let (x, y) = sinks(&mut random, kind, 12);
        let full = full_steps(12);
        let below = searched(&x, &y, full - 1).unwrap();
        assert_eq!((below.proven, below.steps), (false, full - 1));
        let at = searched(&x, &y, full).unwrap();
        assert_eq!((at.proven, at.steps), (true, full));
        assert!(at.total <= below.total);
        // All but the last subset are finished one step before the end.
        assert_eq!(at.table[..4095], below.table[..4095]);
        assert_eq!(searched(&x, &y, u64::MAX).unwrap().steps, full);
        assert_eq!(searched(&x, &y, 0).unwrap().table[3], u32::MAX);
    }
}
