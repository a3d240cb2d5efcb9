//! Sinks with delays: against slow renderings of the document's sentences, by
//! what must hold of any tree, and against sinks that have none.

mod common;

use common::slow::{self, axis, every_order, sinks_under};
use common::{delayed_searched, delayed_treed, searched, treed, zeros, Answer};
use second::embed::Lent;
use second::files::{write_sinks, write_tree, Kind};
use second::generate::{
    budget, delays, good_joins, sinks, DelayKind, Random, SinkKind, LONG_DELAYS,
};
use second::least::{build_least, join_least};
use second::lines::tree_lines;
use second::plane::diameter_of_sinks;
use second::refusal::Refusal;
use second::search::full_steps;

/// Lists of x, y and delays of the same length.
type Pins<'a> = (&'a [i32], &'a [i32], &'a [u32]);

/// The greatest of what two sinks of the set are apart, both delays counted,
/// and of the double delays of its single sinks.
fn diameter(pins: Pins, set: &[usize]) -> u32 {
    let (x, y, w) = pins;
    let apart = |i: usize, j: usize| x[i].abs_diff(x[j]) + y[i].abs_diff(y[j]) + w[i] + w[j];
    let singles = set.iter().map(|&i| 2 * w[i]);
    let unlike = |i: usize| set.iter().filter(move |&&j| j != i);
    let pairs = set
        .iter()
        .flat_map(|&i| unlike(i).map(move |&j| apart(i, j)));
    singles.chain(pairs).max().unwrap()
}

/// All values of a node's range on the axis with these tilted coordinates.
fn range(tilted: &[i32], delays: &[u32], set: &[usize], d: i32) -> Vec<i32> {
    let greatest = set.iter().map(|&i| tilted[i] + delays[i] as i32).max();
    let least = set.iter().map(|&i| tilted[i] - delays[i] as i32).min();
    (2 * greatest.unwrap() - d..=2 * least.unwrap() + d).collect()
}

/// Places, wires and total by their sentences.
fn check_embedding(pins: Pins, joins: &[u16]) {
    let (x, y, w) = pins;
    let n = x.len();
    let sets = sinks_under(n, joins);
    let ds: Vec<u32> = sets.iter().map(|set| diameter(pins, set)).collect();
    let us: Vec<i32> = (0..n).map(|i| x[i] + y[i]).collect();
    let vs: Vec<i32> = (0..n).map(|i| x[i] - y[i]).collect();
    let ranges = |tilted: &[i32]| -> Vec<Vec<i32>> {
        let nodes = sets.iter().zip(&ds);
        nodes
            .map(|(set, &d)| range(tilted, w, set, d as i32))
            .collect()
    };
    let answer = delayed_treed(x, y, w, joins).unwrap();
    assert_eq!(answer.u, axis(n, joins, &ranges(&us)));
    assert_eq!(answer.v, axis(n, joins, &ranges(&vs)));
    for (at, &node) in joins.iter().enumerate() {
        let wire = ds[n + at / 2] - ds[node as usize];
        assert_eq!(answer.wires[node as usize], wire);
    }
    assert_eq!(answer.wires[2 * n - 2], 0);
    let twice: u32 = w.iter().map(|w| 2 * w).sum();
    let total = ds[n..].iter().sum::<u32>() + ds[2 * n - 2] - twice;
    assert_eq!(answer.total, total);
    check_arrival(pins, joins, &answer);
}

/// Path plus delay is the same for all sinks, the diameter of all of them in
/// half units; and the total is the sum of the wires.
fn check_arrival(pins: Pins, joins: &[u16], answer: &Answer) {
    let (x, y, w) = pins;
    let n = x.len();
    let mut reached = vec![0; 2 * n - 1];
    for (at, &child) in joins.iter().enumerate().rev() {
        let child = child as usize;
        reached[child] = reached[n + at / 2] + answer.wires[child];
    }
    let all = diameter_of_sinks(x, y, w).unwrap();
    for sink in 0..n {
        assert_eq!(reached[sink] + 2 * w[sink], all, "sink {sink} of {pins:?}");
    }
    let sum: u64 = answer.wires.iter().map(|&wire| u64::from(wire)).sum();
    assert_eq!(sum, u64::from(answer.total));
    assert!(sum < 3_072_000_000);
}

#[test]
fn small_trees_follow_the_sentences() {
    let mut random = Random::new(401);
    for round in 0..600 {
        let n = 1 + round % 8;
        let most = random.pick(&[0, 2, 12]);
        let mut list = || -> Vec<i32> { (0..n).map(|_| random.between(-most, most)).collect() };
        let (x, y) = (list(), list());
        let longest = random.pick(&[1, 3, 10, 60]);
        let w: Vec<u32> = (0..n).map(|_| random.below(longest + 1) as u32).collect();
        check_embedding((&x, &y, &w), &good_joins(&mut random, n));
        let w = delays(&mut random, DelayKind::Swallowing, &x, &y);
        check_embedding((&x, &y, &w), &good_joins(&mut random, n));
    }
}

#[test]
fn every_tree_arrives_at_all_sinks_at_once() {
    let mut random = Random::new(402);
    for kind in DelayKind::GOOD {
        for n in 1..25 {
            for spread in SinkKind::GOOD {
                check_arrivals(&mut random, spread, kind, n);
            }
        }
        for n in [100, 512] {
            let spread = random.pick(&SinkKind::GOOD);
            check_arrivals(&mut random, spread, kind, n);
        }
    }
}

/// The arrival in the trees of all calls.
fn check_arrivals(random: &mut Random, spread: SinkKind, kind: DelayKind, n: usize) {
    let (x, y) = sinks(random, spread, n);
    let w = delays(random, kind, &x, &y);
    let pins = (&x[..], &y[..], &w[..]);
    let joins = good_joins(random, n);
    let embedded = delayed_treed(&x, &y, &w, &joins).unwrap();
    check_arrival(pins, &joins, &embedded);
    let built = built(pins);
    check_arrival(pins, &built.pairs, &built);
    if n <= 8 {
        let found = delayed_searched(&x, &y, &w, budget(random, n)).unwrap();
        check_arrival(pins, &found.pairs, &found);
    }
}

/// The tree of joining by least diameter.
fn built(pins: Pins) -> Answer {
    let (x, y, w) = pins;
    let mut answer = Answer::with_room(x.len(), 0);
    let lent = Lent {
        u: &mut answer.u,
        v: &mut answer.v,
        wires: &mut answer.wires,
    };
    answer.total = build_least(x, y, w, &mut answer.pairs, lent).unwrap();
    answer
}

/// The diameter of a subset of the sinks.
fn subset_diameter(pins: Pins, subset: u32) -> u32 {
    let inside = (0..pins.0.len()).filter(|i| subset >> i & 1 == 1);
    diameter(pins, &inside.collect::<Vec<_>>())
}

/// Compares one search with the sentences: table, steps, mark, tree.
fn check_search(pins: Pins, budget: u64) {
    let (x, y, w) = pins;
    let (n, full) = (x.len(), full_steps(x.len()));
    let diameter = |subset| subset_diameter(pins, subset);
    let answer = delayed_searched(x, y, w, budget).unwrap();
    let table = slow::table(&diameter, n, budget);
    assert_eq!(answer.table, table, "{pins:?} budget {budget}");
    assert_eq!(answer.steps, budget.min(full));
    assert_eq!(answer.proven, budget >= full);
    let mut joins = slow::joins(&diameter, n);
    if !answer.proven {
        join_least(x, y, w, &mut joins).unwrap();
    }
    assert_eq!(answer.pairs, joins);
    let again = delayed_treed(x, y, w, &joins).unwrap();
    assert_eq!(answer.total, again.total);
    assert_eq!((&answer.u, &answer.v), (&again.u, &again.v));
    assert_eq!(answer.wires, again.wires);
}

#[test]
fn the_table_at_every_budget_up_to_four_sinks() {
    let mut random = Random::new(403);
    for n in 1..=4 {
        for spread in SinkKind::GOOD {
            for kind in DelayKind::GOOD {
                let (x, y) = sinks(&mut random, spread, n);
                let w = delays(&mut random, kind, &x, &y);
                for budget in (0..=full_steps(n) + 1).chain([u64::MAX]) {
                    check_search((&x, &y, &w), budget);
                }
            }
        }
    }
}

#[test]
fn the_table_at_some_budgets_of_five_and_six_sinks() {
    let mut random = Random::new(404);
    for n in [5, 6] {
        for kind in DelayKind::GOOD {
            let spread = random.pick(&SinkKind::GOOD);
            let (x, y) = sinks(&mut random, spread, n);
            let w = delays(&mut random, kind, &x, &y);
            check_search((&x, &y, &w), budget(&mut random, n));
            check_search((&x, &y, &w), full_steps(n));
        }
    }
}

#[test]
fn no_other_order_beats_the_proven_tree() {
    let mut random = Random::new(405);
    for n in 1..=5 {
        for spread in SinkKind::GOOD {
            for kind in DelayKind::GOOD {
                let (x, y) = sinks(&mut random, spread, n);
                let w = delays(&mut random, kind, &x, &y);
                let proven = delayed_searched(&x, &y, &w, full_steps(n)).unwrap();
                let mut least = u32::MAX;
                let live: Vec<u16> = (0..n as u16).collect();
                every_order(n, &live, &mut Vec::new(), &mut |joins| {
                    let total = delayed_treed(&x, &y, &w, joins).unwrap().total;
                    least = least.min(total);
                });
                assert_eq!(proven.total, least, "{x:?} {y:?} {w:?}");
            }
        }
    }
}

#[test]
fn two_delayed_sinks_by_every_call() {
    // d = 10 + 3 + 1 = 14, the box -3 to 11, the root 2 * 11 - 14 = 8. Wires
    // 14 - 6 and 14 - 2. Total 14 + 14 - 2 * 4. Single sinks hold 0.
    let (x, y, w) = ([0, 10], [0, 0], [3, 1]);
    let proven = delayed_searched(&x, &y, &w, 1).unwrap();
    assert_eq!((proven.steps, proven.proven), (1, true));
    assert_eq!(proven.table, [0, 0, 0, 14]);
    let below = delayed_searched(&x, &y, &w, 0).unwrap();
    assert_eq!((below.steps, below.proven), (0, false));
    assert_eq!(below.table, [0, 0, 0, 4_294_967_295]);
    for answer in [proven, below, built((&x, &y, &w))] {
        assert_eq!((answer.pairs, answer.total), (vec![0, 1], 20));
        assert_eq!((answer.u, answer.v), (vec![0, 20, 8], vec![0, 20, 8]));
        assert_eq!(answer.wires, [8, 12, 0]);
    }
}

#[test]
fn one_delayed_sink_by_every_call() {
    let (x, y, w) = ([3], [-5], [1_000_000]);
    let found = delayed_searched(&x, &y, &w, 0).unwrap();
    assert_eq!((found.steps, found.proven), (0, true));
    assert_eq!(found.table, [0, 0]);
    for answer in [found, built((&x, &y, &w))] {
        assert_eq!((answer.u, answer.v), (vec![-4], vec![16]));
        assert_eq!((answer.wires, answer.total), (vec![0], 0));
    }
}

#[test]
fn a_delay_changes_the_least_tree() {
    // Case D with 3 for its last pin, which reaches from 8 to 14. Diameters of
    // 01 4, 02 7, 12 3, 03 14, 13 10, 23 7, 012 7, 013 14, 023 14, 123 10, and
    // 14 of all. So 012 has 7 + 3; 013 has 14 + 4; 023 has 14 + 7, by 0 or by
    // 02; 123 has 10 + 3. Of all, 01 and 23 make 4 + 7, and 012 alone 10,
    // which is the least: 14 + 10.
    let (x, y, w) = ([0, 4, 7, 11], [0; 4], [0, 0, 0, 3]);
    let found = delayed_searched(&x, &y, &w, 25).unwrap();
    let table = [0, 0, 0, 4, 0, 7, 3, 10, 0, 14, 10, 18, 7, 21, 13, 24];
    assert_eq!(found.table, table);
    // 012 is parted into 0 and 12. Total: 3 + 7 + 14 + 14 - 6.
    assert_eq!(found.pairs, [1, 2, 0, 4, 5, 3]);
    assert_eq!(found.total, 32);
    // Nodes: 4 to 7 with d = 3, 0 to 7 with d = 7, 0 to 14 with d = 14.
    assert_eq!(found.u, [0, 8, 14, 22, 11, 7, 14]);
    assert_eq!(found.v, found.u);
    assert_eq!(found.wires, [7, 3, 3, 8, 4, 7, 0]);
    // Without the delay two and two are joined, for 30.
    assert_eq!(searched(&x, &y, 25).unwrap().pairs, [0, 1, 2, 3, 4, 5]);
}

#[test]
fn a_sink_that_holds_all_others() {
    // Sink 1 at 3 reaches from -97 to 103: d = 200 wherever it is. Sinks 0, 2
    // at 0 and 6 make 6. Subsets 3 and 6 have 200, 5 has 6; 7 has 200 + 6, by
    // its split into 02 and 1, which comes last.
    let (x, y, w) = ([0, 3, 6], [0; 3], [0, 100, 0]);
    let found = delayed_searched(&x, &y, &w, 6).unwrap();
    assert_eq!(found.table, [0, 0, 0, 200, 0, 6, 200, 206]);
    // The root stands on sink 1, whose wire is 200 - 200. Total: 6 + 200 + 200
    // - 200. The join at 6 has 200 - 6 for no distance at all.
    assert_eq!((found.pairs, found.total), (vec![0, 2, 3, 1], 206));
    assert_eq!(found.u, [0, 6, 12, 6, 6]);
    assert_eq!(found.wires, [6, 0, 6, 194, 0]);
}

#[test]
fn equal_delays_raise_each_join_by_the_same() {
    let mut random = Random::new(406);
    for n in 1..=7 {
        for spread in SinkKind::GOOD {
            let (x, y) = sinks(&mut random, spread, n);
            let w = delays(&mut random, DelayKind::Equal, &x, &y);
            let budget = budget(&mut random, n);
            let plain = searched(&x, &y, budget).unwrap();
            let delayed = delayed_searched(&x, &y, &w, budget).unwrap();
            for (subset, &entry) in plain.table.iter().enumerate() {
                let joins = slow::size(subset as u32).saturating_sub(1);
                let raised = match entry {
                    u32::MAX => u32::MAX,
                    _ => entry + joins * 2 * w[0],
                };
                assert_eq!(delayed.table[subset], raised);
            }
            let table = plain.table.clone();
            assert_eq!(Answer { table, ..delayed }, plain);
        }
    }
}

/// The last two values of a tree file of `n` sinks, as numbers of 32 bits.
fn places_and_wires(file: &[u8], n: usize) -> (Vec<i32>, Vec<u32>) {
    let start = Kind::Joined.file_length(n) + 3;
    let places = &file[start..start + 8 * (2 * n - 1)];
    let wires = &file[start + places.len() + 3..];
    let bytes = |b: &[u8]| [b[0], b[1], b[2], b[3]];
    (
        places
            .chunks_exact(4)
            .map(|b| i32::from_be_bytes(bytes(b)))
            .collect(),
        wires
            .chunks_exact(4)
            .map(|b| u32::from_be_bytes(bytes(b)))
            .collect(),
    )
}

#[test]
fn zero_delays_give_the_trees_of_files_which_have_none() {
    let mut random = Random::new(407);
    for n in (1..30).chain([512]) {
        for spread in SinkKind::GOOD {
            let (x, y) = sinks(&mut random, spread, n);
            let joins = good_joins(&mut random, n);
            let answer = delayed_treed(&x, &y, &zeros(&x), &joins).unwrap();
            let mut file = vec![0; Kind::Tree.file_length(n)];
            write_tree(&x, &y, &joins, &mut file).unwrap();
            let (places, wires) = places_and_wires(&file, n);
            let both = answer.u.iter().zip(&answer.v);
            let expected: Vec<i32> = both.flat_map(|(&u, &v)| [u, v]).collect();
            assert_eq!(places, expected);
            assert_eq!(wires, answer.wires);
        }
    }
}

#[test]
fn zero_delays_give_the_trees_of_the_program_which_takes_none() {
    let mut random = Random::new(408);
    for n in (1..11).chain([13, 40]) {
        for spread in SinkKind::GOOD {
            let (x, y) = sinks(&mut random, spread, n);
            let answer = match n {
                0..=12 => delayed_searched(&x, &y, &zeros(&x), u64::MAX).unwrap(),
                _ => built((&x, &y, &zeros(&x))),
            };
            let mut file = vec![0; Kind::Sinks.file_length(n)];
            write_sinks(&x, &y, &mut file).unwrap();
            let text = tree_lines(&file);
            let lines: Vec<&str> = text.lines().collect();
            let first = format!("sinks {n} wire {} ", answer.total);
            assert!(lines[0].starts_with(&first), "{}", lines[0]);
            assert_eq!(lines.len(), 2 + answer.wires.len());
            for (node, line) in lines[2..].iter().enumerate() {
                let (u, v, wire) = (answer.u[node], answer.v[node], answer.wires[node]);
                assert!(line.starts_with(&format!("{node} {u} {v} {wire} ")));
            }
        }
    }
}

/// Lists of x, y and delays, and the refusal to come.
type Refused<'a> = (&'a [i32], &'a [i32], Vec<u32>, Refusal);

#[test]
fn search_refusals_leave_every_buffer() {
    let (x, y) = ([0, 4, 7], [0, 0, 1]);
    let far = [0, 0, -1_000_001];
    let mut cases: Vec<Refused> = vec![
        (&x, &y, vec![], Refusal::ListsDiffer),
        (&x, &y, vec![0; 2], Refusal::ListsDiffer),
        (&x, &y, vec![u32::MAX; 4], Refusal::ListsDiffer),
        (&x, &y[..2], vec![0; 3], Refusal::ListsDiffer),
        (&[], &[], vec![0], Refusal::ListsDiffer),
        (&[], &[], vec![], Refusal::NoSink),
        (&[8; 13], &[8; 13], vec![0; 12], Refusal::ListsDiffer),
        (
            &[8; 13],
            &[8; 13],
            vec![1_000_001; 13],
            Refusal::TooManySinks,
        ),
    ];
    for long in LONG_DELAYS {
        cases.push((&far, &y, vec![long, 0, 0], Refusal::OutOfRange(2)));
        cases.push((&far, &y, vec![0, 0, long], Refusal::OutOfRange(2)));
        cases.push((&x, &y, vec![0, long, long], Refusal::DelayOutOfRange(1)));
        cases.push((&x, &y, vec![long, 0, 0], Refusal::DelayOutOfRange(0)));
    }
    cases.push((&x, &y, vec![1_000_000; 3], Refusal::ShortBuffer));
    for (x, y, delays, refusal) in cases {
        let mut answer = Answer::with_room(0, 0);
        let before = answer.clone();
        assert_eq!(answer.search(x, y, &delays, 9), Err(refusal));
        assert_eq!(answer, before);
        if refusal != Refusal::ShortBuffer {
            let mut answer = Answer::with_room(13, 2);
            let before = answer.clone();
            assert_eq!(answer.search(x, y, &delays, u64::MAX), Err(refusal));
            assert_eq!(answer, before);
        }
    }
}

#[test]
fn twelve_sinks_with_the_greatest_delays_in_the_corners() {
    // Eleven joins of at most 6,000,000: sums stay far from 32 bits.
    let x: Vec<i32> = (0..12).map(|i| [1_000_000, -1_000_000][i % 2]).collect();
    let found = delayed_searched(&x, &x, &[1_000_000; 12], u64::MAX).unwrap();
    // Each corner has six sinks and five joins of 2,000,000, then one join of
    // 4,000,000 + 2,000,000 more: 20,000,000 + 6,000,000.
    assert_eq!(found.table[4095], 26_000_000);
    // And 6,000,000 once more, minus 24,000,000.
    assert_eq!(found.total, 8_000_000);
    assert_eq!(found.total, treed(&x, &x, &found.pairs).unwrap().total);
}
