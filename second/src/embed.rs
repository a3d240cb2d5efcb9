//! Embedding of a joining order: a place and a wire for every node.

use crate::joins;
use crate::plane::{self, TiltedBox};
use crate::refusal::Refusal;
use crate::segment::{Place, Segment};

/// The buffers lent for the places and wires of a tree, each to be filled
/// with 2n-1 entries from the front.
pub struct Lent<'a> {
    /// Doubled u of each node.
    pub u: &'a mut [i32],
    /// Doubled v of each node.
    pub v: &'a mut [i32],
    /// Wire to the parent of each node; the root's is 0.
    pub wires: &'a mut [u32],
}

impl Lent<'_> {
    /// Refusal 7 unless the nodes of `n` sinks fit.
    pub(crate) fn check(&self, n: usize) -> Result<(), Refusal> {
        let nodes = 2 * n - 1;
        let shortest = self.u.len().min(self.v.len()).min(self.wires.len());
        if shortest < nodes {
            return Err(Refusal::ShortBuffer);
        }
        Ok(())
    }
}

/// A tree worked out away from any lent buffer, so that a refusal found
/// late cannot have changed one.
pub(crate) struct Embedding {
    pub places: Vec<Place>,
    pub wires: Vec<u32>,
    pub total: u32,
}

impl Embedding {
    /// Fills checked buffers from the front and gives the total.
    pub fn hand_out(&self, lent: Lent<'_>) -> u32 {
        for (node, place) in self.places.iter().enumerate() {
            lent.u[node] = place.u.0;
            lent.v[node] = place.v.0;
        }
        lent.wires[..self.wires.len()].copy_from_slice(&self.wires);
        self.total
    }
}

/// Embeds the joining order into the lent buffers and gives the total in
/// half units, with refusals 1 to 4, 15, 6 and 7 in order.
pub fn embed(
    x: &[i32],
    y: &[i32],
    delays: &[u32],
    joins: &[u16],
    lent: Lent<'_>,
) -> Result<u32, Refusal> {
    plane::check_sinks(x, y, delays, plane::MOST_SINKS)?;
    joins::check(x.len(), joins)?;
    lent.check(x.len())?;
    Ok(work_out(x, y, delays, joins).hand_out(lent))
}

/// The embedding of checked sinks and joins.
pub(crate) fn work_out(x: &[i32], y: &[i32], delays: &[u32], joins: &[u16]) -> Embedding {
    let boxes = node_boxes(x, y, delays, joins);
    let parents = joins::parents(x.len(), joins);
    Embedding {
        places: node_places(&boxes, &parents),
        wires: node_wires(&boxes, &parents),
        total: total(&boxes, delays),
    }
}

/// The box of every node, sinks first; a join's children come before it.
fn node_boxes(x: &[i32], y: &[i32], delays: &[u32], joins: &[u16]) -> Vec<TiltedBox> {
    let mut boxes = plane::sink_boxes(x, y, delays);
    for pair in joins.chunks_exact(2) {
        let (a, b) = (boxes[usize::from(pair[0])], boxes[usize::from(pair[1])]);
        boxes.push(a.hull(b));
    }
    boxes
}

/// Places from the root down: parents have higher numbers, so the nodes are
/// taken in falling order.
fn node_places(boxes: &[TiltedBox], parents: &[Option<usize>]) -> Vec<Place> {
    let root = boxes.len() - 1;
    let start = Segment::of_box(boxes[root]).root_place();
    let mut places = vec![start; boxes.len()];
    for node in (0..root).rev() {
        if let Some(parent) = parents[node] {
            places[node] = Segment::of_box(boxes[node]).nearest(places[parent]);
        }
    }
    places
}

/// Wires by diameters, never by distance: the surplus is snaked.
fn node_wires(boxes: &[TiltedBox], parents: &[Option<usize>]) -> Vec<u32> {
    let wire = |(node, parent): (usize, &Option<usize>)| match *parent {
        Some(parent) => (boxes[parent].diameter() - boxes[node].diameter()) as u32,
        None => 0,
    };
    parents.iter().enumerate().map(wire).collect()
}

/// The sum of the joins' diameters, plus the root's once more, minus twice
/// the sum of the delays. A tree of one sink has no join, and its root's
/// diameter is just twice its delay.
fn total(boxes: &[TiltedBox], delays: &[u32]) -> u32 {
    let joins = &boxes[delays.len()..];
    let sum: i64 = joins.iter().map(|b| b.diameter()).sum();
    let root = boxes[boxes.len() - 1].diameter();
    let waits: i64 = delays.iter().map(|&delay| i64::from(delay)).sum();
    // 512 diameters of at most 6,000,000 stay within 3,072,000,000; and no
    // more is taken off than is there, since the total is a sum of wires.
    (sum + root - 2 * waits) as u32
}

#[cfg(test)]
mod tests {
    use super::*;
    use crate::generate::{delays, good_joins, sinks, DelayKind, Random, SinkKind};
    use crate::plane::no_delays;

    /// Sinks without delay, embedded as `run_delayed` does.
    fn run(x: &[i32], y: &[i32], joins: &[u16], lengths: [usize; 3]) -> Outcome {
        run_delayed(x, y, &no_delays(x.len()), joins, lengths)
    }

    /// Runs an embedding with buffers of the given lengths full of sevens.
    fn run_delayed(
        x: &[i32],
        y: &[i32],
        delays: &[u32],
        joins: &[u16],
        lengths: [usize; 3],
    ) -> Outcome {
        let mut u = vec![7; lengths[0]];
        let mut v = vec![7; lengths[1]];
        let mut wires = vec![7; lengths[2]];
        let lent = Lent {
            u: &mut u,
            v: &mut v,
            wires: &mut wires,
        };
        let answer = embed(x, y, delays, joins, lent);
        Outcome {
            answer,
            u,
            v,
            wires,
        }
    }

    struct Outcome {
        answer: Result<u32, Refusal>,
        u: Vec<i32>,
        v: Vec<i32>,
        wires: Vec<u32>,
    }

    /// Sinks, joins, length of every buffer, and the refusal to come.
    type Refused<'a> = (&'a [i32], &'a [i32], &'a [u16], usize, Refusal);

    /// The list of x, delays, joins, and the refusal to come.
    type Delayed<'a> = (&'a [i32], &'a [u32], &'a [u16], Refusal);

    fn is_untouched(outcome: &Outcome) -> bool {
        outcome.u.iter().all(|&e| e == 7)
            && outcome.v.iter().all(|&e| e == 7)
            && outcome.wires.iter().all(|&e| e == 7)
    }

    #[test]
    fn refusals_come_in_order_and_leave_the_buffers() {
        let (x, y, good) = ([0, 4, 7], [0, 0, 0], [0, 1, 3, 2]);
        let cases: [Refused; 7] = [
            (&x, &y[..2], &[], 0, Refusal::ListsDiffer),
            (&[], &[], &[1], 0, Refusal::NoSink),
            (&[9; 513], &[9; 513], &[], 0, Refusal::TooManySinks),
            (
                &[0, 0, 9],
                &[0, 0, 2_000_000],
                &[],
                0,
                Refusal::OutOfRange(2),
            ),
            (&[0, 4, 0], &y, &[], 0, Refusal::WrongJoins(0)),
            (&x, &y, &[0, 1, 3, 3], 0, Refusal::WrongJoins(1)),
            (&x, &y, &good, 4, Refusal::ShortBuffer),
        ];
        for (x, y, joins, length, refusal) in cases {
            // With entries to spare too, so that there is something to leave.
            let more = if refusal == Refusal::ShortBuffer {
                length
            } else {
                9
            };
            for length in [length, more] {
                let outcome = run(x, y, joins, [length; 3]);
                assert_eq!(outcome.answer, Err(refusal));
                assert!(is_untouched(&outcome));
            }
        }
        for short in 0..3 {
            let mut lengths = [5; 3];
            lengths[short] = 4;
            let outcome = run(&x, &y, &good, lengths);
            assert_eq!(outcome.answer, Err(Refusal::ShortBuffer));
            assert!(is_untouched(&outcome));
        }
    }

    #[test]
    fn a_delay_outside_its_range_comes_after_places_and_before_joins() {
        let (x, y, good) = ([0, 4, 7], [0, 0, 0], [0, 1, 3, 2]);
        let far = [0, 4, -1_000_001];
        let cases: [Delayed; 7] = [
            (&x, &[0, 0], &good, Refusal::ListsDiffer),
            (&x, &[], &[1], Refusal::ListsDiffer),
            (&x, &[0, 0, u32::MAX, 0], &good, Refusal::ListsDiffer),
            (&far, &[0, 0, 1_000_001], &good, Refusal::OutOfRange(2)),
            (&far, &[1 << 31, 0, 0], &good, Refusal::OutOfRange(2)),
            (
                &x,
                &[0, 1_000_001, u32::MAX],
                &good,
                Refusal::DelayOutOfRange(1),
            ),
            (
                &x,
                &[1_000_001, 0, 0],
                &[0, 0, 9],
                Refusal::DelayOutOfRange(0),
            ),
        ];
        for (x, delays, joins, refusal) in cases {
            for length in [0, 5, 9] {
                let outcome = run_delayed(x, &y, delays, joins, [length; 3]);
                assert_eq!(outcome.answer, Err(refusal));
                assert!(is_untouched(&outcome));
            }
        }
        // With good delays the joins are next, then the buffers.
        let most = [1_000_000; 3];
        let joins = run_delayed(&x, &y, &most, &[0, 0, 3, 2], [0; 3]);
        assert_eq!(joins.answer, Err(Refusal::WrongJoins(0)));
        let short = run_delayed(&x, &y, &most, &good, [4; 3]);
        assert_eq!(short.answer, Err(Refusal::ShortBuffer));
        assert!(is_untouched(&short));
    }

    #[test]
    fn only_the_front_entries_change() {
        let outcome = run(&[0, 4], &[0, 0], &[0, 1], [3, 4, 6]);
        assert_eq!(outcome.answer, Ok(8));
        assert_eq!(outcome.u, [0, 8, 4]);
        assert_eq!(outcome.v, [0, 8, 4, 7]);
        assert_eq!(outcome.wires, [4, 4, 0, 7, 7, 7]);
    }

    /// Wires no shorter than distances, equal arrival, total the sum of wires.
    fn check_tree(x: &[i32], y: &[i32], delays: &[u32], joins: &[u16]) {
        let tree = work_out(x, y, delays, joins);
        let n = x.len();
        let parents = joins::parents(n, joins);
        let boxes = node_boxes(x, y, delays, joins);
        let height = boxes[2 * n - 2].diameter();
        let mut sum = 0;
        for node in 0..2 * n - 1 {
            sum += tree.wires[node];
            if let Some(parent) = parents[node] {
                let distance = tree.places[node].distance(tree.places[parent]);
                assert!(i64::from(tree.wires[node]) >= distance);
            }
            let segment = Segment::of_box(boxes[node]);
            assert_eq!(segment.nearest(tree.places[node]), tree.places[node]);
        }
        assert_eq!(sum, tree.total);
        for sink in 0..n {
            assert_eq!(tree.places[sink].u.0, 2 * (x[sink] + y[sink]));
            assert_eq!(tree.places[sink].v.0, 2 * (x[sink] - y[sink]));
            let path = path_length(sink, &tree, &parents);
            assert_eq!(path + 2 * i64::from(delays[sink]), height);
        }
    }

    fn path_length(sink: usize, tree: &Embedding, parents: &[Option<usize>]) -> i64 {
        let mut node = sink;
        let mut length = 0;
        while let Some(parent) = parents[node] {
            length += i64::from(tree.wires[node]);
            node = parent;
        }
        length
    }

    #[test]
    fn random_trees_have_zero_skew_and_long_enough_wires() {
        let mut random = Random::new(41);
        for round in 0..150 {
            let n = if round < 3 { 512 } else { 1 + round % 40 };
            for kind in SinkKind::GOOD {
                let (x, y) = sinks(&mut random, kind, n);
                let joins = good_joins(&mut random, n);
                check_tree(&x, &y, &no_delays(n), &joins);
                let kind = DelayKind::GOOD[round % DelayKind::GOOD.len()];
                let waits = delays(&mut random, kind, &x, &y);
                check_tree(&x, &y, &waits, &joins);
            }
        }
    }

    #[test]
    fn the_greatest_total_is_reached_without_overflow() {
        // A first join across the whole range makes every later one as wide.
        let mut x: Vec<i32> = (0..512).collect();
        let mut y = vec![0; 512];
        (x[0], y[0], x[1], y[1]) = (1_000_000, 1_000_000, -1_000_000, -1_000_000);
        let mut joins = vec![0, 1];
        for i in 2..512 {
            joins.extend([i, 510 + i]);
        }
        let outcome = run(&x, &y, &joins, [1023; 3]);
        assert_eq!(outcome.answer, Ok(2_048_000_000));
        // With the greatest delay at all sinks each of 512 diameters is
        // 2,000,000 more, and just so much is taken off again.
        let outcome = run_delayed(&x, &y, &[1_000_000; 512], &joins, [1023; 3]);
        assert_eq!(outcome.answer, Ok(2_048_000_000));
        // With those two delays alone 4,000,000 is taken off 3,072,000,000.
        let mut delays = [0; 512];
        (delays[0], delays[1]) = (1_000_000, 1_000_000);
        let outcome = run_delayed(&x, &y, &delays, &joins, [1023; 3]);
        assert_eq!(outcome.answer, Ok(3_068_000_000));
        // The two sinks in the corners have a wire of 4,000,000 each, the
        // joins have none, and all others have the whole 6,000,000.
        assert_eq!(outcome.wires[..3], [4_000_000, 4_000_000, 6_000_000]);
        assert_eq!(outcome.wires[511..513], [6_000_000, 0]);
    }

    #[test]
    fn one_delayed_sink_stands_on_its_place_without_wire() {
        // d = 2 * 4 = 8, and twice the delay is taken off: 0.
        let outcome = run_delayed(&[3], &[-5], &[4], &[], [1; 3]);
        assert_eq!(outcome.answer, Ok(0));
        assert_eq!((outcome.u[0], outcome.v[0], outcome.wires[0]), (-4, 16, 0));
        let most = run_delayed(&[1_000_000], &[1_000_000], &[1_000_000], &[], [1; 3]);
        assert_eq!(most.answer, Ok(0));
        assert_eq!((most.u[0], most.v[0], most.wires[0]), (4_000_000, 0, 0));
    }

    #[test]
    fn two_delayed_sinks() {
        // The box is -3 to 11, d = 14, the root 2 * 11 - 14 = 8. Wires: 14 - 6
        // and 14 - 2. Total: 14 + 14 - 2 * 4.
        let outcome = run_delayed(&[0, 10], &[0, 0], &[3, 1], &[0, 1], [3; 3]);
        assert_eq!(outcome.answer, Ok(20));
        assert_eq!((outcome.u, outcome.v), (vec![0, 20, 8], vec![0, 20, 8]));
        assert_eq!(outcome.wires, [8, 12, 0]);
    }

    #[test]
    fn a_swallowed_sink_has_all_the_wire() {
        // The box is that of sink 0, -10 to 10, d = 20: the root stands on the
        // sink, which has a wire of 20 - 20, and the other has 20 - 0 for a
        // distance of 6: it snakes 14. Total: 20 + 20 - 2 * 10.
        let outcome = run_delayed(&[0, 3], &[0, 0], &[10, 0], &[0, 1], [3; 3]);
        assert_eq!(outcome.answer, Ok(20));
        assert_eq!((outcome.u, outcome.v), (vec![0, 6, 0], vec![0, 6, 0]));
        assert_eq!(outcome.wires, [0, 20, 0]);
        // With 7 it ends where the box does: 20 - 14 = 6 is just its distance.
        let outcome = run_delayed(&[0, 3], &[0, 0], &[10, 7], &[0, 1], [3; 3]);
        assert_eq!(outcome.answer, Ok(6));
        assert_eq!(outcome.wires, [0, 6, 0]);
        // With 8 the box is -10 to 11, d = 21, the root 2 * 11 - 21 = 1.
        let outcome = run_delayed(&[0, 3], &[0, 0], &[10, 8], &[0, 1], [3; 3]);
        assert_eq!(outcome.answer, Ok(6));
        assert_eq!((outcome.u, outcome.v), (vec![0, 6, 1], vec![0, 6, 1]));
        assert_eq!(outcome.wires, [1, 5, 0]);
    }

    #[test]
    fn a_join_within_a_delayed_sink_is_swallowed_whole() {
        // Sinks 1 and 2 make a join of d = 4 at U = V = 4. Sink 0 reaches from
        // -20 to 20 and holds it: d = 40, the root stands on sink 0. Wires:
        // 40 - 40, 4, 4, and 40 - 4 from the join. Total: 4 + 40 + 40 - 40.
        let (x, delays) = ([0, 0, 4], [20, 0, 0]);
        let outcome = run_delayed(&x, &[0; 3], &delays, &[1, 2, 0, 3], [5; 3]);
        assert_eq!(outcome.answer, Ok(44));
        assert_eq!(outcome.u, [0, 0, 8, 4, 0]);
        assert_eq!(outcome.v, [0, 0, 8, 4, 0]);
        assert_eq!(outcome.wires, [0, 4, 4, 36, 0]);
    }

    #[test]
    fn equal_delays_change_no_tree() {
        let mut random = Random::new(42);
        for round in 0..60 {
            let n = 1 + round % 20;
            for kind in SinkKind::GOOD {
                let (x, y) = sinks(&mut random, kind, n);
                let joins = good_joins(&mut random, n);
                let equal = delays(&mut random, DelayKind::Equal, &x, &y);
                let plain = work_out(&x, &y, &no_delays(n), &joins);
                let delayed = work_out(&x, &y, &equal, &joins);
                assert_eq!(delayed.places, plain.places);
                assert_eq!(delayed.wires, plain.wires);
                assert_eq!(delayed.total, plain.total);
            }
        }
    }
}
