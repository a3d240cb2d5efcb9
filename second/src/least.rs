//! Joining by least diameter.

use crate::embed::{self, Lent};
use crate::plane::{self, TiltedBox};
use crate::refusal::Refusal;

/// Writes the pairs of the joining by least diameter into the lent list and
/// gives their number, n-1. Refusals 1 to 4, 15, then 7.
pub fn join_least(
    x: &[i32],
    y: &[i32],
    delays: &[u32],
    pairs: &mut [u16],
) -> Result<usize, Refusal> {
    check(x, y, delays, pairs)?;
    let joins = least_joins(x, y, delays);
    pairs[..joins.len()].copy_from_slice(&joins);
    Ok(joins.len() / 2)
}

/// Joins by least diameter and embeds the result; gives the total in half
/// units. Refusals 1 to 4, 15, then 7 for any of the buffers.
pub fn build_least(
    x: &[i32],
    y: &[i32],
    delays: &[u32],
    pairs: &mut [u16],
    lent: Lent<'_>,
) -> Result<u32, Refusal> {
    check(x, y, delays, pairs)?;
    lent.check(x.len())?;
    let joins = least_joins(x, y, delays);
    pairs[..joins.len()].copy_from_slice(&joins);
    Ok(embed::work_out(x, y, delays, &joins).hand_out(lent))
}

fn check(x: &[i32], y: &[i32], delays: &[u32], pairs: &[u16]) -> Result<(), Refusal> {
    plane::check_sinks(x, y, delays, plane::MOST_SINKS)?;
    if pairs.len() < 2 * (x.len() - 1) {
        return Err(Refusal::ShortBuffer);
    }
    Ok(())
}

/// The joining order by least diameter of checked sinks. Delays are in the
/// boxes from the start and nowhere else.
pub(crate) fn least_joins(x: &[i32], y: &[i32], delays: &[u32]) -> Vec<u16> {
    let mut forest = Forest::new(plane::sink_boxes(x, y, delays));
    let mut joins = Vec::new();
    while let Some((a, b)) = forest.choose() {
        // At most 1,023 nodes: the numbers fit 16 bits.
        joins.extend([a as u16, b as u16]);
        forest.join(a, b);
    }
    joins
}

/// A partner with a higher number: the diameter of the union, then the
/// partner's number, in the order in which partners are preferred.
type Partner = (i64, usize);

/// The live nodes during the joining, each with its best partner.
struct Forest {
    boxes: Vec<TiltedBox>,
    /// Numbers of the live nodes, rising.
    live: Vec<usize>,
    /// Best partner above each live node; none for the highest live node.
    partners: Vec<Option<Partner>>,
}

impl Forest {
    fn new(boxes: Vec<TiltedBox>) -> Forest {
        let mut forest = Forest {
            live: (0..boxes.len()).collect(),
            partners: vec![None; boxes.len()],
            boxes,
        };
        for node in 0..forest.boxes.len() {
            forest.partners[node] = forest.seek_partner(node);
        }
        forest
    }

    fn union_diameter(&self, a: usize, b: usize) -> i64 {
        self.boxes[a].hull(self.boxes[b]).diameter()
    }

    /// Looks through all live nodes above the given one.
    fn seek_partner(&self, node: usize) -> Option<Partner> {
        let above = self.live.iter().filter(|&&other| other > node);
        above
            .map(|&other| (self.union_diameter(node, other), other))
            .min()
    }

    /// The pair to join next: least diameter, lower first number, lower
    /// second; none when one node is left.
    fn choose(&self) -> Option<(usize, usize)> {
        let best = |&node: &usize| self.partners[node].map(|(d, other)| (d, node, other));
        let chosen = self.live.iter().filter_map(best).min();
        chosen.map(|(_, a, b)| (a, b))
    }

    /// Replaces two live nodes by their join, which gets the highest number.
    fn join(&mut self, a: usize, b: usize) {
        let join = self.boxes.len();
        self.boxes.push(self.boxes[a].hull(self.boxes[b]));
        self.partners.push(None);
        self.live.retain(|&node| node != a && node != b);
        self.live.push(join);
        for at in 0..self.live.len() - 1 {
            let node = self.live[at];
            self.partners[node] = match self.partners[node] {
                Some((_, other)) if other == a || other == b => self.seek_partner(node),
                // Only the new join can have become better than a partner
                // that is still live.
                held => {
                    let fresh = (self.union_diameter(node, join), join);
                    Some(held.map_or(fresh, |partner| partner.min(fresh)))
                }
            };
        }
    }
}

#[cfg(test)]
mod tests {
    use super::*;
    use crate::generate::{delays, sinks, DelayKind, Random, SinkKind};
    use crate::plane::no_delays;

    /// The joining order of sinks without delay.
    fn plain_joins(x: &[i32], y: &[i32]) -> Vec<u16> {
        least_joins(x, y, &no_delays(x.len()))
    }

    /// The document's sentences as they stand: all pairs of live nodes, in
    /// rising order, the first least kept.
    fn naive_joins(x: &[i32], y: &[i32], delays: &[u32]) -> Vec<u16> {
        let mut boxes = plane::sink_boxes(x, y, delays);
        let mut live: Vec<usize> = (0..x.len()).collect();
        let mut joins = Vec::new();
        while live.len() > 1 {
            let mut least = (i64::MAX, 0, 0);
            for (at, &a) in live.iter().enumerate() {
                for &b in &live[at + 1..] {
                    let d = boxes[a].hull(boxes[b]).diameter();
                    if d < least.0 {
                        least = (d, a, b);
                    }
                }
            }
            let (_, a, b) = least;
            joins.extend([a as u16, b as u16]);
            live.retain(|&node| node != a && node != b);
            live.push(boxes.len());
            boxes.push(boxes[a].hull(boxes[b]));
        }
        joins
    }

    fn check_joins(x: &[i32], y: &[i32], delays: &[u32]) {
        let (fast, naive) = (least_joins(x, y, delays), naive_joins(x, y, delays));
        assert_eq!(fast, naive, "{x:?} {y:?} {delays:?}");
    }

    #[test]
    fn fast_and_naive_joining_agree() {
        let mut random = Random::new(51);
        for round in 0..60 {
            for kind in SinkKind::GOOD {
                let (x, y) = sinks(&mut random, kind, 1 + round % 33);
                check_joins(&x, &y, &no_delays(x.len()));
            }
        }
        for kind in SinkKind::GOOD {
            let (x, y) = sinks(&mut random, kind, 150);
            check_joins(&x, &y, &no_delays(150));
        }
    }

    #[test]
    fn fast_and_naive_joining_agree_on_delayed_sinks() {
        let mut random = Random::new(54);
        for round in 0..40 {
            for kind in SinkKind::GOOD {
                let (x, y) = sinks(&mut random, kind, 1 + round % 23);
                for kind in DelayKind::GOOD {
                    let waits = delays(&mut random, kind, &x, &y);
                    check_joins(&x, &y, &waits);
                }
            }
        }
        for kind in DelayKind::GOOD {
            let spread = random.pick(&SinkKind::GOOD);
            let (x, y) = sinks(&mut random, spread, 150);
            let waits = delays(&mut random, kind, &x, &y);
            check_joins(&x, &y, &waits);
        }
    }

    #[test]
    fn fast_and_naive_joining_agree_on_many_hard_sinks() {
        let mut random = Random::new(52);
        for kind in SinkKind::HARD {
            for n in [199, 300] {
                let (x, y) = sinks(&mut random, kind, n);
                check_joins(&x, &y, &no_delays(n));
            }
        }
    }

    #[test]
    fn every_join_in_the_crowd_takes_the_shared_partner_away() {
        let (n, far) = (100, 50);
        let (x, y) = sinks(&mut Random::new(53), SinkKind::SharedPartner, n);
        let mut forest = Forest::new(plane::sink_boxes(&x, &y, &no_delays(n)));
        for _ in 1..n - far {
            let (a, b) = forest.choose().unwrap();
            assert!(a >= far);
            let partner = |node: usize| forest.partners[node].map(|(_, other)| other);
            assert!((0..far).all(|node| partner(node) == Some(a)));
            forest.join(a, b);
        }
    }

    #[test]
    fn pins_on_one_place_are_joined_by_number_alone() {
        assert_eq!(plain_joins(&[8, 8], &[3, 3]), [0, 1]);
        // 0 and 1 make 5, 2 and 3 make 6, 4 and 5 make 7.
        assert_eq!(plain_joins(&[8; 5], &[3; 5]), [0, 1, 2, 3, 4, 5, 6, 7]);
    }

    #[test]
    fn pins_on_one_place_are_joined_before_any_others() {
        let (x, y) = ([0, 10, 0, 10], [0; 4]);
        assert_eq!(plain_joins(&x, &y), [0, 2, 1, 3, 4, 5]);
        // The nearest other place comes after every pin of the same one.
        let (x, y) = ([0, 1, 1, 0, 1], [0; 5]);
        assert_eq!(plain_joins(&x, &y), [0, 3, 1, 2, 4, 6, 5, 7]);
    }

    #[test]
    fn a_delayed_pin_is_joined_later() {
        // Case D, with 3 for pin 1: 0 and 1 make 7, 1 and 2 make 6, 2 and 3
        // make 4. So 2 and 3 are 4, from 7 to 11; 0 and 1 make 7, while 1 with
        // its 1 to 7 makes 10 with node 4, and 0 makes 11.
        let (x, y) = ([0, 4, 7, 11], [0; 4]);
        assert_eq!(least_joins(&x, &y, &[0, 3, 0, 0]), [2, 3, 0, 1, 4, 5]);
        // With 9 it reaches from -5 to 13 and makes 18 with whatever it meets:
        // 2 and 3 first, then 0 to them for 11.
        assert_eq!(least_joins(&x, &y, &[0, 9, 0, 0]), [2, 3, 0, 4, 1, 5]);
    }

    #[test]
    fn ties_made_by_delays_go_to_the_lower_numbers() {
        // Pin 1 reaches from -7 to 13 and makes 20 with 0 as with 2; they make
        // 6 with each other.
        let (x, y) = ([0, 3, 6], [0; 3]);
        assert_eq!(least_joins(&x, &y, &[0, 10, 0]), [0, 2, 1, 3]);
        // From -8 to 8, -7 to 13, -2 to 14: 0 and 2 make 22, but 0 and 1 make
        // 21 as 1 and 2 do.
        assert_eq!(least_joins(&x, &y, &[8, 10, 8]), [0, 1, 2, 3]);
        // On one place only the longer delay counts: 4 for 1 and 3 alone, 10
        // for all that meet 0 or 2.
        let one = [5; 4];
        assert_eq!(least_joins(&one, &one, &[5, 2, 5, 1]), [1, 3, 0, 2, 4, 5]);
    }

    #[test]
    fn equal_delays_keep_the_joining_order() {
        let mut random = Random::new(55);
        for round in 0..40 {
            for kind in SinkKind::GOOD {
                let (x, y) = sinks(&mut random, kind, 1 + round % 25);
                let equal = delays(&mut random, DelayKind::Equal, &x, &y);
                assert_eq!(least_joins(&x, &y, &equal), plain_joins(&x, &y));
            }
        }
    }

    #[test]
    fn ties_on_a_grid_agree_too() {
        // Many equal diameters: only the numbers decide.
        let x: Vec<i32> = (0..100).map(|i| (i * 37) % 10).collect();
        let y: Vec<i32> = (0..100).map(|i| (i * 37) % 100 / 10).collect();
        assert_eq!(plane::check_places(&x, &y, 512), Ok(()));
        check_joins(&x, &y, &no_delays(100));
        let waits: Vec<u32> = (0..100).map(|i| (i * 7) % 4).collect();
        check_joins(&x, &y, &waits);
    }

    #[test]
    fn only_the_pairs_are_written_and_refusals_write_nothing() {
        let (x, y) = ([0, 4, 7, 11], [0; 4]);
        let mut pairs = [99; 8];
        assert_eq!(join_least(&x, &y, &[0; 4], &mut pairs), Ok(3));
        assert_eq!(pairs, [1, 2, 0, 4, 3, 5, 99, 99]);
        let mut short = [99; 5];
        let cases: [(&[u32], Refusal); 4] = [
            (&[0; 3], Refusal::ListsDiffer),
            (&[0, 1_000_001, u32::MAX, 0], Refusal::DelayOutOfRange(1)),
            (&[0; 4], Refusal::ShortBuffer),
            (&[1_000_000; 4], Refusal::ShortBuffer),
        ];
        for (delays, refusal) in cases {
            assert_eq!(join_least(&x, &y, delays, &mut short), Err(refusal));
            assert_eq!(short, [99; 5]);
        }
        assert_eq!(
            join_least(&[0, 0], &[0, 0], &[0, 0], &mut []),
            Err(Refusal::ShortBuffer)
        );
        assert_eq!(join_least(&[5], &[5], &[9], &mut []), Ok(0));
    }

    #[test]
    fn building_checks_every_buffer_before_writing() {
        let (x, y) = ([0, 4, 7, 11], [0; 4]);
        for short in 0..4 {
            let mut lengths = [6, 7, 7, 7];
            lengths[short] -= 1;
            let mut pairs = vec![9; lengths[0]];
            let (mut u, mut v) = (vec![9; lengths[1]], vec![9; lengths[2]]);
            let mut wires = vec![9; lengths[3]];
            let lent = Lent {
                u: &mut u,
                v: &mut v,
                wires: &mut wires,
            };
            let answer = build_least(&x, &y, &[0; 4], &mut pairs, lent);
            assert_eq!(answer, Err(Refusal::ShortBuffer));
            assert!(pairs.iter().all(|&e| e == 9) && wires.iter().all(|&e| e == 9));
            assert!(u.iter().chain(&v).all(|&e| e == 9));
        }
    }

    #[test]
    fn building_gives_the_tree_of_case_d() {
        let mut pairs = [0; 6];
        let (mut u, mut v, mut wires) = ([0; 7], [0; 7], [0; 7]);
        let lent = Lent {
            u: &mut u,
            v: &mut v,
            wires: &mut wires,
        };
        let total = build_least(&[0, 4, 7, 11], &[0; 4], &[0; 4], &mut pairs, lent);
        assert_eq!(total, Ok(32));
        assert_eq!(pairs, [1, 2, 0, 4, 3, 5]);
    }

    #[test]
    fn building_embeds_with_the_delays() {
        // The order (2, 3) (0, 1) (4, 5) of pin 1 delayed by 3, see above.
        // Boxes: 7 to 11 with d = 4, 0 to 7 with d = 7, 0 to 11 with d = 11,
        // and their places are 2 * 11 - 4, 2 * 7 - 7 and 2 * 11 - 11. Wires:
        // 7 - 0, 7 - 6, 4, 4, 11 - 4, 11 - 7. Total: 4 + 7 + 11 + 11 - 6.
        let mut pairs = [0; 6];
        let (mut u, mut v, mut wires) = ([0; 7], [0; 7], [0; 7]);
        let lent = Lent {
            u: &mut u,
            v: &mut v,
            wires: &mut wires,
        };
        let total = build_least(&[0, 4, 7, 11], &[0; 4], &[0, 3, 0, 0], &mut pairs, lent);
        assert_eq!(total, Ok(27));
        assert_eq!(wires, [7, 1, 4, 4, 7, 4, 0]);
        assert_eq!(pairs, [2, 3, 0, 1, 4, 5]);
        assert_eq!(u, [0, 8, 14, 22, 18, 7, 11]);
        assert_eq!(v, u);
    }
}
