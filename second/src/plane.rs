//! Sinks, the checks on them, and their boxes in tilted coordinates.

use crate::refusal::Refusal;

/// Greatest absolute value of a grid coordinate.
pub const REACH: i32 = 1_000_000;
/// Greatest delay of a sink, in grid units.
pub const MOST_DELAY: u32 = 1_000_000;
/// Most sinks of a tree.
pub const MOST_SINKS: usize = 512;
/// Most sinks of the exact search.
pub const MOST_SEARCHED: usize = 12;

/// A coordinate in grid units.
#[derive(Clone, Copy, Debug, PartialEq, Eq, PartialOrd, Ord)]
pub struct Grid(pub i32);

/// A tilted coordinate, u = x + y or v = x - y. Those of sinks stay within
/// ±3,000,000, their delays included; a box that a caller keeps may hold any
/// numbers, and 32 bits do not hold all of those.
#[derive(Clone, Copy, Debug, PartialEq, Eq, PartialOrd, Ord)]
pub struct Tilted(pub i64);

/// A doubled tilted coordinate, U = 2u or V = 2v.
#[derive(Clone, Copy, Debug, PartialEq, Eq, PartialOrd, Ord)]
pub struct Doubled(pub i32);

/// The tilted coordinates u and v of a sink within its range.
pub fn tilt(x: Grid, y: Grid) -> (Tilted, Tilted) {
    let (x, y) = (i64::from(x.0), i64::from(y.0));
    (Tilted(x + y), Tilted(x - y))
}

/// Whether both coordinates lie within their range.
fn in_range(x: i32, y: i32) -> bool {
    (-REACH..=REACH).contains(&x) && (-REACH..=REACH).contains(&y)
}

/// Refusals 1 to 4, then 15, with at most `limit` sinks: every place is
/// looked at before any delay.
pub fn check_sinks(x: &[i32], y: &[i32], delays: &[u32], limit: usize) -> Result<(), Refusal> {
    if x.len() != delays.len() {
        return Err(Refusal::ListsDiffer);
    }
    check_places(x, y, limit)?;
    match delays.iter().position(|&delay| delay > MOST_DELAY) {
        Some(sink) => Err(Refusal::DelayOutOfRange(sink)),
        None => Ok(()),
    }
}

/// Refusals 1 to 4 in order, for sinks that come without delays, with at most
/// `limit` of them. Equal places are as good as any: a sink is a pin, and a
/// place may hold several.
pub fn check_places(x: &[i32], y: &[i32], limit: usize) -> Result<(), Refusal> {
    if x.len() != y.len() {
        return Err(Refusal::ListsDiffer);
    }
    if x.is_empty() {
        return Err(Refusal::NoSink);
    }
    if x.len() > limit {
        return Err(Refusal::TooManySinks);
    }
    match (0..x.len()).find(|&i| !in_range(x[i], y[i])) {
        Some(sink) => Err(Refusal::OutOfRange(sink)),
        None => Ok(()),
    }
}

/// The delays of `n` sinks that come without any: each is 0.
pub(crate) fn no_delays(n: usize) -> Vec<u32> {
    vec![0; n]
}

/// The least and greatest tilted coordinates of a set of sinks, each sink
/// reaching as far as its delay to every side.
#[derive(Clone, Copy, Debug, PartialEq, Eq)]
pub struct TiltedBox {
    /// Least u.
    pub least_u: Tilted,
    /// Greatest u.
    pub greatest_u: Tilted,
    /// Least v.
    pub least_v: Tilted,
    /// Greatest v.
    pub greatest_v: Tilted,
}

impl TiltedBox {
    /// The box of one sink within its range, with a delay within its own: its
    /// diameter is twice the delay.
    pub(crate) fn of_sink(x: Grid, y: Grid, delay: u32) -> TiltedBox {
        let (u, v) = tilt(x, y);
        // At most 2,000,000 and 1,000,000: no end leaves ±3,000,000.
        let reach = i64::from(delay);
        TiltedBox {
            least_u: Tilted(u.0 - reach),
            greatest_u: Tilted(u.0 + reach),
            least_v: Tilted(v.0 - reach),
            greatest_v: Tilted(v.0 + reach),
        }
    }

    /// The box of the union of the two sets. The plain least and greatest
    /// are taken, so that a held box may hold any numbers at all.
    pub fn hull(self, other: TiltedBox) -> TiltedBox {
        TiltedBox {
            least_u: self.least_u.min(other.least_u),
            greatest_u: self.greatest_u.max(other.greatest_u),
            least_v: self.least_v.min(other.least_v),
            greatest_v: self.greatest_v.max(other.greatest_v),
        }
    }

    /// The larger of the two widths. A box that never came from sinks may
    /// have a least end above its greatest: a width is how far they are apart.
    pub fn diameter(self) -> i64 {
        let width = |least: Tilted, greatest: Tilted| (greatest.0 - least.0).abs();
        width(self.least_u, self.greatest_u).max(width(self.least_v, self.greatest_v))
    }

    /// Widens the held box by one more sink; a sink outside its range is
    /// refused with 4, then one with such a delay with 15, and leaves the box
    /// as it is.
    pub fn widen(&mut self, x: i32, y: i32, delay: u32) -> Result<(), Refusal> {
        if !in_range(x, y) {
            return Err(Refusal::OutOfRange(0));
        }
        if delay > MOST_DELAY {
            return Err(Refusal::DelayOutOfRange(0));
        }
        *self = self.hull(TiltedBox::of_sink(Grid(x), Grid(y), delay));
        Ok(())
    }
}

/// The boxes of the single sinks, which must have been checked.
pub(crate) fn sink_boxes(x: &[i32], y: &[i32], delays: &[u32]) -> Vec<TiltedBox> {
    x.iter()
        .zip(y)
        .zip(delays)
        .map(|((&x, &y), &delay)| TiltedBox::of_sink(Grid(x), Grid(y), delay))
        .collect()
}

/// The box of all sinks, with refusals 1 to 4, then 15, as building has them.
pub fn box_of_sinks(x: &[i32], y: &[i32], delays: &[u32]) -> Result<TiltedBox, Refusal> {
    check_sinks(x, y, delays, MOST_SINKS)?;
    let boxes = sink_boxes(x, y, delays);
    let first = boxes[0];
    Ok(boxes.into_iter().fold(first, TiltedBox::hull))
}

/// What is greatest of the Manhattan distances of two sinks plus both delays
/// and of the double delays of one, by their box (000, Lemma 1).
pub fn diameter_of_sinks(x: &[i32], y: &[i32], delays: &[u32]) -> Result<u32, Refusal> {
    // Boxes of checked sinks stay within ±3,000,000, so at most 6,000,000
    // comes out.
    box_of_sinks(x, y, delays).map(|all| all.diameter() as u32)
}

#[cfg(test)]
mod tests {
    use super::*;
    use crate::generate::{delays, sinks, DelayKind, Random, SinkKind, LONG_DELAYS};

    /// The refusal of sinks without delay.
    fn refusal(x: &[i32], y: &[i32]) -> Refusal {
        let refusal = check_places(x, y, MOST_SINKS).unwrap_err();
        let zeros = no_delays(x.len());
        assert_eq!(check_sinks(x, y, &zeros, MOST_SINKS), Err(refusal));
        refusal
    }

    #[test]
    fn refusals_one_to_four_come_in_order() {
        assert_eq!(refusal(&[], &[1]), Refusal::ListsDiffer);
        assert_eq!(refusal(&[2_000_000], &[]), Refusal::ListsDiffer);
        assert_eq!(refusal(&[], &[]), Refusal::NoSink);
        let many = vec![2_000_000; 513];
        assert_eq!(refusal(&many, &many), Refusal::TooManySinks);
        assert_eq!(refusal(&[0, 0, 0], &[0, 0, 1_000_001]).place(), Some(2));
        assert_eq!(refusal(&[i32::MIN, 0], &[0, 0]), Refusal::OutOfRange(0));
        let pair = [2_000_000, 2_000_000];
        assert_eq!(refusal(&pair, &pair), Refusal::OutOfRange(0));
    }

    #[test]
    fn the_list_of_delays_has_the_length_of_the_others() {
        let differ = |x: &[i32], y: &[i32], delays: &[u32]| {
            check_sinks(x, y, delays, MOST_SINKS) == Err(Refusal::ListsDiffer)
        };
        assert!(differ(&[0, 4], &[0, 0], &[]));
        assert!(differ(&[0, 4], &[0, 0], &[0]));
        assert!(differ(&[0, 4], &[0, 0], &[0, 0, 0]));
        // As long as one of two unlike lists is not enough.
        assert!(differ(&[0, 4], &[0], &[0, 0]));
        assert!(differ(&[0, 4], &[0], &[0]));
        // Before 2, before 3, before 4 and before 15.
        assert!(differ(&[], &[], &[0]));
        assert!(differ(&[0; 513], &[0; 513], &[0; 512]));
        assert!(differ(&[0; 512], &[0; 512], &[0; 513]));
        assert!(differ(&[2_000_000], &[0], &[0, 0]));
        assert!(differ(&[0], &[0], &[u32::MAX, 0]));
    }

    #[test]
    fn delays_are_looked_at_after_all_places() {
        let refused = |x: &[i32], delays: &[u32]| {
            let y = vec![0; x.len()];
            check_sinks(x, &y, delays, MOST_SINKS).unwrap_err()
        };
        for long in LONG_DELAYS {
            assert_eq!(refused(&[5], &[long]), Refusal::DelayOutOfRange(0));
            let two = [0, long, 1_000_000, long];
            assert_eq!(refused(&[5; 4], &two), Refusal::DelayOutOfRange(1));
            // A place outside comes first: at the same, a later, an earlier sink.
            let far = 1_000_001;
            assert_eq!(refused(&[0, far], &[0, long]), Refusal::OutOfRange(1));
            assert_eq!(refused(&[0, far], &[long, 0]), Refusal::OutOfRange(1));
            assert_eq!(refused(&[far, 0], &[0, long]), Refusal::OutOfRange(0));
            let many = refused(&[0; 513], &[long; 513]);
            assert_eq!(many, Refusal::TooManySinks);
        }
        let most = [MOST_DELAY; 3];
        assert_eq!(check_sinks(&[0; 3], &[0; 3], &most, MOST_SINKS), Ok(()));
    }

    #[test]
    fn a_place_may_hold_several_pins() {
        let (x, y) = ([5, 0, 0, 5], [1, 0, 0, 1]);
        assert_eq!(check_places(&x, &y, MOST_SEARCHED), Ok(()));
        assert_eq!(diameter_of_sinks(&x, &y, &[0; 4]), Ok(6));
        assert_eq!(diameter_of_sinks(&x[1..3], &y[1..3], &[0; 2]), Ok(0));
        let most = vec![-REACH; 513];
        let zeros = no_delays(512);
        let all = diameter_of_sinks(&most[..512], &most[..512], &zeros);
        assert_eq!(all, Ok(0));
        assert_eq!(refusal(&most, &most), Refusal::TooManySinks);
    }

    #[test]
    fn limits_are_512_and_12() {
        let x: Vec<i32> = (0..513).collect();
        let y = vec![0; 513];
        let w = no_delays(513);
        let check = |n: usize, limit| check_sinks(&x[..n], &y[..n], &w[..n], limit);
        assert_eq!(check(512, MOST_SINKS), Ok(()));
        assert!(check(513, MOST_SINKS).is_err());
        assert_eq!(check(12, MOST_SEARCHED), Ok(()));
        assert!(check(13, MOST_SEARCHED).is_err());
    }

    /// Least u, greatest u, least v, greatest v.
    fn ends(held: TiltedBox) -> [i64; 4] {
        [held.least_u, held.greatest_u, held.least_v, held.greatest_v].map(|end| end.0)
    }

    #[test]
    fn boxes_reach_as_far_as_the_delays() {
        // u = -2, v = 8, and 4 to every side.
        let lone = box_of_sinks(&[3], &[-5], &[4]).unwrap();
        assert_eq!((ends(lone), lone.diameter()), ([-6, 2, 4, 12], 8));
        // -3 to 3 and 9 to 11 on both axes: 10 apart, plus 3 and 1.
        let two = box_of_sinks(&[0, 10], &[0, 0], &[3, 1]).unwrap();
        assert_eq!((ends(two), two.diameter()), ([-3, 11, -3, 11], 14));
        // 3 lies well within -10 to 10, so the one delay alone sets it.
        let held = box_of_sinks(&[0, 3], &[0, 0], &[10, 0]).unwrap();
        assert_eq!((ends(held), held.diameter()), ([-10, 10, -10, 10], 20));
        // 3 + 7 reaches the same end just so, and 3 + 8 is one beyond it.
        let just = box_of_sinks(&[0, 3], &[0, 0], &[10, 7]).unwrap();
        assert_eq!(just, held);
        let beyond = box_of_sinks(&[0, 3], &[0, 0], &[10, 8]).unwrap();
        assert_eq!((ends(beyond), beyond.diameter()), ([-10, 11, -10, 11], 21));
    }

    #[test]
    fn the_widest_box_has_a_diameter_of_six_million() {
        let (x, y) = ([REACH, -REACH], [REACH, -REACH]);
        let most = [MOST_DELAY; 2];
        let wide = box_of_sinks(&x, &y, &most).unwrap();
        let ends_wanted = [-3_000_000, 3_000_000, -1_000_000, 1_000_000];
        assert_eq!(ends(wide), ends_wanted);
        assert_eq!(diameter_of_sinks(&x, &y, &most), Ok(6_000_000));
    }

    #[test]
    fn diameter_is_the_greatest_manhattan_distance() {
        let mut random = Random::new(11);
        for (n, kind) in (1..80).zip(SinkKind::GOOD.into_iter().cycle()) {
            let (x, y) = sinks(&mut random, kind, n);
            let mut greatest = 0;
            for i in 0..n {
                for j in 0..n {
                    greatest = greatest.max(x[i].abs_diff(x[j]) + y[i].abs_diff(y[j]));
                }
            }
            assert_eq!(diameter_of_sinks(&x, &y, &no_delays(n)), Ok(greatest));
        }
    }

    #[test]
    fn diameter_counts_both_delays_or_one_of_them_twice() {
        let mut random = Random::new(13);
        for (n, kind) in (1..80).zip(SinkKind::GOOD.into_iter().cycle()) {
            let (x, y) = sinks(&mut random, kind, n);
            for kind in DelayKind::GOOD {
                let w = delays(&mut random, kind, &x, &y);
                let mut greatest = 0;
                for i in 0..n {
                    greatest = greatest.max(2 * w[i]);
                    for j in 0..i {
                        let apart = x[i].abs_diff(x[j]) + y[i].abs_diff(y[j]);
                        greatest = greatest.max(apart + w[i] + w[j]);
                    }
                }
                assert_eq!(diameter_of_sinks(&x, &y, &w), Ok(greatest));
            }
        }
    }

    #[test]
    fn widening_one_by_one_gives_the_box_of_all() {
        let mut random = Random::new(12);
        let (x, y) = sinks(&mut random, SinkKind::Clustered, 60);
        for kind in DelayKind::GOOD {
            let w = delays(&mut random, kind, &x, &y);
            let mut held = TiltedBox::of_sink(Grid(x[0]), Grid(y[0]), w[0]);
            for i in 1..60 {
                held.widen(x[i], y[i], w[i]).unwrap();
            }
            assert_eq!(box_of_sinks(&x, &y, &w), Ok(held));
        }
    }

    #[test]
    fn a_refused_sink_leaves_any_held_box() {
        let odd = TiltedBox {
            least_u: Tilted(4_230_967_295),
            greatest_u: Tilted(-64_000_000),
            least_v: Tilted(7),
            greatest_v: Tilted(-7),
        };
        let mut held = odd;
        assert_eq!(held.widen(0, 1_000_001, 0), Err(Refusal::OutOfRange(0)));
        assert_eq!(held.widen(i32::MIN, 0, 0), Err(Refusal::OutOfRange(0)));
        for long in LONG_DELAYS {
            assert_eq!(held.widen(0, 0, long), Err(Refusal::DelayOutOfRange(0)));
            // The place comes before the delay.
            assert_eq!(held.widen(0, -1_000_001, long), Err(Refusal::OutOfRange(0)));
        }
        assert_eq!(held, odd);
        held.widen(3, -5, 0).unwrap();
        assert_eq!(ends(held), [-2, -2, 7, 8]);
    }

    #[test]
    fn crossed_ends_are_as_far_apart_as_others() {
        let held = |u: (i64, i64), v: (i64, i64)| TiltedBox {
            least_u: Tilted(u.0),
            greatest_u: Tilted(u.1),
            least_v: Tilted(v.0),
            greatest_v: Tilted(v.1),
        };
        assert_eq!(held((7, -7), (0, 13)).diameter(), 14);
        assert_eq!(held((7, -7), (15, 0)).diameter(), 15);
        let most = held((4_230_967_295, -64_000_000), (3, 2));
        assert_eq!(most.diameter(), 4_294_967_295);
    }

    #[test]
    fn a_held_box_is_widened_by_both_ends_of_a_delayed_sink() {
        let mut held = box_of_sinks(&[0, 10], &[0, 0], &[3, 1]).unwrap();
        // u = v = 5, from 1 to 9: it is all within -3 to 11.
        held.widen(5, 0, 4).unwrap();
        assert_eq!(ends(held), [-3, 11, -3, 11]);
        // u = 5 and v = 1, and 7 to every side: -2 to 12, and -6 to 8.
        held.widen(3, 2, 7).unwrap();
        assert_eq!(ends(held), [-3, 12, -6, 11]);
        held.widen(0, 0, MOST_DELAY).unwrap();
        let most = [-1_000_000, 1_000_000, -1_000_000, 1_000_000];
        assert_eq!(ends(held), most);
    }
}
