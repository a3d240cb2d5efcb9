//! Centre segments and doubled places.

use crate::plane::{Doubled, Tilted, TiltedBox};

/// A place, stored doubled.
#[derive(Clone, Copy, Debug, PartialEq, Eq)]
pub struct Place {
    /// Doubled u.
    pub u: Doubled,
    /// Doubled v.
    pub v: Doubled,
}

impl Place {
    /// Manhattan distance of two places in half units.
    pub fn distance(self, other: Place) -> i64 {
        let apart = |a: Doubled, b: Doubled| (i64::from(a.0) - i64::from(b.0)).abs();
        apart(self.u, other.u).max(apart(self.v, other.v))
    }

    /// Plane position x and y in quarters of a grid unit.
    pub fn quarters(self) -> (i64, i64) {
        let (u, v) = (i64::from(self.u.0), i64::from(self.v.0));
        (u + v, u - v)
    }
}

/// A range of doubled coordinates on one tilted axis.
#[derive(Clone, Copy, Debug, PartialEq, Eq)]
pub struct Range {
    /// Least value.
    pub least: Doubled,
    /// Greatest value.
    pub greatest: Doubled,
}

impl Range {
    /// Centres of the circles of the given diameter that hold the axis from
    /// `least` to `greatest`. The diameter counts half units here, so that
    /// no half is lost.
    fn of_axis(least: Tilted, greatest: Tilted, diameter: i64) -> Range {
        let doubled = |t: Tilted| 2 * t.0;
        // Boxes of checked sinks keep both values within ±12,000,000.
        Range {
            least: Doubled((doubled(greatest) - diameter) as i32),
            greatest: Doubled((doubled(least) + diameter) as i32),
        }
    }

    /// The value of the range nearest to `value`.
    fn nearest(self, value: Doubled) -> Doubled {
        value.max(self.least).min(self.greatest)
    }
}

/// The places where a node may stand: its ranges on both tilted axes.
#[derive(Clone, Copy, Debug, PartialEq, Eq)]
pub struct Segment {
    /// Range of U.
    pub u: Range,
    /// Range of V.
    pub v: Range,
}

impl Segment {
    /// The segment of a node from the box of its sinks. A single sink's is
    /// its own place, whatever its delay.
    pub fn of_box(sinks: TiltedBox) -> Segment {
        let d = sinks.diameter();
        Segment {
            u: Range::of_axis(sinks.least_u, sinks.greatest_u, d),
            v: Range::of_axis(sinks.least_v, sinks.greatest_v, d),
        }
    }

    /// The root's choice: least U, then least V.
    pub fn root_place(self) -> Place {
        Place {
            u: self.u.least,
            v: self.v.least,
        }
    }

    /// Any other node's choice: on each axis the nearest to its parent.
    pub fn nearest(self, parent: Place) -> Place {
        Place {
            u: self.u.nearest(parent.u),
            v: self.v.nearest(parent.v),
        }
    }
}

#[cfg(test)]
mod tests {
    use super::*;
    use crate::generate::{delays, sinks, DelayKind, Random, SinkKind};
    use crate::plane::box_of_sinks;

    #[test]
    fn one_of_the_two_ranges_is_a_single_value() {
        let mut random = Random::new(21);
        for round in 0..200 {
            let (x, y) = sinks(&mut random, SinkKind::Uniform, 1 + round % 9);
            let kind = random.pick(&DelayKind::GOOD);
            let w = delays(&mut random, kind, &x, &y);
            let segment = Segment::of_box(box_of_sinks(&x, &y, &w).unwrap());
            assert!(segment.u.least <= segment.u.greatest);
            assert!(segment.v.least <= segment.v.greatest);
            assert!(segment.u.least == segment.u.greatest || segment.v.least == segment.v.greatest);
        }
    }

    #[test]
    fn quarters_keep_the_half_of_p4() {
        let root = Place {
            u: Doubled(5),
            v: Doubled(-3),
        };
        assert_eq!(root.quarters(), (2, 8));
    }

    #[test]
    fn a_single_sink_stands_on_its_own_place() {
        // u = -2 and v = 8: the ends -6 and 2 give 2 * 2 - 8 and 2 * -6 + 8.
        let segment = Segment::of_box(box_of_sinks(&[3], &[-5], &[4]).unwrap());
        let point = |at| Range {
            least: Doubled(at),
            greatest: Doubled(at),
        };
        assert_eq!((segment.u, segment.v), (point(-4), point(16)));
    }

    #[test]
    fn a_delay_moves_the_segment_away_from_its_sink() {
        // The ends are -3 and 11 on both axes, and d = 14: 2 * 11 - 14 = 8 and
        // 2 * -3 + 14 = 8. Without delays it would be 10.
        let two = box_of_sinks(&[0, 10], &[0, 0], &[3, 1]).unwrap();
        let place = Segment::of_box(two).root_place();
        assert_eq!((place.u, place.v), (Doubled(8), Doubled(8)));
        // (0, 0) reaches from -1 to 1, and (3, 2) with u = 5, v = 1 from 3 to
        // 7 and from -1 to 3. So d = 8, U is 2 * 7 - 8 = 6 = 2 * -1 + 8, and V
        // is anything from 2 * 3 - 8 = -2 to 2 * -1 + 8 = 6.
        let slant = box_of_sinks(&[0, 3], &[0, 2], &[1, 2]).unwrap();
        let segment = Segment::of_box(slant);
        assert_eq!(
            (segment.u.least, segment.u.greatest),
            (Doubled(6), Doubled(6))
        );
        assert_eq!(
            (segment.v.least, segment.v.greatest),
            (Doubled(-2), Doubled(6))
        );
    }
}
