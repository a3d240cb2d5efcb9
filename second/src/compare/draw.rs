//! Sinks, delays and joining orders for the cases, good and bad.

use super::kinds::{self, Kind};
use crate::generate::{
    damaged_joins, delays, good_joins, put_long_delays, put_together, sinks, DelayKind, JoinDamage,
    Random, SinkKind, LONG_DELAYS,
};
use crate::plane::{MOST_DELAY, REACH};
use crate::proved::Answer;

/// Lists of x and y, not always of the same length.
pub type Lists = (Vec<i32>, Vec<i32>);

/// Lists of x, y and delays, not always of the same length.
#[derive(Clone, Debug)]
pub struct Pins {
    /// Grid x.
    pub x: Vec<i32>,
    /// Grid y.
    pub y: Vec<i32>,
    /// Delays.
    pub delays: Vec<u32>,
}

impl Pins {
    fn new((x, y): Lists, delays: Vec<u32>) -> Pins {
        Pins { x, y, delays }
    }

    /// The sinks with delays of the given kind, as many as there are x.
    pub fn of_kind(random: &mut Random, lists: Lists, kind: DelayKind) -> Pins {
        let waits = delays(random, kind, &lists.0, &lists.1);
        Pins::new(lists, waits)
    }

    /// The kinds of a call that was given these and said so.
    pub fn kinds(&self, call: &'static str, answer: Answer) -> Vec<Kind> {
        let Pins { x, y, delays } = self;
        let mut kinds = kinds::of_sinks(call, answer, x, y);
        if answer.is_ok() {
            kinds.extend(kinds::delays(call, x, y, delays));
        }
        kinds
    }

    /// The sinks with good delays, every third time or so with none at all.
    pub fn delayed(random: &mut Random, lists: Lists) -> Pins {
        let any = random.pick(&DelayKind::GOOD);
        let kind = random.pick(&[DelayKind::Zero, any, any, any]);
        Pins::of_kind(random, lists, kind)
    }
}

/// Good sinks of one of the kinds, with good delays.
pub fn good_pins(random: &mut Random, n: usize) -> Pins {
    let lists = good(random, n);
    Pins::delayed(random, lists)
}

/// Good sinks of every kind, with good delays.
pub fn every_good_pins(random: &mut Random, n: usize) -> Vec<Pins> {
    let lists = every_good(random, n);
    lists
        .into_iter()
        .map(|lists| Pins::delayed(random, lists))
        .collect()
}

/// Good sinks with good delays of every kind.
pub fn every_delay(random: &mut Random, n: usize) -> Vec<Pins> {
    let pins = |kind| {
        let lists = good(random, n);
        Pins::of_kind(random, lists, kind)
    };
    DelayKind::GOOD.into_iter().map(pins).collect()
}

/// Lists about `n` sinks that are mostly refused: for their places, for their
/// delays, for both, or for the lengths of the lists, with bad places and
/// delays in some of these as well.
pub fn bad_pins(random: &mut Random, n: usize) -> Vec<Pins> {
    let mut all: Vec<Pins> = bad(random, n)
        .into_iter()
        .map(|lists| Pins::delayed(random, lists))
        .collect();
    let good = good(random, n);
    all.push(Pins::of_kind(random, good, DelayKind::OutOfRange));
    for lists in bad(random, n) {
        all.push(Pins::of_kind(random, lists, DelayKind::OutOfRange));
    }
    all.push(one_sink_outside_twice(random, n));
    all.extend(two_sinks_outside(random, n));
    all.push(unlike_delays(random, n));
    all.push(as_long_as_the_other(random, n));
    all
}

/// Lists that are refused, each for one reason that all calls share: lists of
/// unlike length, no sink, a place outside, a delay outside.
pub fn refused_pins(random: &mut Random, n: usize) -> Vec<Pins> {
    let unlike = unlike(random, n);
    let outside = sinks(random, SinkKind::OutOfRange, n);
    let good = good(random, n);
    vec![
        Pins::delayed(random, unlike),
        Pins::new((vec![], vec![]), vec![]),
        Pins::delayed(random, outside),
        Pins::of_kind(random, good, DelayKind::OutOfRange),
    ]
}

/// Four or more good sinks: all on one place, two on one, on a lattice, and
/// one in a corner of the range.
pub fn every_spread(random: &mut Random, n: usize) -> Vec<Lists> {
    let mut shared = sinks(random, SinkKind::Clustered, n);
    (shared.0[n - 1], shared.1[n - 1]) = (shared.0[0], shared.1[0]);
    let mut corner = good(random, n);
    let at = random.below(n);
    corner.0[at] = random.pick(&[REACH, -REACH]);
    corner.1[at] = random.pick(&[REACH, -REACH]);
    vec![
        sinks(random, SinkKind::OnePlace, n),
        shared,
        sinks(random, SinkKind::Regular, n),
        corner,
    ]
}

/// Two or more good sinks without delays, with equal ones, with one that
/// holds all others in its box just so, and with the greatest at one.
pub fn every_sort_of_delays(random: &mut Random, n: usize) -> Vec<Pins> {
    let equal = 1 + random.below(MOST_DELAY as usize) as u32;
    let mut greatest = vec![0; n];
    greatest[random.below(n)] = MOST_DELAY;
    vec![
        Pins::new(good(random, n), vec![0; n]),
        Pins::new(good(random, n), vec![equal; n]),
        swallowed(random, n),
        Pins::new(good(random, n), greatest),
    ]
}

/// Sinks close together, the box of one just as large as to hold all others.
fn swallowed(random: &mut Random, n: usize) -> Pins {
    let (x, y) = sinks(random, SinkKind::Clustered, n);
    let mut delays: Vec<u32> = (0..n).map(|_| random.below(3) as u32).collect();
    let at = random.below(n);
    let needed = |sink: usize| x[sink].abs_diff(x[at]) + y[sink].abs_diff(y[at]) + delays[sink];
    let others = (0..n).filter(|&sink| sink != at);
    delays[at] = others.map(needed).max().unwrap_or(0);
    Pins::new((x, y), delays)
}

/// A place and a delay outside their ranges at the same sink.
fn one_sink_outside_twice(random: &mut Random, n: usize) -> Pins {
    let mut pins = good_pins(random, n);
    let sink = random.below(n);
    put_outside(random, &mut pins, sink);
    pins.delays[sink] = random.pick(&LONG_DELAYS);
    pins
}

/// A delay outside its range at a lower sink than a place outside, and at a
/// higher one; at one sink where there is no other.
fn two_sinks_outside(random: &mut Random, n: usize) -> [Pins; 2] {
    let lower = random.below(n);
    let higher = lower + random.below(n - lower);
    [(lower, higher), (higher, lower)].map(|(delayed, placed)| {
        let mut pins = good_pins(random, n);
        pins.delays[delayed] = random.pick(&LONG_DELAYS);
        put_outside(random, &mut pins, placed);
        pins
    })
}

/// Puts a sink just outside the range of places, or far outside.
fn put_outside(random: &mut Random, pins: &mut Pins, sink: usize) {
    let outside = random.pick(&[REACH + 1, -REACH - 1, i32::MIN, i32::MAX]);
    match random.below(2) {
        0 => pins.x[sink] = outside,
        _ => pins.y[sink] = outside,
    }
}

/// A list of delays that is empty, shorter or longer than the others, some
/// with places or delays outside their range.
fn unlike_delays(random: &mut Random, n: usize) -> Pins {
    let mut pins = good_pins(random, n);
    if random.below(2) == 0 {
        put_outside(random, &mut pins, n - 1);
    }
    if random.below(2) == 0 {
        put_long_delays(random, &mut pins.delays);
    }
    change_length(random, &mut pins.delays);
    pins
}

fn change_length(random: &mut Random, delays: &mut Vec<u32>) {
    match random.below(4) {
        0 if !delays.is_empty() => delays.clear(),
        1 if !delays.is_empty() => delays.truncate(delays.len() - 1),
        2 => delays.push(0),
        _ => delays.extend([0, u32::MAX]),
    }
}

/// Lists of x and y of unlike length, and delays as long as that of y.
fn as_long_as_the_other(random: &mut Random, n: usize) -> Pins {
    let lists = unlike(random, n);
    let delays = vec![random.pick(&[0, 1, MOST_DELAY, u32::MAX]); lists.1.len()];
    Pins::new(lists, delays)
}

/// Odd counts of sinks with good delays, then with a list of delays that has
/// another length or is out of range.
pub fn odd_pins(random: &mut Random) -> Vec<Pins> {
    let mut all = vec![];
    for lists in odd_counts(random) {
        let pins = Pins::delayed(random, lists.clone());
        let mut other = pins.clone();
        match random.below(3) {
            0 => put_long_delays(random, &mut other.delays),
            _ => change_length(random, &mut other.delays),
        }
        all.extend([pins, other]);
    }
    let none = (vec![], vec![]);
    all.push(Pins::new(none.clone(), vec![0]));
    all.push(Pins::new(none, vec![u32::MAX; 2]));
    all.push(Pins::new((vec![], vec![0]), vec![0]));
    all.push(Pins::new((vec![0], vec![0]), vec![]));
    for (n, waits) in [(512, 513), (513, 512), (513, 513), (512, 0)] {
        let lists = any_number(random, n);
        all.push(Pins::new(lists, vec![random.pick(&LONG_DELAYS); waits]));
    }
    let lists = any_number(random, 512);
    all.push(Pins::of_kind(random, lists, DelayKind::Greatest));
    all
}

/// Sinks that are accepted, spread in one of the good ways.
pub fn good(random: &mut Random, n: usize) -> Lists {
    let kind = random.pick(&SinkKind::GOOD);
    sinks(random, kind, n)
}

/// Good sinks of every kind.
pub fn every_good(random: &mut Random, n: usize) -> Vec<Lists> {
    let list = |kind| sinks(random, kind, n);
    SinkKind::GOOD.into_iter().map(list).collect()
}

/// Lists about `n` sinks that are mostly refused, for more than one reason
/// at once where that can be.
pub fn bad(random: &mut Random, n: usize) -> Vec<Lists> {
    let outside = sinks(random, SinkKind::OutOfRange, n);
    let mut both = sharing(random, n);
    both.0[random.below(n)] = random.pick(&[1_000_001, -1_000_001, i32::MIN, i32::MAX]);
    // Here the place outside may itself hold several pins.
    let mut together = outside.clone();
    put_together(random, &mut together);
    let unlike = unlike(random, n);
    vec![outside, both, together, unlike]
}

/// Sinks that are accepted, several on a place.
fn sharing(random: &mut Random, n: usize) -> Lists {
    let kind = random.pick(&SinkKind::SHARING);
    sinks(random, kind, n)
}

/// Any number of sinks, good but for the number: in a row or on one place.
pub fn any_number(random: &mut Random, n: usize) -> Lists {
    match random.below(2) {
        0 => ((0..n as i32).collect(), vec![0; n]),
        _ => sinks(random, SinkKind::OnePlace, n),
    }
}

/// Lists of unlike length.
fn unlike(random: &mut Random, n: usize) -> Lists {
    let (mut x, mut y) = good(random, n);
    let list = if random.below(2) == 0 { &mut x } else { &mut y };
    match random.below(3) {
        0 => list.clear(),
        1 => list.truncate(n - 1),
        _ => list.extend([0, 2_000_000]),
    }
    (x, y)
}

/// No sinks, 511 to 513 of them, and many more than node numbers have bits.
pub fn odd_counts(random: &mut Random) -> Vec<Lists> {
    let line = |n: i32| ((0..n).collect::<Vec<i32>>(), vec![0; n as usize]);
    let (x, y) = line(513);
    vec![
        (vec![], vec![]),
        (vec![], vec![1]),
        (vec![2_000_000], vec![]),
        good(random, 511),
        good(random, 512),
        good(random, 513),
        (x.clone(), y[..512].to_vec()),
        (x[..512].to_vec(), y),
        (vec![2_000_000; 513], vec![2_000_000; 513]),
        sinks(random, SinkKind::OnePlace, 512),
        sinks(random, SinkKind::OnePlace, 513),
        line(65_536),
        line(65_539),
    ]
}

/// A good joining order and every kind of bad one.
pub fn orders(random: &mut Random, n: usize) -> Vec<Vec<u16>> {
    let mut orders = vec![good_joins(random, n), vec![]];
    for damage in JoinDamage::ALL {
        orders.push(damaged_joins(random, n, damage));
    }
    orders.push(doubly_damaged(random, n));
    orders
}

/// A joining order with up to three random numbers in it.
fn doubly_damaged(random: &mut Random, n: usize) -> Vec<u16> {
    let mut joins = good_joins(random, n);
    if !joins.is_empty() {
        for _ in 0..1 + random.below(3) {
            let at = random.below(joins.len());
            joins[at] = random.below(2 * n + 1) as u16;
        }
    }
    joins
}

/// A large number of sinks; the greatest are drawn in every eighth round.
pub fn large(random: &mut Random, round: usize) -> usize {
    match round % 8 {
        7 => most(random),
        _ => 15 + random.below(86),
    }
}

/// A number of sinks above 100, often one of the greatest two.
pub fn most(random: &mut Random) -> usize {
    let any = 101 + random.below(412);
    random.pick(&[512, 511, any])
}
