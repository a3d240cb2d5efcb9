//! Inputs for comparisons: sinks, their delays, joining orders, budgets and
//! file damage, all drawn from one seed so that any finding can be run again.

use crate::plane::{MOST_DELAY, REACH};
use crate::search::full_steps;
use std::collections::HashSet;

/// A small generator of the splitmix64 family.
#[derive(Clone, Debug)]
pub struct Random {
    state: u64,
}

impl Random {
    /// Equal seeds give equal numbers.
    pub fn new(seed: u64) -> Random {
        Random { state: seed }
    }

    /// The next 64 bits.
    pub fn next_bits(&mut self) -> u64 {
        self.state = self.state.wrapping_add(0x9E37_79B9_7F4A_7C15);
        let mut z = self.state;
        z = (z ^ (z >> 30)).wrapping_mul(0xBF58_476D_1CE4_E5B9);
        z = (z ^ (z >> 27)).wrapping_mul(0x94D0_49BB_1331_11EB);
        z ^ (z >> 31)
    }

    /// A number below `bound` (1 or more). The slight lean of a remainder
    /// does no harm to a comparison.
    pub fn below(&mut self, bound: usize) -> usize {
        (self.next_bits() % bound as u64) as usize
    }

    /// A number from `least` to `greatest`, both included.
    pub fn between(&mut self, least: i32, greatest: i32) -> i32 {
        let span = i64::from(greatest) - i64::from(least) + 1;
        let offset = (self.next_bits() % span as u64) as i64;
        (i64::from(least) + offset) as i32
    }

    /// One of the given things.
    pub fn pick<T: Copy>(&mut self, things: &[T]) -> T {
        things[self.below(things.len())]
    }
}

/// How sinks are spread.
#[derive(Clone, Copy, Debug, PartialEq, Eq)]
pub enum SinkKind {
    /// Over the whole range.
    Uniform,
    /// In a small square, so that many diameters tie.
    Clustered,
    /// On one line, level, upright or tilted.
    Collinear,
    /// On such a line at equal steps: most diameters tie.
    EvenLine,
    /// At least one coordinate at ±1,000,000, corners often.
    Extreme,
    /// One on each place of a regular grid: most diameters tie.
    Regular,
    /// In small clusters, two and two of them close together.
    ClusterPairs,
    /// Half of them (at most 128) far out and far from one another, the later
    /// ones farther; the rest crowded on one place in the middle. Joining by
    /// least diameter joins the crowd first, by number alone. Each of the far
    /// ones has the same best partner all that time, the lowest node of the
    /// crowd, and each join takes just that node away: who keeps partners and
    /// seeks another as soon as one is gone does it for all of them.
    SharedPartner,
    /// All on one place.
    OnePlace,
    /// On up to four places.
    FewPlaces,
    /// In a small square, some later pins on the places of earlier ones.
    Coinciding,
    /// On three columns and three rows: places repeat and diameters tie.
    Coarse,
    /// With at least one coordinate outside, so that refusal 4 occurs.
    OutOfRange,
}

impl SinkKind {
    /// The kinds that are accepted, first those of distinct places.
    pub const GOOD: [SinkKind; 12] = [
        SinkKind::Uniform,
        SinkKind::Clustered,
        SinkKind::Collinear,
        SinkKind::EvenLine,
        SinkKind::Extreme,
        SinkKind::Regular,
        SinkKind::ClusterPairs,
        SinkKind::SharedPartner,
        SinkKind::OnePlace,
        SinkKind::FewPlaces,
        SinkKind::Coinciding,
        SinkKind::Coarse,
    ];
    /// The kinds that are accepted and have several pins on a place.
    pub const SHARING: [SinkKind; 5] = [
        SinkKind::SharedPartner,
        SinkKind::OnePlace,
        SinkKind::FewPlaces,
        SinkKind::Coinciding,
        SinkKind::Coarse,
    ];
    /// The kinds made to be hard for joining by least diameter: by ties, or
    /// by how often a best partner is gone.
    pub const HARD: [SinkKind; 6] = [
        SinkKind::OnePlace,
        SinkKind::EvenLine,
        SinkKind::Collinear,
        SinkKind::Regular,
        SinkKind::ClusterPairs,
        SinkKind::SharedPartner,
    ];
}

/// The lists of x and y of `n` sinks.
pub fn sinks(random: &mut Random, kind: SinkKind, n: usize) -> (Vec<i32>, Vec<i32>) {
    match kind {
        SinkKind::Uniform => distinct(random, n, uniform_sink),
        SinkKind::Clustered => clustered(random, n),
        SinkKind::Collinear => collinear(random, n),
        SinkKind::EvenLine => even_line(random, n),
        SinkKind::Extreme => distinct(random, n, extreme_sink),
        SinkKind::Regular => regular(random, n),
        SinkKind::ClusterPairs => cluster_pairs(random, n),
        SinkKind::SharedPartner => shared_partner(random, n),
        SinkKind::OnePlace => on_places(random, n, 1),
        SinkKind::FewPlaces => {
            let places = 2 + random.below(3);
            on_places(random, n, places)
        }
        SinkKind::Coinciding => {
            let mut lists = clustered(random, n);
            put_together(random, &mut lists);
            lists
        }
        SinkKind::Coarse => coarse(random, n),
        SinkKind::OutOfRange => out_of_range(random, n),
    }
}

/// Draws until `n` different places are found; the drawing must offer many
/// more places than that.
fn distinct(
    random: &mut Random,
    n: usize,
    mut draw: impl FnMut(&mut Random) -> (i32, i32),
) -> (Vec<i32>, Vec<i32>) {
    let mut taken = HashSet::new();
    let (mut x, mut y) = (Vec::new(), Vec::new());
    while x.len() < n {
        let sink = draw(random);
        if taken.insert(sink) {
            x.push(sink.0);
            y.push(sink.1);
        }
    }
    (x, y)
}

fn uniform_sink(random: &mut Random) -> (i32, i32) {
    (random.between(-REACH, REACH), random.between(-REACH, REACH))
}

/// Corners are kept rare enough that 512 different sinks are soon found.
fn extreme_sink(random: &mut Random) -> (i32, i32) {
    let edge = random.pick(&[-REACH, REACH]);
    let other = match random.below(4) {
        0 => random.pick(&[-REACH, REACH]),
        1 => random.pick(&[-REACH + 1, 0, REACH - 1]),
        _ => random.between(-REACH, REACH),
    };
    match random.below(2) {
        0 => (edge, other),
        _ => (other, edge),
    }
}

fn clustered(random: &mut Random, n: usize) -> (Vec<i32>, Vec<i32>) {
    // About four cells for each sink: crowded, yet quickly drawn.
    let side = (1..).find(|side| side * side >= 4 * n).unwrap_or(n) as i32;
    let left = random.between(-REACH, REACH - side);
    let low = random.between(-REACH, REACH - side);
    distinct(random, n, |random| {
        (
            left + random.between(0, side),
            low + random.between(0, side),
        )
    })
}

/// Steps along the lines that sinks are put on.
const DIRECTIONS: [(i32, i32); 6] = [(1, 0), (0, 1), (1, 1), (1, -1), (2, 1), (-1, 3)];

fn collinear(random: &mut Random, n: usize) -> (Vec<i32>, Vec<i32>) {
    let (dx, dy) = random.pick(&DIRECTIONS);
    let x = random.between(-REACH / 4, REACH / 4);
    let y = random.between(-REACH / 4, REACH / 4);
    let reach = random.pick(&[2 * n as i32 + 1, REACH / 4]);
    distinct(random, n, |random| {
        let along = random.between(-reach, reach);
        (x + dx * along, y + dy * along)
    })
}

fn even_line(random: &mut Random, n: usize) -> (Vec<i32>, Vec<i32>) {
    let (dx, dy) = random.pick(&DIRECTIONS);
    let step = random.pick(&[1, 2, 700]);
    let x = random.between(-REACH / 4, REACH / 4);
    let y = random.between(-REACH / 4, REACH / 4);
    let place = |at: usize| {
        let along = step * (at as i32 - n as i32 / 2);
        (x + dx * along, y + dy * along)
    };
    numbering(random, n).into_iter().map(place).unzip()
}

/// The numbers below `n` as they are or in any order, so that equal diameters
/// come from low and high numbers alike.
fn numbering(random: &mut Random, n: usize) -> Vec<usize> {
    let mut numbers: Vec<usize> = (0..n).collect();
    if random.below(2) == 0 {
        for at in 1..n {
            numbers.swap(at, random.below(at + 1));
        }
    }
    numbers
}

/// Numbered row by row, or in any order.
fn regular(random: &mut Random, n: usize) -> (Vec<i32>, Vec<i32>) {
    let side = (1..).find(|side| side * side >= n).unwrap_or(n);
    let columns = side * random.pick(&[1, 2]);
    let across = random.pick(&[1, 2, 10_000]);
    let up = across * random.pick(&[1, 3]);
    let left = random.between(-REACH, REACH - across * columns as i32);
    let low = random.between(-REACH, REACH - up * side as i32);
    let place = |cell: usize| {
        let (row, column) = ((cell / columns) as i32, (cell % columns) as i32);
        (left + across * column, low + up * row)
    };
    numbering(random, n).into_iter().map(place).unzip()
}

/// The side of a cluster, and how far the two of a pair are apart.
const CLUSTER: i32 = 5;
const APART: i32 = 60;

/// About four sinks to a cluster of five by five places, and one pair of
/// clusters to eight sinks.
fn cluster_pairs(random: &mut Random, n: usize) -> (Vec<i32>, Vec<i32>) {
    let inside = REACH - APART - CLUSTER;
    let corner = |random: &mut Random| random.between(-inside, inside);
    let corners: Vec<(i32, i32)> = (0..n / 8 + 1)
        .map(|_| (corner(random), corner(random)))
        .collect();
    distinct(random, n, |random| {
        let (x, y) = random.pick(&corners);
        let across = random.pick(&[0, APART]);
        (
            x + across + random.between(0, CLUSTER - 1),
            y + random.between(0, CLUSTER - 1),
        )
    })
}

/// The far sinks stand on rings around the crowd, eight on each, in tilted
/// coordinates on the middles of the sides and on the corners of a square.
/// Each is a little farther out than the one before, and a ring more than
/// twice as far as the one before: so each is farther from all later ones
/// than from the crowd.
fn shared_partner(random: &mut Random, n: usize) -> (Vec<i32>, Vec<i32>) {
    let far = (n / 2).min(128);
    let mut places = Vec::new();
    let mut ring = 1;
    while places.len() < far {
        // In the plane a middle stands on a diagonal, a corner on an axis.
        for (at, (dx, dy)) in [(1, 1), (1, -1), (-1, -1), (-1, 1)].into_iter().enumerate() {
            let out = ring + at as i32;
            places.push((dx * out, dy * out));
        }
        for (at, (dx, dy)) in [(1, 0), (0, 1), (-1, 0), (0, -1)].into_iter().enumerate() {
            let out = 2 * ring + 7 + at as i32;
            places.push((dx * out, dy * out));
        }
        ring = 2 * ring + 11;
    }
    places.truncate(far);
    places.resize(n, (0, 0));
    let reach = |&(x, y): &(i32, i32)| x.abs().max(y.abs());
    let room = REACH - places.iter().map(reach).max().unwrap_or(0);
    let (x, y) = (random.between(-room, room), random.between(-room, room));
    places.into_iter().map(|(dx, dy)| (x + dx, y + dy)).unzip()
}

/// Pins on so many places at most, each on any of them.
fn on_places(random: &mut Random, n: usize, places: usize) -> (Vec<i32>, Vec<i32>) {
    let (x, y) = distinct(random, places, shared_place);
    let picks = (0..n).map(|_| random.below(places));
    picks.map(|place| (x[place], y[place])).unzip()
}

/// A place for several pins: anywhere, at the edge of the range, or in the
/// middle of it, where unlike places lie close together.
fn shared_place(random: &mut Random) -> (i32, i32) {
    match random.below(3) {
        0 => uniform_sink(random),
        1 => extreme_sink(random),
        _ => (random.between(-2, 2), random.between(-2, 2)),
    }
}

/// Puts some later pins, few or many, on the places of earlier ones.
pub fn put_together(random: &mut Random, (x, y): &mut (Vec<i32>, Vec<i32>)) {
    let n = x.len();
    if n >= 2 {
        for _ in 0..1 + random.below(n) {
            let later = 1 + random.below(n - 1);
            let earlier = random.below(later);
            x[later] = x[earlier];
            y[later] = y[earlier];
        }
    }
}

/// The nine places lie close together anywhere, or reach the four corners.
fn coarse(random: &mut Random, n: usize) -> (Vec<i32>, Vec<i32>) {
    let step = random.pick(&[1, 2, REACH]);
    let reach = REACH - step;
    let (x, y) = (random.between(-reach, reach), random.between(-reach, reach));
    let mut line = |middle: i32| middle + step * random.between(-1, 1);
    (0..n).map(|_| (line(x), line(y))).unzip()
}

fn out_of_range(random: &mut Random, n: usize) -> (Vec<i32>, Vec<i32>) {
    let (mut x, mut y) = distinct(random, n, uniform_sink);
    if n >= 1 {
        for _ in 0..1 + random.below(3) {
            let sink = random.below(n);
            let edge = random.pick(&[REACH + 1, -REACH - 1, i32::MAX, i32::MIN]);
            match random.below(2) {
                0 => x[sink] = edge,
                _ => y[sink] = edge,
            }
        }
    }
    (x, y)
}

/// How delays are spread over sinks.
#[derive(Clone, Copy, Debug, PartialEq, Eq)]
pub enum DelayKind {
    /// All 0.
    Zero,
    /// Each 0 or 1.
    ZeroOrOne,
    /// All 1,000,000.
    Greatest,
    /// The same for all, any at all.
    Equal,
    /// Over the whole range.
    Uniform,
    /// One of 900,000 or more, the others of 3 or less.
    OneLarge,
    /// About half of them at 1,000,000 or one below it, the others at 0 or 1.
    Ends,
    /// As long as some distance between two sinks, or one off it, so that
    /// delays and distances make the same diameters.
    LikeDistances,
    /// One to three sinks whose own boxes hold those of their nearest, just
    /// so or with one to spare; some are one short of it.
    Swallowing,
    /// With at least one delay above 1,000,000, so that refusal 15 occurs.
    OutOfRange,
}

impl DelayKind {
    /// The kinds that are accepted.
    pub const GOOD: [DelayKind; 9] = [
        DelayKind::Zero,
        DelayKind::ZeroOrOne,
        DelayKind::Greatest,
        DelayKind::Equal,
        DelayKind::Uniform,
        DelayKind::OneLarge,
        DelayKind::Ends,
        DelayKind::LikeDistances,
        DelayKind::Swallowing,
    ];
}

/// Delays that are refused with 15: the lowest ones, one that 31 bits do not
/// hold, and the greatest there is.
pub const LONG_DELAYS: [u32; 4] = [MOST_DELAY + 1, MOST_DELAY + 2, 1 << 31, u32::MAX];

/// The delays of the sinks at these places. The places may be outside their
/// range, and the lists of unlike length: that of x says how many sinks there
/// are.
pub fn delays(random: &mut Random, kind: DelayKind, x: &[i32], y: &[i32]) -> Vec<u32> {
    let n = x.len();
    match kind {
        DelayKind::Zero => vec![0; n],
        DelayKind::ZeroOrOne => each(random, n, |random| random.below(2) as u32),
        DelayKind::Greatest => vec![MOST_DELAY; n],
        DelayKind::Equal => vec![any_delay(random); n],
        DelayKind::Uniform => each(random, n, any_delay),
        DelayKind::OneLarge => {
            let mut delays = each(random, n, |random| random.below(4) as u32);
            if n >= 1 {
                delays[random.below(n)] = MOST_DELAY - random.below(100_001) as u32;
            }
            delays
        }
        DelayKind::Ends => each(random, n, |random| {
            random.pick(&[0, 1, MOST_DELAY - 1, MOST_DELAY])
        }),
        DelayKind::LikeDistances => each(random, n, |random| some_distance(random, x, y)),
        DelayKind::Swallowing => swallowing(random, x, y),
        DelayKind::OutOfRange => {
            let mut delays = each(random, n, any_delay);
            put_long_delays(random, &mut delays);
            delays
        }
    }
}

fn each(random: &mut Random, n: usize, mut draw: impl FnMut(&mut Random) -> u32) -> Vec<u32> {
    (0..n).map(|_| draw(random)).collect()
}

/// Any delay within its range.
fn any_delay(random: &mut Random) -> u32 {
    random.below(MOST_DELAY as usize + 1) as u32
}

/// The Manhattan distance of two places, which need not be in their range;
/// a place without its y has 0 for it.
fn apart(x: &[i32], y: &[i32], i: usize, j: usize) -> u64 {
    let height = |at: usize| y.get(at).copied().unwrap_or(0);
    u64::from(x[i].abs_diff(x[j])) + u64::from(height(i).abs_diff(height(j)))
}

/// The greatest delay, or the given length where that is less.
fn at_most_the_greatest(length: u64) -> u32 {
    length.min(u64::from(MOST_DELAY)) as u32
}

fn some_distance(random: &mut Random, x: &[i32], y: &[i32]) -> u32 {
    let (i, j) = (random.below(x.len()), random.below(x.len()));
    let near = apart(x, y, i, j) + random.below(3) as u64;
    at_most_the_greatest(near.saturating_sub(1))
}

/// A box holds another where its delay is at least the other's plus their
/// distance. Each swallower takes in a number of its nearest; a later one may
/// take in an earlier one with all that is in it. Sinks too far apart for the
/// greatest delay stay outside.
fn swallowing(random: &mut Random, x: &[i32], y: &[i32]) -> Vec<u32> {
    let n = x.len();
    let mut delays = each(random, n, |random| random.below(3) as u32);
    if n < 2 {
        return delays;
    }
    for _ in 0..1 + random.below(3) {
        let swallower = random.below(n);
        let others = (0..n).filter(|&other| other != swallower);
        let mut needed: Vec<u64> = others
            .map(|other| apart(x, y, swallower, other) + u64::from(delays[other]))
            .collect();
        needed.sort_unstable();
        let farthest = needed[random.below(needed.len())];
        delays[swallower] = at_most_the_greatest(match random.below(4) {
            0 => farthest.saturating_sub(1),
            1 => farthest + 1,
            _ => farthest,
        });
    }
    delays
}

/// Puts one to three delays outside their range, where there is a sink.
pub fn put_long_delays(random: &mut Random, delays: &mut [u32]) {
    if !delays.is_empty() {
        for _ in 0..1 + random.below(3) {
            delays[random.below(delays.len())] = random.pick(&LONG_DELAYS);
        }
    }
}

/// A random good joining order of `n` sinks, empty for none; its pairs are not
/// always rising.
pub fn good_joins(random: &mut Random, n: usize) -> Vec<u16> {
    let mut live: Vec<usize> = (0..n).collect();
    let mut joins = Vec::new();
    for join in n..(2 * n).saturating_sub(1) {
        for _ in 0..2 {
            let at = random.below(live.len());
            joins.push(live.swap_remove(at) as u16);
        }
        live.push(join);
    }
    joins
}

/// How a joining order is damaged.
#[derive(Clone, Copy, Debug, PartialEq, Eq)]
pub enum JoinDamage {
    /// Whole pairs too many or too few.
    WrongCount,
    /// One node number too many or too few.
    HalfPair,
    /// A node named again in a later pair.
    RepeatedNode,
    /// A node that is not below its join's own number.
    NodeTooHigh,
    /// A pair of one node with itself.
    NodeWithItself,
}

impl JoinDamage {
    /// All ways.
    pub const ALL: [JoinDamage; 5] = [
        JoinDamage::WrongCount,
        JoinDamage::HalfPair,
        JoinDamage::RepeatedNode,
        JoinDamage::NodeTooHigh,
        JoinDamage::NodeWithItself,
    ];
}

/// A joining order of `n` sinks that is refused with 6. Where the sinks are
/// too few for the damage asked for, the count is made wrong instead.
pub fn damaged_joins(random: &mut Random, n: usize, damage: JoinDamage) -> Vec<u16> {
    let mut joins = good_joins(random, n);
    let pairs = joins.len() / 2;
    match damage {
        JoinDamage::HalfPair => change_count(random, &mut joins, 1),
        JoinDamage::RepeatedNode if pairs >= 2 => {
            let later = 2 + random.below(joins.len() - 2);
            // Nodes of an earlier pair: never the same pair.
            joins[later] = joins[random.below(later / 2 * 2)];
        }
        JoinDamage::NodeTooHigh if pairs >= 1 => {
            let at = random.below(joins.len());
            let own = (n + at / 2) as u16;
            joins[at] = random.pick(&[own, own + 1, own + 600, u16::MAX]);
        }
        JoinDamage::NodeWithItself if pairs >= 1 => {
            let pair = random.below(pairs);
            joins[2 * pair] = joins[2 * pair + 1];
        }
        _ => change_count(random, &mut joins, 2),
    }
    joins
}

/// Cuts off or appends an odd multiple of `unit` numbers.
fn change_count(random: &mut Random, joins: &mut Vec<u16>, unit: usize) {
    let amount = unit * random.pick(&[1, 3]);
    if amount <= joins.len() && random.below(2) == 0 {
        joins.truncate(joins.len() - amount);
    } else {
        for _ in 0..amount {
            joins.push(random.below(2000) as u16);
        }
    }
}

/// A budget for a search over `n` sinks: near 0, near F(n), between them, or
/// anything up to the greatest number.
pub fn budget(random: &mut Random, n: usize) -> u64 {
    let full = full_steps(n);
    let near = random.below(4) as u64;
    match random.below(6) {
        0 => near,
        1 => full.saturating_sub(near),
        2 => full + near,
        3 => u64::MAX - near,
        4 => random.next_bits(),
        _ => random.next_bits() % (full + 1),
    }
}

/// One way of damaging a file.
#[derive(Clone, Debug, PartialEq, Eq)]
pub enum FileDamage {
    /// Cut to this length.
    Truncate(usize),
    /// Put this byte at this offset.
    Change(usize, u8),
    /// Append these bytes.
    Append(Vec<u8>),
}

/// The file after the damage; a length or offset beyond it changes nothing.
pub fn damaged_file(file: &[u8], damage: &FileDamage) -> Vec<u8> {
    let mut bytes = file.to_vec();
    match damage {
        FileDamage::Truncate(length) => bytes.truncate(*length),
        FileDamage::Change(offset, byte) => {
            if let Some(changed) = bytes.get_mut(*offset) {
                *changed = *byte;
            }
        }
        FileDamage::Append(more) => bytes.extend(more),
    }
    bytes
}

/// A random damage for a file of this length that leaves it different,
/// save that a changed byte may draw its old value.
pub fn file_damage(random: &mut Random, length: usize) -> FileDamage {
    match random.below(4) {
        0 if length > 0 => FileDamage::Truncate(random.below(length)),
        1 => {
            let more = 1 + random.below(12);
            FileDamage::Append((0..more).map(|_| random.next_bits() as u8).collect())
        }
        _ => {
            // Half of the changes fall on the first bytes, where the form
            // is decided.
            let reach = random.pick(&[length, length.min(12)]);
            let small = random.below(6) as u8;
            let byte = random.next_bits() as u8;
            FileDamage::Change(random.below(reach.max(1)), random.pick(&[small, byte]))
        }
    }
}

/// Damages that a comparison should all try on a short file: truncation at
/// every length, one byte changed at every offset, and a byte appended.
pub fn every_damage(random: &mut Random, file: &[u8]) -> Vec<FileDamage> {
    let mut damages = vec![FileDamage::Append(vec![random.next_bits() as u8])];
    for (at, &byte) in file.iter().enumerate() {
        damages.push(FileDamage::Truncate(at));
        let flip = 1 + random.below(255) as u8;
        damages.push(FileDamage::Change(at, byte ^ flip));
        damages.push(FileDamage::Change(at, byte ^ 1));
    }
    damages
}

#[cfg(test)]
mod tests {
    use super::*;
    use crate::plane::{check_places, check_sinks, MOST_SINKS};
    use std::cmp::Ordering;

    #[test]
    fn the_first_numbers_are_those_of_splitmix64() {
        let mut random = Random::new(0);
        assert_eq!(random.next_bits(), 0xE220_A839_7B1D_CDAF);
        assert_eq!(random.next_bits(), 0x6E78_9E6A_A1B9_65F4);
    }

    #[test]
    fn sinks_are_accepted_or_refused_as_their_kind_says() {
        let mut random = Random::new(71);
        for n in (2..40).chain([512]) {
            for kind in SinkKind::GOOD {
                let (x, y) = sinks(&mut random, kind, n);
                assert_eq!(check_places(&x, &y, MOST_SINKS), Ok(()), "{kind:?} {n}");
                assert_eq!(x.len(), n);
            }
            let (x, y) = sinks(&mut random, SinkKind::OutOfRange, n);
            let refusal = check_places(&x, &y, MOST_SINKS).unwrap_err();
            assert_eq!(refusal.number(), 4);
        }
    }

    #[test]
    fn delays_are_accepted_or_refused_as_their_kind_says() {
        let mut random = Random::new(78);
        for n in (1..40).chain([512]) {
            for spread in SinkKind::GOOD {
                let (x, y) = sinks(&mut random, spread, n);
                for kind in DelayKind::GOOD {
                    let waits = delays(&mut random, kind, &x, &y);
                    assert_eq!(waits.len(), n);
                    assert_eq!(check_sinks(&x, &y, &waits, MOST_SINKS), Ok(()), "{kind:?}");
                }
                let waits = delays(&mut random, DelayKind::OutOfRange, &x, &y);
                let refusal = check_sinks(&x, &y, &waits, MOST_SINKS).unwrap_err();
                assert_eq!(refusal.number(), 15);
            }
        }
        for kind in DelayKind::GOOD.into_iter().chain([DelayKind::OutOfRange]) {
            assert!(delays(&mut random, kind, &[], &[1]).is_empty());
            let far = delays(&mut random, kind, &[i32::MIN, i32::MAX], &[7]);
            assert_eq!(far.len(), 2);
        }
    }

    #[test]
    fn delays_are_spread_as_the_kind_says() {
        let mut random = Random::new(79);
        for n in 2..60 {
            let (x, y) = sinks(&mut random, SinkKind::Clustered, n);
            let mut of = |kind| delays(&mut random, kind, &x, &y);
            assert!(of(DelayKind::Zero).iter().all(|&w| w == 0));
            assert!(of(DelayKind::ZeroOrOne).iter().all(|&w| w <= 1));
            assert!(of(DelayKind::Greatest).iter().all(|&w| w == 1_000_000));
            let equal = of(DelayKind::Equal);
            assert!(equal.iter().all(|&w| w == equal[0]));
            let large = of(DelayKind::OneLarge);
            assert_eq!(large.iter().filter(|&&w| w >= 900_000).count(), 1);
            assert_eq!(large.iter().filter(|&&w| w <= 3).count(), n - 1);
        }
    }

    #[test]
    fn swallowers_hold_others_in_their_boxes() {
        let mut random = Random::new(80);
        let (mut just, mut beyond) = (0, 0);
        for round in 0..200 {
            let n = 2 + round % 9;
            let (x, y) = sinks(&mut random, SinkKind::Clustered, n);
            let waits = delays(&mut random, DelayKind::Swallowing, &x, &y);
            let spare = |i: usize, j: usize| {
                u64::from(waits[i]).checked_sub(apart(&x, &y, i, j) + u64::from(waits[j]))
            };
            let pairs = (0..n).flat_map(|i| (0..n).map(move |j| (i, j)));
            let held: Vec<u64> = pairs
                .filter(|(i, j)| i != j)
                .filter_map(|(i, j)| spare(i, j))
                .collect();
            just += usize::from(held.contains(&0));
            beyond += usize::from(held.iter().any(|&spare| spare > 0));
        }
        assert!(just > 100 && beyond > 100, "{just} {beyond}");
    }

    #[test]
    fn places_are_shared_as_the_kind_says() {
        let mut random = Random::new(74);
        for n in 10..60 {
            for kind in SinkKind::GOOD {
                let (x, y) = sinks(&mut random, kind, n);
                let places = x.iter().zip(&y).collect::<HashSet<_>>().len();
                let expected = match kind {
                    SinkKind::SharedPartner => n / 2 + 1..=n / 2 + 1,
                    SinkKind::OnePlace => 1..=1,
                    SinkKind::FewPlaces => 1..=4,
                    SinkKind::Coinciding => 1..=n - 1,
                    SinkKind::Coarse => 1..=9,
                    _ => n..=n,
                };
                assert!(expected.contains(&places), "{kind:?} {n}: {places}");
                assert_eq!(SinkKind::SHARING.contains(&kind), places < n);
            }
        }
    }

    /// Manhattan distances of a sink to all later ones.
    fn later_distances(x: &[i32], y: &[i32], i: usize) -> Vec<u32> {
        let apart = |j: usize| x[i].abs_diff(x[j]) + y[i].abs_diff(y[j]);
        (i + 1..x.len()).map(apart).collect()
    }

    #[test]
    fn an_even_line_has_equal_steps() {
        let mut random = Random::new(75);
        for n in (3..40).chain([512]) {
            let (x, y) = sinks(&mut random, SinkKind::EvenLine, n);
            let mut places: Vec<(i32, i32)> = x.into_iter().zip(y).collect();
            places.sort_unstable();
            let step = |pair: &[(i32, i32)]| (pair[1].0 - pair[0].0, pair[1].1 - pair[0].1);
            let first = step(&places);
            assert!(places.windows(2).all(|pair| step(pair) == first));
        }
    }

    #[test]
    fn clusters_are_small_and_come_in_pairs() {
        let mut random = Random::new(76);
        for n in [64, 512] {
            let (x, y) = sinks(&mut random, SinkKind::ClusterPairs, n);
            let (mut same, mut paired, mut far) = (0, 0, 0);
            for i in 0..n {
                for apart in later_distances(&x, &y, i) {
                    match apart {
                        0..=8 => same += 1,
                        52..=72 => paired += 1,
                        _ => {
                            assert!(apart > 72, "{apart} in neither cluster of a pair");
                            far += 1;
                        }
                    }
                }
            }
            // About four sinks to a cluster: each has some in both of its pair.
            assert!(same > n / 2 && paired > n, "{same} {paired}");
            assert!(far > n * (n - 1) / 2 * 3 / 4, "{far}");
        }
    }

    #[test]
    fn far_sinks_are_nearer_to_the_crowd_than_to_later_ones() {
        let mut random = Random::new(77);
        for n in (4..60).chain([255, 256, 257, 511, 512]) {
            let (x, y) = sinks(&mut random, SinkKind::SharedPartner, n);
            let far = (n / 2).min(128);
            for i in 0..n {
                let apart = later_distances(&x, &y, i);
                if i < far {
                    let (later, crowd) = apart.split_at(far - i - 1);
                    assert!(crowd.iter().all(|&d| d == crowd[0] && d > 0));
                    assert!(later.iter().all(|&d| d > crowd[0]));
                } else {
                    assert!(apart.iter().all(|&d| d == 0));
                }
            }
        }
    }

    #[test]
    fn damages_change_the_file() {
        let mut random = Random::new(72);
        let file = [1, 0, 1, 1, 2, 0, 0];
        for damage in every_damage(&mut random, &file) {
            assert_ne!(damaged_file(&file, &damage), file);
        }
        let (mut cut, mut changed, mut longer) = (0, 0, 0);
        for _ in 0..100 {
            let damage = file_damage(&mut random, file.len());
            let damaged = damaged_file(&file, &damage);
            match damaged.len().cmp(&file.len()) {
                Ordering::Less => cut += 1,
                Ordering::Equal => changed += usize::from(damaged != file),
                Ordering::Greater => longer += usize::from(damaged.starts_with(&file)),
            }
        }
        assert!(
            cut > 10 && changed > 10 && longer > 10,
            "{cut} {changed} {longer}"
        );
        assert!(damaged_file(&[], &file_damage(&mut random, 0)).len() <= 12);
    }

    #[test]
    fn budgets_reach_both_sides_of_the_full_count() {
        let mut random = Random::new(73);
        let budgets: Vec<u64> = (0..200).map(|_| budget(&mut random, 5)).collect();
        let full = full_steps(5);
        assert!(budgets.contains(&0) && budgets.contains(&full));
        assert!(budgets.contains(&(full - 1)) && budgets.contains(&u64::MAX));
    }
}
