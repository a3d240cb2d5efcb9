//! Boxes: worked out from sinks, widened, and read by their ends.

use super::draw::{self, Pins};
use super::kinds::{self, Kind};
use super::lent::{tell_answers, told};
use super::session::{Session, Task};
use super::Case;
use crate::generate::{Random, LONG_DELAYS};
use crate::plane::{box_of_sinks, Tilted, TiltedBox, MOST_DELAY, REACH};
use crate::proved::{self, Answer, RawBox, CORNER};

/// The cases of this family.
pub const CASES: &[Case] = &[
    ("box of sinks", box_of_small),
    ("box of odd counts", box_of_odd_counts),
    ("box of many", box_of_large),
    ("box of every delay", box_of_delays),
    ("box widened", widen_held),
    ("box widened by many", widen_by_many),
    ("any box widened", widen_any),
    ("any box read", read_any),
];

/// What is left of a box: its raw numbers, and what is read from them.
#[derive(Clone, Copy, Debug, PartialEq, Eq)]
pub struct Left {
    raw: RawBox,
    ends: [i64; 4],
    diameter: i64,
}

type Outcome = (Answer, Left);

fn tell_outcomes(reference: &Outcome, proved: &Outcome) -> String {
    let said = tell_answers(reference.0, proved.0);
    said + &tell_left(&reference.1, &proved.1)
}

fn tell_left(reference: &Left, proved: &Left) -> String {
    format!("  reference left: {reference:?}\n  proved left:    {proved:?}\n")
}

/// The ends of a reference box.
fn ends(held: TiltedBox) -> [i64; 4] {
    [held.least_u, held.greatest_u, held.least_v, held.greatest_v].map(|end| end.0)
}

/// The box that raw numbers stand for, whatever they are.
fn standing_for(raw: RawBox) -> TiltedBox {
    let [least_u, greatest_u, least_v, greatest_v] =
        raw.map(|number| Tilted(i64::from(number) - CORNER));
    TiltedBox {
        least_u,
        greatest_u,
        least_v,
        greatest_v,
    }
}

/// The raw numbers of a box; every box here has ends that 32 bits hold.
fn raw_of(held: TiltedBox) -> RawBox {
    ends(held).map(|end| (end + CORNER) as u32)
}

/// What the reference leaves of a box, by its own arithmetic alone.
fn reference_left(held: TiltedBox) -> Left {
    Left {
        raw: raw_of(held),
        ends: ends(held),
        diameter: held.diameter(),
    }
}

/// What the proved library leaves of a box, by its own two readers.
fn proved_left(raw: RawBox) -> Left {
    Left {
        raw,
        ends: proved::ends(&raw),
        diameter: i64::from(proved::diameter(&raw)),
    }
}

/// Both calls that read a box have been compared with every one left.
fn read_kinds(left: &Left) -> Vec<Kind> {
    let readers = ["ends", "diameter"].into_iter();
    readers
        .flat_map(|call| {
            let mut kinds = kinds::held_box(call, left.ends);
            kinds.push(kinds::said(call, told(Ok(0u32))));
            kinds
        })
        .collect()
}

/// Raw numbers drawn from the salt.
fn raw_box(salt: u64) -> RawBox {
    let mut random = Random::new(salt);
    [0; 4].map(|_: u32| random.next_bits() as u32)
}

/// The box of all sinks.
pub struct BoxOf {
    /// The sinks.
    pub pins: Pins,
}

impl Task for BoxOf {
    type Outcome = Outcome;

    fn describe(&self) -> String {
        format!("box_of {:?}", self.pins)
    }

    fn reference(&self, salt: u64) -> Outcome {
        let Pins { x, y, delays } = &self.pins;
        let made = box_of_sinks(x, y, delays);
        let answer = told(made.map(|_| 0u32));
        let left = made.unwrap_or(standing_for(raw_box(salt)));
        (answer, reference_left(left))
    }

    fn proved(&self, salt: u64) -> Outcome {
        let Pins { x, y, delays } = &self.pins;
        let mut held = raw_box(salt);
        let answer = proved::box_of(x, y, delays, &mut held);
        (answer, proved_left(held))
    }

    fn tell(reference: &Outcome, proved: &Outcome) -> String {
        tell_outcomes(reference, proved)
    }

    fn kinds(&self, (answer, left): &Outcome) -> Vec<Kind> {
        let mut kinds = self.pins.kinds("box_of", *answer);
        kinds.extend(read_kinds(left));
        kinds
    }
}

fn check_boxes(session: &mut Session, all: Vec<Pins>) {
    for pins in all {
        session.check(&BoxOf { pins });
    }
}

fn box_of_small(session: &mut Session, random: &mut Random) {
    let n = session.small();
    check_boxes(session, draw::every_good_pins(random, n));
    check_boxes(session, draw::bad_pins(random, n));
}

fn box_of_odd_counts(session: &mut Session, random: &mut Random) {
    if session.round() % 8 == 0 {
        check_boxes(session, draw::odd_pins(random));
    }
}

fn box_of_large(session: &mut Session, random: &mut Random) {
    let n = draw::large(random, session.round());
    check_boxes(session, draw::every_good_pins(random, n));
    check_boxes(session, draw::bad_pins(random, n));
}

fn box_of_delays(session: &mut Session, random: &mut Random) {
    for n in [session.small(), draw::most(random)] {
        check_boxes(session, draw::every_delay(random, n));
    }
}

/// A sink's x and y and its delay.
type Sink = (i32, i32, u32);

/// A box of sinks, widened by sinks one after the other; those outside their
/// range are refused and passed over.
struct WidenHeld {
    pins: Pins,
    more: Vec<Sink>,
}

impl Task for WidenHeld {
    type Outcome = Vec<Outcome>;

    fn describe(&self) -> String {
        let WidenHeld { pins, more } = self;
        format!("box_of {pins:?}, then widen by each of {more:?}")
    }

    fn reference(&self, salt: u64) -> Vec<Outcome> {
        let Pins { x, y, delays } = &self.pins;
        let made = box_of_sinks(x, y, delays);
        let mut held = made.unwrap_or(standing_for(raw_box(salt)));
        let mut all = vec![(told(made.map(|_| 0u32)), reference_left(held))];
        for &(x, y, delay) in &self.more {
            let answer = told(held.widen(x, y, delay).map(|()| 0u32));
            all.push((answer, reference_left(held)));
        }
        all
    }

    fn proved(&self, salt: u64) -> Vec<Outcome> {
        let Pins { x, y, delays } = &self.pins;
        let mut held = raw_box(salt);
        let made = proved::box_of(x, y, delays, &mut held);
        let mut all = vec![(made, proved_left(held))];
        for &(x, y, delay) in &self.more {
            let answer = proved::widen(&mut held, x, y, delay);
            all.push((answer, proved_left(held)));
        }
        all
    }

    fn tell(reference: &Vec<Outcome>, proved: &Vec<Outcome>) -> String {
        let mut pairs = reference.iter().zip(proved);
        match pairs.find(|(ours, theirs)| ours != theirs) {
            Some((ours, theirs)) => tell_outcomes(ours, theirs),
            None => "  one side ended early\n".to_string(),
        }
    }

    fn kinds(&self, outcome: &Vec<Outcome>) -> Vec<Kind> {
        let mut kinds = self.pins.kinds("box_of", outcome[0].0);
        for pair in outcome.windows(2) {
            kinds.extend(widen_kinds(pair[0].1.ends, &pair[1]));
        }
        kinds
    }
}

/// The kinds of a widening of a box with these ends.
fn widen_kinds(before: [i64; 4], (answer, left): &Outcome) -> Vec<Kind> {
    let mut kinds = kinds::held_box("widen", before);
    kinds.push(kinds::said("widen", *answer));
    if answer.is_ok() {
        kinds.push(kinds::widened(before != left.ends));
    }
    kinds.extend(read_kinds(left));
    kinds
}

/// A sink for widening: anywhere, at an edge, just outside, far outside; and
/// its delay just so.
fn any_sink(random: &mut Random) -> Sink {
    let mut coordinate = || match random.below(8) {
        0 => random.pick(&[1_000_000, -1_000_000]),
        1 => random.pick(&[1_000_001, -1_000_001, i32::MIN, i32::MAX]),
        2 => random.between(-9, 9),
        _ => random.between(-1_000_000, 1_000_000),
    };
    (coordinate(), coordinate(), any_delay(random))
}

fn any_delay(random: &mut Random) -> u32 {
    match random.below(8) {
        0 => MOST_DELAY,
        1 => random.pick(&LONG_DELAYS),
        2 => random.below(10) as u32,
        3 => 0,
        _ => random.below(MOST_DELAY as usize) as u32,
    }
}

/// Sinks anywhere; then one in a corner twice, which leaves the box as it is
/// the second time; and one outside each of the two ranges.
fn widen_held(session: &mut Session, random: &mut Random) {
    let n = session.small();
    for pins in draw::every_good_pins(random, n) {
        let mut more: Vec<Sink> = (0..8).map(|_| any_sink(random)).collect();
        let corner = (random.pick(&[REACH, -REACH]), REACH, any_delay(random) % 9);
        let long = (0, 0, random.pick(&LONG_DELAYS));
        more.extend([corner, corner, (REACH + 1, 0, 0), long]);
        session.check(&WidenHeld { pins, more });
    }
}

/// The box of one sink, widened by all others of many with delays of one
/// kind, in turn from round to round; now and then one outside is between.
fn widen_by_many(session: &mut Session, random: &mut Random) {
    let n = draw::large(random, session.round());
    let mut all = draw::every_delay(random, n);
    let Pins { x, y, delays } = all.swap_remove(session.round() % all.len());
    let pins = Pins {
        x: vec![x[0]],
        y: vec![y[0]],
        delays: vec![delays[0]],
    };
    let mut more = vec![];
    for sink in 1..n {
        if random.below(16) == 0 {
            more.push((x[sink], y[sink], random.pick(&LONG_DELAYS)));
        }
        more.push((x[sink], y[sink], delays[sink]));
    }
    session.check(&WidenHeld { pins, more });
}

/// A box of any raw numbers, widened by one sink: the plain least and
/// greatest of what the numbers stand for must come out.
struct WidenAny {
    raw: RawBox,
    sink: Sink,
}

impl Task for WidenAny {
    type Outcome = Outcome;

    fn describe(&self) -> String {
        let WidenAny { raw, sink } = self;
        let ends = ends(standing_for(*raw));
        format!("widen raw box {raw:?} with ends {ends:?} by {sink:?}")
    }

    fn reference(&self, _salt: u64) -> Outcome {
        let (x, y, delay) = self.sink;
        let mut held = standing_for(self.raw);
        let answer = told(held.widen(x, y, delay).map(|()| 0u32));
        (answer, reference_left(held))
    }

    fn proved(&self, _salt: u64) -> Outcome {
        let (x, y, delay) = self.sink;
        let mut held = self.raw;
        let answer = proved::widen(&mut held, x, y, delay);
        (answer, proved_left(held))
    }

    fn tell(reference: &Outcome, proved: &Outcome) -> String {
        tell_outcomes(reference, proved)
    }

    fn kinds(&self, outcome: &Outcome) -> Vec<Kind> {
        widen_kinds(ends(standing_for(self.raw)), outcome)
    }
}

/// A raw number: any, or near one where a sign or a range might turn.
fn any_raw(random: &mut Random) -> u32 {
    let millions = 1_000_000 * random.pick(&[2, 3, 4, 6, 8, 12]);
    let corner = CORNER as u32;
    let near = random.pick(&[0, 1 << 31, millions, corner + millions, corner - millions]);
    match random.below(2) {
        0 => random.next_bits() as u32,
        _ => near.wrapping_add(random.between(-2, 2) as u32),
    }
}

/// How the ends of a box are crossed: those of u, those of v, both or none.
const CROSSINGS: [(bool, bool); 4] = [(false, false), (true, false), (false, true), (true, true)];

/// The raw numbers of a box of sinks, each off by a little, then crossed; and
/// one of the sinks, off by a little too, so that it meets the box's ends.
fn near_raw(random: &mut Random, crossing: (bool, bool)) -> (RawBox, Sink) {
    let n = 1 + random.below(3);
    let Pins { x, y, delays } = draw::good_pins(random, n);
    let held = box_of_sinks(&x, &y, &delays).expect("good sinks have a box");
    let mut raw = raw_of(held).map(|number| number + random.below(3) as u32 - 1);
    if crossing.0 {
        raw.swap(0, 1);
    }
    if crossing.1 {
        raw.swap(2, 3);
    }
    let at = random.below(n);
    let mut beside = |coordinate: i32| coordinate + random.between(-2, 2);
    let (x, y) = (beside(x[at]), beside(y[at]));
    (raw, (x, y, random.pick(&[delays[at], delays[at] / 2, 0])))
}

fn widen_any(session: &mut Session, random: &mut Random) {
    for _ in 0..8 {
        let raw = [0; 4].map(|_: u32| any_raw(random));
        let sink = any_sink(random);
        session.check(&WidenAny { raw, sink });
    }
    for crossing in [CROSSINGS; 4].concat() {
        let (raw, sink) = near_raw(random, crossing);
        session.check(&WidenAny { raw, sink });
        let sink = any_sink(random);
        session.check(&WidenAny { raw, sink });
    }
}

/// The ends and the diameter of a box of any raw numbers, its least end
/// perhaps above its greatest.
struct ReadAny {
    raw: RawBox,
}

impl Task for ReadAny {
    type Outcome = Left;

    fn describe(&self) -> String {
        format!("ends and diameter of raw box {:?}", self.raw)
    }

    fn reference(&self, _salt: u64) -> Left {
        reference_left(standing_for(self.raw))
    }

    fn proved(&self, _salt: u64) -> Left {
        proved_left(self.raw)
    }

    fn tell(reference: &Left, proved: &Left) -> String {
        tell_left(reference, proved)
    }

    fn kinds(&self, outcome: &Left) -> Vec<Kind> {
        read_kinds(outcome)
    }
}

fn read_any(session: &mut Session, random: &mut Random) {
    for _ in 0..8 {
        let raw = [0; 4].map(|_: u32| any_raw(random));
        session.check(&ReadAny { raw });
    }
    for crossing in [CROSSINGS; 4].concat() {
        let (raw, _) = near_raw(random, crossing);
        session.check(&ReadAny { raw });
    }
}
