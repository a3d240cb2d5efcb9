//! Embedding, joining by least diameter, and the exact search.

use super::draw::{self, Pins};
use super::kinds::{self, Kind};
use super::lent::{refused, told, Outcome, Parts, Room};
use super::session::{self, Session};
use super::Case;
use crate::embed::embed;
use crate::generate::{budget, good_joins, sinks, DelayKind, Random, SinkKind};
use crate::least::{build_least, join_least};
use crate::plane::{MOST_DELAY, MOST_SEARCHED, REACH};
use crate::proved::{self, Answer, Said};
use crate::search::{full_steps, search, Found};

/// The cases of this family.
pub const CASES: &[Case] = &[
    ("embed good orders", embed_good),
    ("embed bad orders", embed_bad),
    ("embed odd counts", embed_odd_counts),
    ("embed many", embed_large),
    ("embed greatest total", embed_greatest),
    ("embed every delay", embed_delays),
    ("join", join_small),
    ("join odd counts", join_odd_counts),
    ("join many", join_large),
    ("join most", join_most),
    ("join every delay", join_delays),
    ("search budgets", search_budgets),
    ("search every budget", search_every_budget),
    ("search rooms", search_rooms),
    ("search bad", search_bad),
    ("search every delay", search_delays),
];

/// A call that builds.
#[derive(Clone, Copy, Debug, PartialEq, Eq)]
pub enum Call {
    /// Embeds the joining order given.
    Embed,
    /// Joins by least diameter.
    JoinNearest,
    /// Joins so and embeds.
    EmbedNearest,
    /// Searches with the budget given.
    Search,
}

impl Call {
    /// All calls.
    pub const ALL: [Call; 4] = [
        Call::Embed,
        Call::JoinNearest,
        Call::EmbedNearest,
        Call::Search,
    ];

    /// The name that the header has for it.
    pub fn name(self) -> &'static str {
        match self {
            Call::Embed => "embed",
            Call::JoinNearest => "join_nearest",
            Call::EmbedNearest => "embed_nearest",
            Call::Search => "search",
        }
    }
}

/// A call with its input and the lengths of what it is lent.
#[derive(Clone, Debug)]
pub struct Task {
    /// The call.
    pub call: Call,
    /// The sinks.
    pub pins: Pins,
    /// The joining order given, empty for all calls but one.
    pub joins: Vec<u16>,
    budget: u64,
    room: Room,
}

impl Task {
    /// A call with buffers of exactly the lengths that the answer fills.
    pub fn new(call: Call, pins: Pins) -> Task {
        let mut task = Task {
            call,
            pins,
            joins: vec![],
            budget: 0,
            room: Room::default(),
        };
        task.room = task.exact();
        task
    }

    /// The call with a joining order.
    pub fn with_joins(mut self, joins: Vec<u16>) -> Task {
        self.joins = joins;
        self
    }

    /// The call with a budget.
    pub fn with_budget(mut self, budget: u64) -> Task {
        self.budget = budget;
        self
    }

    /// What the answer fills. Lists that no call takes get a little room.
    fn exact(&self) -> Room {
        let n = self.pins.x.len().clamp(1, 520);
        let pairs = 2 * (n - 1);
        let nodes = 2 * n - 1;
        let (table, joins, nodes) = match self.call {
            Call::Embed => (0, 0, nodes),
            Call::JoinNearest => (0, pairs, 0),
            Call::EmbedNearest => (0, pairs, nodes),
            Call::Search => (1 << n.min(14), pairs, nodes),
        };
        Room {
            table,
            joins,
            u: nodes,
            v: nodes,
            wires: nodes,
            ..Room::default()
        }
    }

    /// Checks the call in its own room and in every variant of it.
    pub fn check_rooms(mut self, session: &mut Session, random: &mut Random) {
        for room in self.room.variants(random) {
            self.room = room;
            session.check(&self);
        }
    }

    fn ask_reference(&self, lent: Parts<'_>) -> Answer {
        let Pins { x, y, delays } = &self.pins;
        let (table, joins, tree) = (lent.table, lent.joins, lent.tree);
        match self.call {
            Call::Embed => told(embed(x, y, delays, &self.joins, tree)),
            Call::JoinNearest => told(join_least(x, y, delays, joins).map(|_| 0u32)),
            Call::EmbedNearest => told(build_least(x, y, delays, joins, tree)),
            Call::Search => {
                let found = search(x, y, delays, self.budget, table, joins, tree);
                found.map(found_said).map_err(refused)
            }
        }
    }

    /// What the proved library says and fills in.
    pub fn ask_proved(&self, lent: Parts<'_>) -> Answer {
        let Pins { x, y, delays } = &self.pins;
        let (table, joins, tree) = (lent.table, lent.joins, lent.tree);
        match self.call {
            Call::Embed => proved::embed(x, y, delays, &self.joins, tree),
            Call::JoinNearest => proved::join_nearest(x, y, delays, joins),
            Call::EmbedNearest => proved::embed_nearest(x, y, delays, joins, tree),
            Call::Search => proved::search(x, y, delays, self.budget, table, joins, tree),
        }
    }
}

fn found_said(found: Found) -> Said {
    Said {
        value: u64::from(found.total),
        steps: found.steps,
        proven: found.proven,
    }
}

impl session::Task for Task {
    type Outcome = Outcome;

    fn describe(&self) -> String {
        format!("{self:?}")
    }

    fn reference(&self, salt: u64) -> Outcome {
        Outcome::of(self.room, salt, |lent| self.ask_reference(lent))
    }

    fn proved(&self, salt: u64) -> Outcome {
        Outcome::of(self.room, salt, |lent| self.ask_proved(lent))
    }

    fn tell(reference: &Outcome, proved: &Outcome) -> String {
        Outcome::tell(reference, proved)
    }

    fn kinds(&self, outcome: &Outcome) -> Vec<Kind> {
        let mut kinds = self.pins.kinds(self.call.name(), outcome.answer);
        if self.call == Call::Search && outcome.answer.is_ok() {
            kinds.push(kinds::budget(self.pins.x.len(), self.budget));
        }
        kinds
    }
}

fn embed_good(session: &mut Session, random: &mut Random) {
    let n = session.small();
    for pins in draw::every_good_pins(random, n) {
        let joins = good_joins(random, n);
        let task = Task::new(Call::Embed, pins).with_joins(joins);
        task.check_rooms(session, random);
    }
}

/// Bad sinks and bad delays, each with good and with bad orders.
fn embed_bad(session: &mut Session, random: &mut Random) {
    let n = session.small();
    let mut all = draw::bad_pins(random, n);
    all.push(draw::good_pins(random, n));
    for pins in all {
        for joins in draw::orders(random, n) {
            let task = Task::new(Call::Embed, pins.clone()).with_joins(joins);
            task.check_rooms(session, random);
        }
    }
}

fn embed_odd_counts(session: &mut Session, random: &mut Random) {
    if session.round() % 8 != 1 {
        return;
    }
    for pins in draw::odd_pins(random) {
        let joins = good_joins(random, pins.x.len().min(513));
        let task = Task::new(Call::Embed, pins).with_joins(joins);
        task.check_rooms(session, random);
    }
}

fn embed_large(session: &mut Session, random: &mut Random) {
    let n = draw::large(random, session.round());
    let pins = draw::good_pins(random, n);
    for joins in draw::orders(random, n) {
        let task = Task::new(Call::Embed, pins.clone()).with_joins(joins);
        task.check_rooms(session, random);
    }
}

/// A first join across the whole range makes every later one as wide. With
/// the greatest delays on these two sinks alone the total is the greatest
/// there is and passes 31 bits; with one for all it is what it is without.
fn embed_greatest(session: &mut Session, random: &mut Random) {
    let n = random.pick(&[2, 3, 12, 511, 512]);
    let mut x: Vec<i32> = (0..n).collect();
    let mut y = vec![0; x.len()];
    let side = random.pick(&[REACH, -REACH]);
    (x[0], y[0], x[1], y[1]) = (REACH, side, -REACH, -side);
    let mut joins = vec![0, 1];
    for sink in 2..n as u16 {
        joins.extend([sink, n as u16 + sink - 2]);
    }
    for delayed in [0, 1, 2, x.len()] {
        let mut delays = vec![MOST_DELAY; delayed];
        delays.resize(x.len(), 0);
        let (x, y) = (x.clone(), y.clone());
        let task = Task::new(Call::Embed, Pins { x, y, delays });
        session.check(&task.with_joins(joins.clone()));
    }
}

/// Delays of every kind on a few sinks and on many.
fn embed_delays(session: &mut Session, random: &mut Random) {
    for n in [session.small(), draw::large(random, session.round())] {
        for pins in draw::every_delay(random, n) {
            let joins = good_joins(random, n);
            session.check(&Task::new(Call::Embed, pins).with_joins(joins));
        }
    }
}

/// Both calls that join by least diameter, in all rooms.
fn check_joining_rooms(session: &mut Session, random: &mut Random, pins: &Pins) {
    for call in [Call::JoinNearest, Call::EmbedNearest] {
        Task::new(call, pins.clone()).check_rooms(session, random);
    }
}

/// Both calls, in the room that they need.
fn check_joining(session: &mut Session, pins: &Pins) {
    for call in [Call::JoinNearest, Call::EmbedNearest] {
        session.check(&Task::new(call, pins.clone()));
    }
}

fn join_small(session: &mut Session, random: &mut Random) {
    let n = session.small();
    let good = draw::every_good_pins(random, n);
    let bad = draw::bad_pins(random, n);
    for pins in good.iter().chain(&bad) {
        check_joining_rooms(session, random, pins);
    }
}

fn join_odd_counts(session: &mut Session, random: &mut Random) {
    if session.round() % 32 == 2 {
        for pins in draw::odd_pins(random) {
            check_joining_rooms(session, random, &pins);
        }
    }
}

fn join_large(session: &mut Session, random: &mut Random) {
    let n = draw::large(random, session.round());
    check_joining(session, &draw::good_pins(random, n));
}

/// Up to the greatest number of sinks, of a hard kind and of any kind, each
/// in turn from round to round; without delays, and with those of a kind in
/// its turn.
fn join_most(session: &mut Session, random: &mut Random) {
    for kinds in [&SinkKind::HARD[..], &SinkKind::GOOD] {
        let kind = kinds[session.round() % kinds.len()];
        let n = draw::most(random);
        let lists = sinks(random, kind, n);
        let waits = DelayKind::GOOD[session.round() % DelayKind::GOOD.len()];
        for waits in [DelayKind::Zero, waits] {
            check_joining(session, &Pins::of_kind(random, lists.clone(), waits));
        }
    }
}

/// Delays of every kind on a few sinks and on up to a hundred.
fn join_delays(session: &mut Session, random: &mut Random) {
    for n in [session.small(), 15 + random.below(86)] {
        for pins in draw::every_delay(random, n) {
            check_joining(session, &pins);
        }
    }
}

/// Budgets near 0 and near F(n), two random ones, and the greatest.
fn budgets(random: &mut Random, n: usize) -> Vec<u64> {
    let full = full_steps(n);
    let mut budgets: Vec<u64> = (0..4).collect();
    budgets.extend(full.saturating_sub(3)..full + 3);
    budgets.extend([budget(random, n), budget(random, n)]);
    budgets.push(random.next_bits() % (full + 1));
    budgets.extend([full + (1 << 32), 1 << 63, u64::MAX - 1, u64::MAX]);
    budgets
}

fn search_budgets(session: &mut Session, random: &mut Random) {
    let n = session.small();
    for pins in draw::every_good_pins(random, n) {
        for budget in budgets(random, n) {
            let mut task = Task::new(Call::Search, pins.clone()).with_budget(budget);
            if random.below(2) == 0 {
                task.room = task.room.longer(random);
            }
            session.check(&task);
        }
    }
}

fn search_every_budget(session: &mut Session, random: &mut Random) {
    let n = 1 + session.round() % 6;
    let pins = draw::good_pins(random, n);
    for budget in 0..full_steps(n) + 2 {
        let task = Task::new(Call::Search, pins.clone()).with_budget(budget);
        session.check(&task);
    }
}

fn search_rooms(session: &mut Session, random: &mut Random) {
    let n = session.small();
    let pins = draw::good_pins(random, n);
    let budget = budget(random, n);
    let task = Task::new(Call::Search, pins).with_budget(budget);
    task.check_rooms(session, random);
}

fn search_bad(session: &mut Session, random: &mut Random) {
    let n = session.small();
    let mut all = draw::bad_pins(random, n);
    // More than 12 sinks come before a coordinate or a delay outside its
    // range.
    all.extend(draw::bad_pins(random, MOST_SEARCHED + 1));
    if session.round() % 8 == 3 {
        all.extend(draw::odd_pins(random));
    }
    for pins in all {
        let budget = random.pick(&[0, 7, u64::MAX]);
        let task = Task::new(Call::Search, pins).with_budget(budget);
        task.check_rooms(session, random);
    }
}

/// Delays of every kind, proven, one step short of it, and with any budget.
fn search_delays(session: &mut Session, random: &mut Random) {
    let n = 1 + session.round() % MOST_SEARCHED;
    for pins in draw::every_delay(random, n) {
        let full = full_steps(n);
        for budget in [full, full.saturating_sub(1), budget(random, n)] {
            session.check(&Task::new(Call::Search, pins.clone()).with_budget(budget));
        }
    }
}
