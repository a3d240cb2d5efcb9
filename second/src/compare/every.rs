//! Every kind of case of trees, files and lines, in every round: what the
//! other cases come by is left to chance and to the number of rounds.

use super::arrival::check_trees;
use super::draw::{self, Lists, Pins};
use super::files::{file_with, Read, Write};
use super::lines;
use super::plane::BoxOf;
use super::session::Session;
use super::trees::{Call, Task};
use super::Case;
use crate::files::Kind;
use crate::generate::{budget, damaged_joins, good_joins, JoinDamage, Random};
use crate::lines::MOST_INPUT;
use crate::plane::MOST_SEARCHED;
use crate::search::full_steps;

/// The cases of this family.
pub const CASES: &[Case] = &[
    ("every number of sinks", every_number),
    ("every refusal of sinks", every_refusal),
    ("every refusal of orders", every_bad_order),
    ("every refusal of room", every_room),
    ("every refusal of files", every_bad_file),
    ("every spread", every_spread),
    ("every sort of delays", every_delays),
    ("every sort of budgets", every_budget),
    ("every number of arrivals", every_arrival),
];

/// All calls that take delays, on the same sinks.
fn check_building(session: &mut Session, random: &mut Random, pins: &Pins) {
    session.check(&BoxOf { pins: pins.clone() });
    for call in Call::ALL {
        session.check(&task(random, call, pins.clone()));
    }
}

/// A call in the room that it needs, with a good order and any budget.
fn task(random: &mut Random, call: Call, pins: Pins) -> Task {
    let n = pins.x.len();
    let task = Task::new(call, pins);
    match call {
        Call::Embed => task.with_joins(good_joins(random, n)),
        Call::Search => task.with_budget(budget(random, n.min(MOST_SEARCHED))),
        _ => task,
    }
}

/// All writers and readers, the program and its call, on the same sinks.
fn check_filing(session: &mut Session, random: &mut Random, lists: &Lists) {
    let n = lists.0.len();
    let joins = good_joins(random, n);
    for kind in Kind::ALL {
        session.check(&Write::new(kind, lists.clone(), joins.clone()));
        session.check(&Read::new(kind, file_with(kind, lists, &joins), n));
    }
    lines::check(session, &lines::sink_file(lists));
}

fn check_all(session: &mut Session, random: &mut Random, pins: &Pins) {
    check_building(session, random, pins);
    check_filing(session, random, &(pins.x.clone(), pins.y.clone()));
}

/// The least and the greatest number that each call accepts, and one more.
fn every_number(session: &mut Session, random: &mut Random) {
    for n in [1, 12, 13, 512, 513] {
        let pins = draw::good_pins(random, n);
        check_all(session, random, &pins);
    }
}

/// A few sinks, enough for a join of joins and not too many for a search.
fn few(random: &mut Random) -> usize {
    4 + random.below(9)
}

fn every_refusal(session: &mut Session, random: &mut Random) {
    let n = few(random);
    for pins in draw::refused_pins(random, n) {
        check_all(session, random, &pins);
    }
}

/// Good sinks with an order that is bad in each way.
fn every_bad_order(session: &mut Session, random: &mut Random) {
    let n = few(random);
    let pins = draw::good_pins(random, n);
    let lists = (pins.x.clone(), pins.y.clone());
    for damage in JoinDamage::ALL {
        let joins = damaged_joins(random, n, damage);
        session.check(&Task::new(Call::Embed, pins.clone()).with_joins(joins.clone()));
        for kind in [Kind::Joined, Kind::Tree] {
            session.check(&Write::new(kind, lists.clone(), joins.clone()));
            session.check(&Read::new(kind, file_with(kind, &lists, &joins), n));
        }
    }
}

/// Every call that is lent a list, with each of its lists too short.
fn every_room(session: &mut Session, random: &mut Random) {
    let n = few(random);
    let pins = draw::good_pins(random, n);
    for call in Call::ALL {
        task(random, call, pins.clone()).check_rooms(session, random);
    }
    let lists = (pins.x, pins.y);
    let joins = good_joins(random, n);
    for kind in Kind::ALL {
        Write::new(kind, lists.clone(), joins.clone()).check_rooms(session, random);
        let file = file_with(kind, &lists, &joins);
        Read::new(kind, file, n).check_rooms(session, random);
    }
}

/// Files cut short, too long for the program, or of another tree.
fn every_bad_file(session: &mut Session, random: &mut Random) {
    let n = few(random);
    let lists = draw::good(random, n);
    let joins = good_joins(random, n);
    for kind in Kind::ALL {
        let mut file = file_with(kind, &lists, &joins);
        file.pop();
        session.check(&Read::new(kind, file, n));
    }
    let mut tree = file_with(Kind::Tree, &lists, &joins);
    let last = tree.len() - 1;
    tree[last] ^= 1;
    session.check(&Read::new(Kind::Tree, tree, n));
    let mut without = file_with(Kind::Joined, &lists, &joins);
    without.extend([4, 0, 0, 5, 0, 0]);
    session.check(&Read::new(Kind::Tree, without, n));
    let mut sinks = lines::sink_file(&lists);
    sinks.resize(MOST_INPUT + 1, 0);
    lines::check(session, &sinks);
    lines::check(session, &sinks[..7 + random.below(8 * n)]);
}

fn every_spread(session: &mut Session, random: &mut Random) {
    let n = few(random);
    for lists in draw::every_spread(random, n) {
        let pins = Pins::delayed(random, lists);
        check_all(session, random, &pins);
    }
}

fn every_delays(session: &mut Session, random: &mut Random) {
    let n = few(random);
    for pins in draw::every_sort_of_delays(random, n) {
        check_building(session, random, &pins);
    }
}

/// For each number of sinks no step, some, all but one, all, and more.
fn every_budget(session: &mut Session, random: &mut Random) {
    for n in 1..=MOST_SEARCHED {
        let full = full_steps(n);
        let some = 1 + random.next_bits() % full.saturating_sub(2).max(1);
        let more = full.saturating_add(1 + random.next_bits() % (1 << 40));
        for budget in [0, some, full.saturating_sub(1), full, more] {
            let pins = draw::good_pins(random, n);
            session.check(&Task::new(Call::Search, pins).with_budget(budget));
        }
    }
}

fn every_arrival(session: &mut Session, random: &mut Random) {
    for n in [1, 12, 13, 512] {
        let pins = draw::good_pins(random, n);
        check_trees(session, random, pins);
    }
}
