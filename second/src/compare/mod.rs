//! The proved library against the reference, on inputs drawn from one seed.
//!
//! Each case draws its inputs from the seed, its own name and the round, so
//! that a run is the same whenever seed and rounds are, and that a new case
//! leaves the inputs of the others as they were. Every round reaches every
//! kind of case (`every`); the other cases go farther than that by chance.

mod arrival;
mod draw;
mod every;
mod files;
mod kinds;
mod lent;
mod lines;
pub mod options;
mod plane;
mod session;
mod trees;

use crate::generate::Random;
use options::Options;
use session::Session;

/// A named source of checks, which draws what it checks.
type Case = (&'static str, fn(&mut Session, &mut Random));

/// Runs all rounds, prints differences, how often each kind of case was
/// reached, and a last line with the counts; gives whether nothing failed.
pub fn run(options: Options) -> bool {
    let (seed, rounds) = (options.seed, options.rounds);
    println!("seed {seed}, rounds {rounds}");
    let mut session = Session::new(options);
    let families = [
        every::CASES,
        plane::CASES,
        trees::CASES,
        arrival::CASES,
        files::CASES,
        lines::CASES,
    ];
    let cases: Vec<&Case> = families.into_iter().flatten().collect();
    for round in 0..rounds {
        for (name, draw_and_check) in &cases {
            let mut random = Random::new(mixed(seed, round, name));
            session.enter(name, round);
            draw_and_check(&mut session, &mut random);
        }
    }
    print!("{}", session.report());
    println!("{}", session.summary());
    session.is_clean()
}

/// A seed of its own for every case of every round.
fn mixed(seed: u64, round: usize, name: &str) -> u64 {
    let step = |state: u64, more: u64| Random::new(state ^ more).next_bits();
    let start = step(step(0, seed), round as u64);
    name.bytes()
        .fold(start, |state, byte| step(state, u64::from(byte)))
}
