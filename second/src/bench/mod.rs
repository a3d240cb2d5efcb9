//! The proved library timed against the reference, and against peers in C
//! tuned for speed alone, in one process.

mod sides;

use crate::compare::options::number;
use crate::generate::{Random, SinkKind};
use crate::plane::MOST_DELAY;
use sides::{Input, Side, Work};
use std::time::{Duration, Instant};

/// Inputs drawn for each line of the table; the runs take them in turn. No
/// number of sides divides it, so that each begins on each input in its turn.
const INPUTS: usize = 7;
/// Most runs of each side, and fewest where a run takes long.
const MOST_RUNS: usize = 401;
const FEWEST_RUNS: usize = 9;
/// Calls in one timed run where a call is too short for the clock.
const MANY: u32 = 100;
/// Time after which no further run of a line is begun.
const ENOUGH: Duration = Duration::from_secs(2);

/// The seed in the words after `bench`, or what is wrong with them.
pub fn seed_of_words(words: &[&str]) -> Result<u64, String> {
    match words {
        [] => Ok(1),
        ["--seed", value] => number("--seed", value),
        _ => Err("bench takes only --seed S".to_string()),
    }
}

/// The inputs that joining is timed on.
const JOINED: [(&str, SinkKind); 7] = [
    ("uniform", SinkKind::Uniform),
    ("one place", SinkKind::OnePlace),
    ("line, even", SinkKind::EvenLine),
    ("line, random", SinkKind::Collinear),
    ("lattice", SinkKind::Regular),
    ("pairs of clusters", SinkKind::ClusterPairs),
    ("shared partner", SinkKind::SharedPartner),
];

/// Prints what was measured and the tables.
pub fn run(seed: u64) {
    let build = if cfg!(debug_assertions) {
        "DEBUG build"
    } else {
        "release build"
    };
    println!(
        "Measured: {build}, one process, {INPUTS} inputs a line, uniform random by seed {seed} \
         and without delay unless named otherwise; delays uniform random; all sides in turn on the same input, the one that begins \
         changing from run to run; buffers not cleared between runs; ratio of the median times. \
         A run is one call, and {MANY} calls for the check of sinks; times are those of one call. \
         The peer is C at -O3, tuned for speed alone.\n"
    );
    println!(
        "| call | n | runs | proved, µs | reference, µs | peer, µs | proved / reference | \
         proved / peer |"
    );
    println!("|---|---:|---:|---:|---:|---:|---:|---:|");
    let line = |name: &str, n, calls, sides: &[Side]| {
        let measured = measure(seed, SinkKind::Uniform, n, 0, calls, sides);
        println!("{}", measured.row(name, n));
    };
    let delayed = |name: &str, n, sides: &[Side]| {
        let measured = measure(seed, SinkKind::Uniform, n, MOST_DELAY, 1, sides);
        println!("{}", measured.row(&format!("{name}, delays"), n));
    };
    line("check of sinks", 64, MANY, &sides::CHECK);
    line("check of sinks", 512, MANY, &sides::CHECK);
    line("embed", 512, 1, &sides::EMBED);
    delayed("embed", 512, &sides::EMBED);
    line("search", 8, 1, &sides::SEARCH);
    line("search", 10, 1, &sides::SEARCH);
    line("search", 12, 1, &sides::SEARCH);
    delayed("search", 12, &sides::SEARCH);
    line("read a tree file", 512, 1, &sides::READ);
    line("write a tree file", 512, 1, &sides::WRITE);
    line("join: uniform", 64, 1, &sides::JOIN);
    delayed("join: uniform", 256, &sides::JOIN);
    let mut growths = vec![];
    for (input, kind) in JOINED {
        let [half, full] = [256, 512].map(|n| {
            let measured = measure(seed, kind, n, 0, 1, &sides::JOIN);
            println!("{}", measured.row(&format!("join: {input}"), n));
            measured
        });
        growths.push(full.growth(input, &half));
    }
    println!("\nGrowth of joining from 256 to 512 sinks:\n");
    println!("| input | proved | reference | peer |\n|---|---:|---:|---:|");
    for growth in growths {
        println!("{growth}");
    }
}

/// The median times of a line in microseconds, in the order of the sides.
struct Measured {
    runs: usize,
    medians: Vec<f64>,
}

impl Measured {
    /// A line of the table; without a peer its columns have a stroke.
    fn row(&self, name: &str, n: usize) -> String {
        let runs = self.runs;
        let (proved, reference) = (self.medians[0], self.medians[1]);
        let versus_reference = proved / reference;
        let (peer, versus_peer) = match self.medians.get(2) {
            Some(peer) => (format!("{peer:.2}"), format!("{:.2}", proved / peer)),
            None => ("-".to_string(), "-".to_string()),
        };
        format!(
            "| {name} | {n} | {runs} | {proved:.2} | {reference:.2} | {peer} | \
             {versus_reference:.2} | {versus_peer} |"
        )
    }

    /// A line with how many times longer each side took than for `half`.
    fn growth(&self, name: &str, half: &Measured) -> String {
        let ratios = self.medians.iter().zip(&half.medians);
        let cells: Vec<String> = ratios.map(|(f, h)| format!("{:.2}", f / h)).collect();
        format!("| {name} | {} |", cells.join(" | "))
    }
}

/// Times all sides on inputs of one kind with delays up to `most_delay`, with
/// so many calls in a timed run.
fn measure(
    seed: u64,
    kind: SinkKind,
    n: usize,
    most_delay: u32,
    calls: u32,
    sides: &[Side],
) -> Measured {
    let mut random = Random::new(seed);
    let draw = |_| Input::draw(&mut random, kind, n);
    let mut inputs: Vec<Input> = (0..INPUTS).map(draw).collect();
    // Drawn last, so that the sinks are the same with and without delays.
    for input in &mut inputs {
        input.delay(&mut random, most_delay);
    }
    let mut works: Vec<Work> = sides.iter().map(|_| Work::new(n)).collect();
    let mut times = vec![vec![]; sides.len()];
    let start = Instant::now();
    let mut runs = 0;
    while runs < MOST_RUNS && (runs < FEWEST_RUNS || start.elapsed() < ENOUGH) {
        let taken = run_sides(sides, runs, calls, &inputs[runs % INPUTS], &mut works);
        for (times, time) in times.iter_mut().zip(taken) {
            times.push(time);
        }
        runs += 1;
    }
    let medians = times.into_iter().map(median).collect();
    Measured { runs, medians }
}

/// The times of one run of each side, beginning with the one whose turn it
/// is; makes sure that all of them say and fill in the same.
fn run_sides(
    sides: &[Side],
    turn: usize,
    calls: u32,
    input: &Input,
    works: &mut [Work],
) -> Vec<Duration> {
    let mut outcomes = vec![(0, Duration::ZERO); sides.len()];
    for step in 0..sides.len() {
        let at = (turn + step) % sides.len();
        outcomes[at] = timed(sides[at], calls, input, &mut works[at]);
    }
    for at in 1..sides.len() {
        assert_eq!(outcomes[0].0, outcomes[at].0, "side {at}: unlike answers");
        assert!(works[0] == works[at], "side {at}: unlike buffers");
    }
    outcomes.into_iter().map(|(_, time)| time).collect()
}

/// What the last call says, and the time of one call. Kept a function of its
/// own, so that the side is any side here and no call can be left out.
#[inline(never)]
fn timed(side: Side, calls: u32, input: &Input, work: &mut Work) -> (u64, Duration) {
    let mut said = 0;
    let start = Instant::now();
    for _ in 0..calls {
        said = side(input, work);
    }
    (said, start.elapsed() / calls)
}

/// The median in microseconds.
fn median(mut times: Vec<Duration>) -> f64 {
    times.sort_unstable();
    times[times.len() / 2].as_secs_f64() * 1e6
}

#[cfg(test)]
mod tests {
    use super::*;

    #[test]
    fn lines_have_a_stroke_where_there_is_no_peer() {
        let half = Measured {
            runs: 9,
            medians: vec![3.0, 2.0],
        };
        assert_eq!(
            half.row("call", 8),
            "| call | 8 | 9 | 3.00 | 2.00 | - | 1.50 | - |"
        );
        let full = Measured {
            runs: 7,
            medians: vec![12.0, 4.0, 3.0],
        };
        let row = "| call | 16 | 7 | 12.00 | 4.00 | 3.00 | 3.00 | 4.00 |";
        assert_eq!(full.row("call", 16), row);
        assert_eq!(full.growth("call", &full), "| call | 1.00 | 1.00 | 1.00 |");
    }

    /// The times are nobody's business here, but that the sides agree is:
    /// without delays, with small ones, so that many diameters tie, and with
    /// any.
    fn agree(random: &mut Random, kind: SinkKind, n: usize, sides: &[Side]) {
        let mut input = Input::draw(random, kind, n);
        for most_delay in [0, 3, MOST_DELAY] {
            input.delay(random, most_delay);
            let mut works: Vec<Work> = sides.iter().map(|_| Work::new(n)).collect();
            assert_eq!(
                run_sides(sides, n, 1, &input, &mut works).len(),
                sides.len()
            );
        }
    }

    #[test]
    fn all_sides_agree_on_every_kind() {
        let mut random = Random::new(91);
        agree(&mut random, SinkKind::Uniform, 512, &sides::JOIN);
        for kind in SinkKind::GOOD {
            agree(&mut random, kind, 512, &sides::EMBED);
            for n in (1..70).chain([256]) {
                agree(&mut random, kind, n, &sides::EMBED);
                agree(&mut random, kind, n, &sides::JOIN);
                if n <= 12 {
                    agree(&mut random, kind, n, &sides::SEARCH);
                }
            }
        }
    }
}
