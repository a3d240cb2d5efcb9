//! The table P1 to P12, case D and the example in C, byte for byte.

mod common;

use common::{delayed_searched, searched, treed, Answer};
use second::files::write_sinks;
use second::generate::{sinks, Random, SinkKind};
use second::lines::tree_lines;
use second::plane::diameter_of_sinks;
use second::refusal::Refusal;
use second::search::full_steps;
use second::segment::Place;

const LINE: ([i32; 3], [i32; 3]) = ([0, 2, 10], [0, 0, 0]);
const CASE_D: ([i32; 4], [i32; 4]) = ([0, 4, 7, 11], [0, 0, 0, 0]);

fn search_on(sinks: (&[i32], &[i32]), budget: u64) -> Answer {
    searched(sinks.0, sinks.1, budget).unwrap()
}

#[test]
fn p1_no_sinks() {
    assert_eq!(treed(&[], &[], &[]).unwrap_err(), Refusal::NoSink);
    assert_eq!(searched(&[], &[], 5).unwrap_err(), Refusal::NoSink);
}

#[test]
fn p2_one_sink() {
    let answer = search_on((&[3], &[-5]), 0);
    assert_eq!((answer.u[0], answer.v[0]), (-4, 16));
    assert_eq!((answer.total, answer.steps, answer.proven), (0, 0, true));
    assert_eq!(answer.table, [0, 0]);
    assert!(answer.pairs.is_empty());
}

#[test]
fn p3_two_sinks() {
    let answer = treed(&[0, 4], &[0, 0], &[0, 1]).unwrap();
    assert_eq!((answer.u[2], answer.v[2]), (4, 4));
    assert_eq!((answer.wires, answer.total), (vec![4, 4, 0], 8));
}

#[test]
fn p4_the_half_is_kept() {
    let answer = treed(&[0, 3], &[0, 2], &[0, 1]).unwrap();
    assert_eq!(diameter_of_sinks(&[0, 3], &[0, 2], &[0, 0]), Ok(5));
    assert_eq!((answer.u[2], answer.v[2], answer.total), (5, -3, 10));
    assert_eq!(answer.place(2).quarters(), (2, 8));
}

#[test]
fn p5_and_p6_joining_orders() {
    let p5 = treed(&LINE.0, &LINE.1, &[0, 1, 3, 2]).unwrap();
    assert_eq!((p5.wires, p5.total), (vec![2, 2, 10, 8, 0], 22));
    let p6 = treed(&LINE.0, &LINE.1, &[0, 2, 3, 1]).unwrap();
    assert_eq!(p6.total, 30);
    let distance = Place::distance(p6.place(1), p6.place(4));
    assert_eq!(i64::from(p6.wires[1]) - distance, 4);
}

#[test]
fn p7_p8_p9_budgets() {
    let line: (&[i32], &[i32]) = (&LINE.0, &LINE.1);
    assert_eq!(search_on(line, 4).table[7], 18);
    let p8 = search_on(line, 5);
    assert_eq!((p8.table[7], p8.proven, p8.steps), (12, false, 5));
    let p9 = search_on(line, 6);
    assert_eq!((p9.total, p9.proven, p9.steps), (22, true, 6));
}

#[test]
fn p10_case_d_budgets() {
    let case: (&[i32], &[i32]) = (&CASE_D.0, &CASE_D.1);
    let short = search_on(case, 24);
    assert_eq!(short.pairs, [1, 2, 0, 4, 3, 5]);
    assert_eq!((short.total, short.proven, short.steps), (32, false, 24));
    let full = search_on(case, 25);
    assert_eq!((full.total, full.proven, full.steps), (30, true, 25));
    assert_eq!(full.pairs, [0, 1, 2, 3, 4, 5]);
}

#[test]
fn p11_the_range() {
    let edge = treed(&[1_000_000], &[-1_000_000], &[]).unwrap();
    assert_eq!((edge.u[0], edge.v[0], edge.total), (0, 4_000_000, 0));
    let beyond = treed(&[1_000_001], &[0], &[]).unwrap_err();
    assert_eq!(beyond, Refusal::OutOfRange(0));
}

#[test]
fn p12_the_search_limit() {
    let (x, y) = sinks(&mut Random::new(1), SinkKind::Uniform, 13);
    assert!(search_on((&x[..12], &y[..12]), u64::MAX).proven);
    assert_eq!(searched(&x, &y, 0).unwrap_err(), Refusal::TooManySinks);
    assert_eq!(full_steps(12), 261_625);
}

const FILE_D: &str = "01000101 020020 0000000000000000 0000000400000000 \
                      0000000700000000 0000000B00000000";

const LINES_D: &str = "sinks 4 wire 30 proven
((0 1) (2 3))
0 0 0 4 4
1 8 8 4 4
2 14 14 4 5
3 22 22 4 5
4 4 4 7 6
5 18 18 7 6
6 11 11 0 -
";

fn bytes_of(hex: &str) -> Vec<u8> {
    let digits: Vec<u32> = hex.chars().filter_map(|c| c.to_digit(16)).collect();
    let byte = |two: &[u32]| (16 * two[0] + two[1]) as u8;
    digits.chunks_exact(2).map(byte).collect()
}

#[test]
fn case_d_byte_for_byte() {
    let file = bytes_of(FILE_D);
    let mut out = [0xEE; 41];
    let written = write_sinks(&CASE_D.0, &CASE_D.1, &mut out);
    assert_eq!(written, Ok(39));
    assert_eq!(out[..39], file[..]);
    assert_eq!(out[39..], [0xEE; 2]);
    assert_eq!(tree_lines(&file), LINES_D);
}

/// What examples/embed.c prints, by the comment at its head.
fn example_text() -> String {
    let source = include_str!("../../examples/embed.c");
    let comment = source.split("*/").next().unwrap();
    let printed = comment.split(" * Prints").nth(1).unwrap();
    let lines = printed
        .lines()
        .filter_map(|line| line.strip_prefix(" *   "));
    lines.map(|line| format!("{line}\n")).collect()
}

#[test]
fn the_example_in_c_prints_what_the_reference_finds() {
    let (x, y, w) = ([0, 4, 7, 11], [0; 4], [0, 0, 0, 3]);
    let found = delayed_searched(&x, &y, &w, u64::MAX).unwrap();
    let mut reached = [0; 7];
    for (at, &child) in found.pairs.iter().enumerate().rev() {
        reached[child as usize] = reached[4 + at / 2] + found.wires[child as usize];
    }
    let (total, steps) = (found.total, found.steps);
    let mut text = format!("total {total}, proven in {steps} steps\n");
    for node in 0..7 {
        let (u, v, wire) = (found.u[node], found.v[node], found.wires[node]);
        text += &format!("node {node}: U {u}, V {v}, wire {wire}");
        text += &if node < 4 {
            format!(", path {} plus delay {}\n", reached[node], 2 * w[node])
        } else {
            let at = 2 * (node - 4);
            let (a, b) = (found.pairs[at], found.pairs[at + 1]);
            format!(", joins {a} and {b}\n")
        };
    }
    assert_eq!(example_text(), text);
}
