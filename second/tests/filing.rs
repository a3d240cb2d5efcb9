//! House files: round trips, refusals with their places, program lines.

use second::files::*;
use second::generate::*;
use second::lines::tree_lines;
use second::refusal::Refusal;

const N: usize = 3;
const X: [i32; N] = [0, 4, 7];
const Y: [i32; N] = [0, -2, 1];
const JOINS: [u16; 4] = [0, 1, 3, 2];

fn written(kind: Kind, x: &[i32], y: &[i32], joins: &[u16]) -> Result<Vec<u8>, Refusal> {
    let mut out = vec![0xEE; kind.file_length(x.len())];
    let length = match kind {
        Kind::Sinks => write_sinks(x, y, &mut out),
        Kind::Joined => write_joined(x, y, joins, &mut out),
        Kind::Tree => write_tree(x, y, joins, &mut out),
    }?;
    assert_eq!(length, out.len());
    Ok(out)
}

fn small(kind: Kind) -> Vec<u8> {
    written(kind, &X, &Y, &JOINS).unwrap()
}

/// A reader's answer and its buffers, which were full of sevens.
#[derive(Debug, PartialEq, Eq)]
struct Read {
    answer: Result<usize, Refusal>,
    x: Vec<i32>,
    y: Vec<i32>,
    joins: Vec<u16>,
}

fn read_into(kind: Kind, file: &[u8], lengths: [usize; 3]) -> Read {
    let mut x = vec![7; lengths[0]];
    let mut y = vec![7; lengths[1]];
    let mut joins = vec![7; lengths[2]];
    let answer = match kind {
        Kind::Sinks => read_sinks(file, &mut x, &mut y),
        Kind::Joined => read_joined(file, &mut x, &mut y, &mut joins),
        Kind::Tree => read_tree(file, &mut x, &mut y, &mut joins),
    };
    Read {
        answer,
        x,
        y,
        joins,
    }
}

/// The refusal of a file, with the buffers seen to be untouched.
fn refusal(kind: Kind, file: &[u8]) -> Refusal {
    refusal_with(kind, file, [520, 520, 1040])
}

fn refusal_with(kind: Kind, file: &[u8], lengths: [usize; 3]) -> Refusal {
    let read = read_into(kind, file, lengths);
    assert!(read.x.iter().chain(&read.y).all(|&e| e == 7));
    assert!(read.joins.iter().all(|&e| e == 7));
    read.answer.unwrap_err()
}

fn form(offset: usize) -> Refusal {
    Refusal::NotOfTheForm(offset)
}

#[test]
fn files_of_all_kinds_come_back() {
    let mut random = Random::new(201);
    for n in (1..30).chain([511, 512]) {
        for spread in SinkKind::GOOD {
            let (x, y) = sinks(&mut random, spread, n);
            let joins = good_joins(&mut random, n);
            check_round_trips(&x, &y, &joins);
        }
    }
}

/// Writes files of all kinds and reads them into buffers with room to spare.
fn check_round_trips(x: &[i32], y: &[i32], joins: &[u16]) {
    let n = x.len();
    for kind in Kind::ALL {
        let file = written(kind, x, y, joins).unwrap();
        let read = read_into(kind, &file, [n + 2, n + 1, 2 * n]);
        assert_eq!(read.answer, Ok(n));
        assert_eq!((&read.x[..n], &read.y[..n]), (x, y));
        assert_eq!((&read.x[n..], &read.y[n..]), (&[7, 7][..], &[7][..]));
        let names = if kind == Kind::Sinks { 0 } else { 2 * n - 2 };
        assert_eq!(read.joins[..names], joins[..names]);
        assert!(read.joins[names..].iter().all(|&e| e == 7));
    }
}

#[test]
fn files_of_pins_on_shared_places_come_back() {
    check_round_trips(&[3, 3], &[-5, -5], &[0, 1]);
    check_round_trips(&[0, 10, 0, 10], &[0; 4], &[0, 2, 1, 3, 4, 5]);
    check_round_trips(&[0, 10, 0, 10], &[0; 4], &[1, 0, 3, 2, 5, 4]);
}

#[test]
fn the_longest_tree_file_has_18432_bytes() {
    assert_eq!(Kind::Tree.file_length(512), 18_432);
}

#[test]
fn a_short_tree_file_byte_for_byte() {
    let file = written(Kind::Tree, &[0, 4], &[0, 0], &[0, 1]).unwrap();
    let mut expected = vec![1, 0, 1, 1, 2, 0, 16];
    expected.extend([0, 0, 0, 0, 0, 0, 0, 0, 0, 0, 0, 4, 0, 0, 0, 0]);
    expected.extend([3, 0, 4, 0, 0, 0, 1, 4, 0, 24]);
    expected.extend([0, 0, 0, 0, 0, 0, 0, 0, 0, 0, 0, 8, 0, 0, 0, 8]);
    expected.extend([0, 0, 0, 4, 0, 0, 0, 4, 5, 0, 12]);
    expected.extend([0, 0, 0, 4, 0, 0, 0, 4, 0, 0, 0, 0]);
    assert_eq!(file, expected);
}

#[test]
fn a_tree_file_of_two_pins_on_one_place_byte_for_byte() {
    let file = written(Kind::Tree, &[1, 1], &[0, 0], &[0, 1]).unwrap();
    let mut expected = vec![1, 0, 1, 1, 2, 0, 16];
    expected.extend([0, 0, 0, 1, 0, 0, 0, 0].repeat(2));
    expected.extend([3, 0, 4, 0, 0, 0, 1, 4, 0, 24]);
    expected.extend([0, 0, 0, 2, 0, 0, 0, 2].repeat(3));
    expected.extend([5, 0, 12]);
    expected.extend([0; 12]);
    assert_eq!(file, expected);
    // A wire where none is needed is not what embedding gives.
    *expected.last_mut().unwrap() = 1;
    let root = Refusal::NotTheEmbedding(Some(2));
    assert_eq!(refusal(Kind::Tree, &expected), root);
}

/// Offsets of the tags of a tree file of `n` sinks, then its length.
fn tag_offsets(n: usize) -> [usize; 6] {
    let third = 7 + 8 * n;
    let fourth = third + 3 + 4 * (n - 1);
    let fifth = fourth + 3 + 8 * (2 * n - 1);
    [0, 4, third, fourth, fifth, 36 * n]
}

#[test]
fn truncation_at_every_length_is_refused() {
    let file = small(Kind::Tree);
    let offsets = tag_offsets(N);
    assert_eq!(offsets[5], file.len());
    for length in 0..file.len() {
        let tag = *offsets.iter().rfind(|&&o| o <= length).unwrap();
        let expected = if length < tag + 3 { length } else { tag };
        assert_eq!(refusal(Kind::Tree, &file[..length]), form(expected));
    }
}

#[test]
fn a_byte_too_many_is_at_the_end() {
    for kind in Kind::ALL {
        let mut file = small(kind);
        let length = file.len();
        file.extend([9, 9]);
        assert_eq!(refusal(kind, &file), form(length));
    }
}

#[test]
fn one_kind_read_as_another() {
    let offsets = tag_offsets(N);
    assert_eq!(refusal(Kind::Sinks, &small(Kind::Joined)), form(offsets[2]));
    assert_eq!(refusal(Kind::Sinks, &small(Kind::Tree)), form(offsets[2]));
    assert_eq!(refusal(Kind::Joined, &small(Kind::Tree)), form(offsets[3]));
    for kind in [Kind::Joined, Kind::Tree] {
        let sinks = small(Kind::Sinks);
        assert_eq!(refusal(kind, &sinks), form(sinks.len()));
    }
    let joined = small(Kind::Joined);
    assert_eq!(refusal(Kind::Tree, &joined), form(joined.len()));
}

#[test]
fn forms_that_go_wrong_in_the_header() {
    let cases: [(&[u8], usize); 12] = [
        (&[], 0),
        (&[2], 0),
        (&[2, 0], 0),
        (&[1], 1),
        (&[1, 0], 2),
        (&[1, 0, 1], 0),
        (&[1, 0, 0], 0),
        (&[1, 0, 2, 1, 1], 0),
        (&[1, 0, 1, 2], 0),
        (&[1, 0, 1, 1, 3], 4),
        (&[1, 0, 1, 1, 2, 0, 4, 0, 0, 0, 0], 4),
        (&[1, 0, 1, 1, 2, 0, 8, 0, 0, 0, 0], 4),
    ];
    for (file, offset) in cases {
        for kind in Kind::ALL {
            assert_eq!(refusal(kind, file), form(offset), "{file:?}");
        }
    }
}

#[test]
fn lengths_that_are_no_multiple_give_their_tag() {
    let offsets = tag_offsets(N);
    for tag in 1..5 {
        let mut file = small(Kind::Tree);
        file[offsets[tag] + 2] ^= 2;
        assert_eq!(refusal(Kind::Tree, &file), form(offsets[tag]));
    }
}

/// A file of any fields, good or not.
fn fields(values: &[(u8, &[u8])]) -> Vec<u8> {
    let mut file = Vec::new();
    for (tag, value) in values {
        file.push(*tag);
        file.extend((value.len() as u16).to_be_bytes());
        file.extend(*value);
    }
    file
}

fn sink_value(sinks: &[(i32, i32)]) -> Vec<u8> {
    let record = |(x, y): &(i32, i32)| [x.to_be_bytes(), y.to_be_bytes()].concat();
    sinks.iter().flat_map(record).collect()
}

#[test]
fn sinks_are_checked_after_the_form() {
    let refused = |sinks: &[(i32, i32)]| {
        let file = fields(&[(1, &[1]), (2, &sink_value(sinks))]);
        refusal(Kind::Sinks, &file)
    };
    assert_eq!(refused(&[]), Refusal::NoSink);
    assert_eq!(refused(&[(0, 0); 513]), Refusal::TooManySinks);
    assert_eq!(refused(&[(0, 0), (0, -1_000_001)]), Refusal::OutOfRange(1));
    let twice_each = [(0, 0), (0, 0), (0, 1_000_001), (0, 1_000_001)];
    assert_eq!(refused(&twice_each), Refusal::OutOfRange(2));
    let mut bad = fields(&[(1, &[1]), (2, &sink_value(&[(0, 2_000_000)]))]);
    bad.push(0);
    assert_eq!(refusal(Kind::Sinks, &bad), form(15));
}

#[test]
fn joins_are_checked_after_the_sinks() {
    let sinks = sink_value(&[(0, 0), (4, 0), (9, 9)]);
    let refused = |pairs: &[u8]| {
        let file = fields(&[(1, &[1]), (2, &sinks), (3, pairs)]);
        refusal(Kind::Joined, &file)
    };
    assert_eq!(refused(&[]), Refusal::WrongJoins(0));
    assert_eq!(refused(&[0, 0, 0, 0]), Refusal::WrongJoins(1));
    assert_eq!(refused(&[0, 0, 0, 1, 0, 3, 0, 3]), Refusal::WrongJoins(1));
    assert_eq!(refused(&[0, 0, 0, 1, 0, 3, 128, 2]), Refusal::WrongJoins(1));
    assert_eq!(refused(&[0; 12]), Refusal::WrongJoins(2));
    // In a file half a pair is out of form.
    assert_eq!(refused(&[0, 0, 0, 1, 0, 3]), form(31));
    let none = fields(&[(1, &[1]), (2, &[]), (3, &[0; 4])]);
    assert_eq!(refusal(Kind::Joined, &none), Refusal::NoSink);
}

#[test]
fn wrong_counts_of_places_or_wires_have_no_place() {
    let offsets = tag_offsets(N);
    let good = small(Kind::Tree);
    let cut = |tag: usize| &good[offsets[tag - 1] + 3..offsets[tag]];
    let head: [(u8, &[u8]); 3] = [(1, cut(1)), (2, cut(2)), (3, cut(3))];
    let wrong = [0xFF; 48];
    let cases: [(&[u8], &[u8]); 6] = [
        (&[], cut(5)),
        (cut(4), &[]),
        (&cut(4)[8..], cut(5)),
        (cut(4), &cut(5)[4..]),
        // A wrong node is not looked at while a count is wrong.
        (&wrong[..40], &wrong[..16]),
        (&wrong, &wrong[..20]),
    ];
    for (places, wires) in cases {
        let file = fields(&[head[0], head[1], head[2], (4, places), (5, wires)]);
        assert_eq!(refusal(Kind::Tree, &file), Refusal::NotTheEmbedding(None));
    }
}

#[test]
fn the_lowest_wrong_node_over_both_tags() {
    let offsets = tag_offsets(N);
    let good = small(Kind::Tree);
    for (at, _) in good.iter().enumerate().skip(offsets[3] + 3) {
        let in_wires = at >= offsets[4];
        if in_wires && at < offsets[4] + 3 {
            continue;
        }
        let node = match in_wires {
            true => (at - offsets[4] - 3) / 4,
            false => (at - offsets[3] - 3) / 8,
        };
        let mut file = good.clone();
        file[at] ^= 128;
        let expected = Refusal::NotTheEmbedding(Some(node));
        assert_eq!(refusal(Kind::Tree, &file), expected);
    }
    let mut file = good;
    file[offsets[4] + 3 + 4] ^= 1;
    file[offsets[3] + 3 + 16] ^= 1;
    let lowest = Refusal::NotTheEmbedding(Some(1));
    assert_eq!(refusal(Kind::Tree, &file), lowest);
    // Number 9 comes before 7.
    assert_eq!(refusal_with(Kind::Tree, &file, [0; 3]), lowest);
}

#[test]
fn reading_needs_room_for_what_it_fills() {
    for kind in Kind::ALL {
        let names = if kind == Kind::Sinks { 0 } else { 4 };
        let enough = [N, N, names];
        assert_eq!(read_into(kind, &small(kind), enough).answer, Ok(N));
        for short in (0..3).filter(|&at| enough[at] > 0) {
            let mut lengths = enough;
            lengths[short] -= 1;
            let refused = refusal_with(kind, &small(kind), lengths);
            assert_eq!(refused, Refusal::ShortBuffer);
        }
    }
}

#[test]
fn writers_refuse_in_order_and_leave_the_bytes() {
    let mut out = [0xEE; 107];
    let cases: [(&[i32], &[u16], Refusal); 5] = [
        (&X[..2], &JOINS, Refusal::ListsDiffer),
        (&[0, 4, 1_000_001], &[], Refusal::OutOfRange(2)),
        (&[0, 4, -1_000_001], &[1], Refusal::OutOfRange(2)),
        (&X, &[0, 1, 3], Refusal::WrongJoins(1)),
        (&X, &JOINS, Refusal::ShortBuffer),
    ];
    for (x, joins, refusal) in cases {
        assert_eq!(write_tree(x, &Y, joins, &mut out), Err(refusal));
    }
    assert_eq!(
        write_joined(&X, &Y, &[0, 1, 0, 2], &mut out),
        Err(Refusal::WrongJoins(1))
    );
    assert_eq!(
        write_joined(&X, &Y, &JOINS, &mut out[..41]),
        Err(Refusal::ShortBuffer)
    );
    assert_eq!(
        write_sinks(&X, &Y, &mut out[..30]),
        Err(Refusal::ShortBuffer)
    );
    assert_eq!(write_sinks(&[], &[], &mut []), Err(Refusal::NoSink));
    assert_eq!(out, [0xEE; 107]);
}

#[test]
fn damaged_tree_files_are_refused() {
    let mut random = Random::new(202);
    let file = small(Kind::Tree);
    for damage in every_damage(&mut random, &file) {
        let bytes = damaged_file(&file, &damage);
        refusal(Kind::Tree, &bytes);
        if let FileDamage::Truncate(length) = damage {
            assert_eq!(bytes.len(), length);
        }
    }
}

#[test]
fn the_program_prints_refusals() {
    assert_eq!(tree_lines(&[]), "refused 8 0\n");
    assert_eq!(tree_lines(&[1, 0, 1, 2, 2, 0, 0]), "refused 8 0\n");
    assert_eq!(tree_lines(&[1, 0, 1, 1, 2, 0, 0]), "refused 2\n");
    assert_eq!(tree_lines(&small(Kind::Joined)), "refused 8 31\n");
    assert_eq!(tree_lines(&[0; 32_768]), "refused 8 0\n");
    assert_eq!(tree_lines(&[0; 32_769]), "refused input\n");
    let many = fields(&[(1, &[1]), (2, &[0; 8 * 513])]);
    assert_eq!(tree_lines(&many), "refused 3\n");
    let far = fields(&[(1, &[1]), (2, &[64; 8])]);
    assert_eq!(tree_lines(&far), "refused 4 0\n");
}

/// The program's text for these sinks.
fn lines_of(x: &[i32], y: &[i32]) -> String {
    tree_lines(&written(Kind::Sinks, x, y, &[]).unwrap())
}

#[test]
fn the_program_prints_pins_on_shared_places() {
    let two = "sinks 2 wire 0 proven
(0 1)
0 -4 16 0 2
1 -4 16 0 2
2 -4 16 0 -
";
    assert_eq!(lines_of(&[3, 3], &[-5, -5]), two);
    let three = "sinks 3 wire 4 proven
((0 2) 1)
0 0 0 0 3
1 4 0 2 4
2 0 0 0 3
3 0 0 2 4
4 2 -2 0 -
";
    assert_eq!(lines_of(&[0, 1, 0], &[0, 1, 0]), three);
    let four = "sinks 4 wire 20 proven
((0 2) (1 3))
0 0 0 0 4
1 20 20 0 5
2 0 0 0 4
3 20 20 0 5
4 0 0 10 6
5 20 20 10 6
6 10 10 0 -
";
    assert_eq!(lines_of(&[0, 10, 0, 10], &[0; 4]), four);
}

#[test]
fn the_program_prints_many_pins_on_one_place() {
    // The search keeps the first split, which parts off the lowest pin.
    let twelve = lines_of(&[1; 12], &[0; 12]);
    let start = "sinks 12 wire 0 proven
(0 (1 (2 (3 (4 (5 (6 (7 (8 (9 (10 11)))))))))))
0 2 2 0 22
";
    assert!(twelve.starts_with(start));
    // Joining by least diameter takes the two lowest live nodes in turn.
    let thirteen = lines_of(&[1; 13], &[0; 13]);
    let start = "sinks 13 wire 0 greedy
(((10 11) (12 (0 1))) (((2 3) (4 5)) ((6 7) (8 9))))
0 2 2 0 13
";
    assert!(thirteen.starts_with(start));
}

#[test]
fn the_program_prints_one_sink_and_thirteen() {
    let lone = written(Kind::Sinks, &[3], &[-5], &[]).unwrap();
    let lines = "sinks 1 wire 0 proven\n0\n0 -4 16 0 -\n";
    assert_eq!(tree_lines(&lone), lines);
    let x: Vec<i32> = (0..13).map(|i| i * i).collect();
    let file = written(Kind::Sinks, &x, &[0; 13], &[]).unwrap();
    let text = tree_lines(&file);
    assert!(text.starts_with("sinks 13 wire "));
    assert!(text.lines().next().unwrap().ends_with(" greedy"));
    assert_eq!(text.lines().count(), 27);
    let below = written(Kind::Sinks, &x[..12], &[0; 12], &[]).unwrap();
    let first = tree_lines(&below).lines().next().unwrap().to_string();
    assert!(first.starts_with("sinks 12 wire ") && first.ends_with(" proven"));
}
