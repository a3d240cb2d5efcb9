//! Writers and readers of the house files.

use super::draw;
use super::kinds::{self, Kind as CaseKind};
use super::lent::{told, Outcome, Parts, Room};
use super::session::{self, Session};
use super::Case;
use crate::files::{self, Kind};
use crate::form::put_field;
use crate::generate::{damaged_file, every_damage, file_damage, good_joins, FileDamage, Random};
use crate::proved::{self, Answer};
use crate::refusal::Refusal;

/// The cases of this family.
pub const CASES: &[Case] = &[
    ("write good", write_good),
    ("write bad", write_bad),
    ("write odd counts", write_odd_counts),
    ("write many", write_large),
    ("read rooms", read_rooms),
    ("read every damage", read_every_damage),
    ("read every byte value", read_every_value),
    ("read wrong kind", read_wrong_kind),
    ("read bad sinks and orders", read_bad_contents),
    ("read bad places and wires", read_bad_tree),
    ("read odd counts", read_odd_counts),
    ("read odd fields", read_odd_fields),
    ("read any bytes", read_any_bytes),
    ("read many", read_large),
];

/// A call of a writer.
#[derive(Clone, Debug)]
pub struct Write {
    kind: Kind,
    x: Vec<i32>,
    y: Vec<i32>,
    joins: Vec<u16>,
    room: Room,
}

impl Write {
    /// A writer lent exactly the bytes that its file has.
    pub fn new(kind: Kind, (x, y): draw::Lists, joins: Vec<u16>) -> Write {
        let n = x.len().clamp(1, 520);
        let room = Room {
            bytes: kind.file_length(n),
            ..Room::default()
        };
        Write {
            kind,
            x,
            y,
            joins,
            room,
        }
    }

    /// Checks the call in its own room and in every variant of it.
    pub fn check_rooms(mut self, session: &mut Session, random: &mut Random) {
        for room in self.room.variants(random) {
            self.room = room;
            session.check(&self);
        }
    }

    fn ask_reference(&self, lent: Parts<'_>) -> Answer {
        let written = match self.kind {
            Kind::Sinks => files::write_sinks(&self.x, &self.y, lent.bytes),
            Kind::Joined => files::write_joined(&self.x, &self.y, &self.joins, lent.bytes),
            Kind::Tree => files::write_tree(&self.x, &self.y, &self.joins, lent.bytes),
        };
        told_count(written)
    }
}

impl session::Task for Write {
    type Outcome = Outcome;

    fn describe(&self) -> String {
        format!("{self:?}")
    }

    fn reference(&self, salt: u64) -> Outcome {
        Outcome::of(self.room, salt, |lent| self.ask_reference(lent))
    }

    fn proved(&self, salt: u64) -> Outcome {
        Outcome::of(self.room, salt, |lent| {
            proved::write(self.kind, &self.x, &self.y, &self.joins, lent.bytes)
        })
    }

    fn tell(reference: &Outcome, proved: &Outcome) -> String {
        Outcome::tell(reference, proved)
    }

    fn kinds(&self, outcome: &Outcome) -> Vec<CaseKind> {
        let call = match self.kind {
            Kind::Sinks => "write_sinks",
            Kind::Joined => "write_joined",
            Kind::Tree => "write_tree",
        };
        kinds::of_sinks(call, outcome.answer, &self.x, &self.y)
    }
}

/// A call of a reader.
#[derive(Clone)]
pub struct Read {
    kind: Kind,
    file: Vec<u8>,
    room: Room,
}

impl Read {
    /// A reader of a file that holds `n` sinks, lent exactly what they fill.
    pub fn new(kind: Kind, file: Vec<u8>, n: usize) -> Read {
        let n = n.clamp(1, 520);
        let joins = if kind == Kind::Sinks { 0 } else { 2 * (n - 1) };
        let room = Room {
            joins,
            x: n,
            y: n,
            ..Room::default()
        };
        Read { kind, file, room }
    }

    /// Checks the call in its own room and in every variant of it.
    pub fn check_rooms(mut self, session: &mut Session, random: &mut Random) {
        for room in self.room.variants(random) {
            self.room = room;
            session.check(&self);
        }
    }

    fn ask_reference(&self, lent: Parts<'_>) -> Answer {
        told_count(match self.kind {
            Kind::Sinks => files::read_sinks(&self.file, lent.x, lent.y),
            Kind::Joined => files::read_joined(&self.file, lent.x, lent.y, lent.joins),
            Kind::Tree => files::read_tree(&self.file, lent.x, lent.y, lent.joins),
        })
    }
}

impl session::Task for Read {
    type Outcome = Outcome;

    fn describe(&self) -> String {
        let Read { kind, file, room } = self;
        let bytes = hex(file);
        format!("read as {kind:?}, {room:?}, file {bytes}")
    }

    fn reference(&self, salt: u64) -> Outcome {
        Outcome::of(self.room, salt, |lent| self.ask_reference(lent))
    }

    fn proved(&self, salt: u64) -> Outcome {
        Outcome::of(self.room, salt, |lent| {
            proved::read(self.kind, &self.file, lent.x, lent.y, lent.joins)
        })
    }

    fn tell(reference: &Outcome, proved: &Outcome) -> String {
        Outcome::tell(reference, proved)
    }

    fn kinds(&self, outcome: &Outcome) -> Vec<CaseKind> {
        let call = match self.kind {
            Kind::Sinks => "read_sinks",
            Kind::Joined => "read_joined",
            Kind::Tree => "read_tree",
        };
        let (x, y) = sinks_in(&self.file);
        kinds::of_sinks(call, outcome.answer, &x, &y)
    }
}

/// The sinks in a file whose first two fields are of the form; of any other
/// file whatever stands in their place.
pub fn sinks_in(file: &[u8]) -> draw::Lists {
    let number = |b: &[u8]| i32::from_be_bytes([b[0], b[1], b[2], b[3]]);
    let length = |b: &[u8]| usize::from(u16::from_be_bytes([b[0], b[1]]));
    let length = file.get(5..7).map_or(0, length);
    let value = file.get(7..7 + length).unwrap_or(&[]);
    let records = value.chunks_exact(8);
    records.map(|b| (number(&b[..4]), number(&b[4..]))).unzip()
}

/// A number of bytes or sinks as an answer.
fn told_count(result: Result<usize, Refusal>) -> Answer {
    told(result.map(|count| count as u64))
}

/// Bytes as two digits each, as `xxd -r -p` takes them.
pub fn hex(bytes: &[u8]) -> String {
    bytes.iter().map(|byte| format!("{byte:02X}")).collect()
}

fn write_good(session: &mut Session, random: &mut Random) {
    let n = session.small();
    for kind in Kind::ALL {
        let joins = good_joins(random, n);
        let task = Write::new(kind, draw::good(random, n), joins);
        task.check_rooms(session, random);
    }
}

fn write_bad(session: &mut Session, random: &mut Random) {
    let n = session.small();
    let mut lists = draw::bad(random, n);
    lists.push(draw::good(random, n));
    for lists in lists {
        for joins in draw::orders(random, n) {
            let kind = random.pick(&Kind::ALL);
            Write::new(kind, lists.clone(), joins).check_rooms(session, random);
        }
    }
}

fn write_odd_counts(session: &mut Session, random: &mut Random) {
    if session.round() % 16 != 4 {
        return;
    }
    for lists in draw::odd_counts(random) {
        for kind in Kind::ALL {
            let joins = good_joins(random, lists.0.len().min(513));
            Write::new(kind, lists.clone(), joins).check_rooms(session, random);
        }
    }
}

fn write_large(session: &mut Session, random: &mut Random) {
    let n = draw::large(random, session.round());
    for kind in Kind::ALL {
        let joins = good_joins(random, n);
        Write::new(kind, draw::good(random, n), joins).check_rooms(session, random);
    }
}

/// A good file of `n` sinks.
fn good_file(random: &mut Random, kind: Kind, n: usize) -> Vec<u8> {
    let lists = draw::good(random, n);
    let joins = good_joins(random, n);
    let file = file_with(kind, &lists, &joins);
    assert_eq!(file.len(), kind.file_length(n), "good sinks and joins");
    file
}

/// A file of the form with these sinks and pairs, good or bad. The places and
/// wires of a tree file are those of the embedding, or none where there is no
/// embedding.
pub fn file_with(kind: Kind, (x, y): &draw::Lists, joins: &[u16]) -> Vec<u8> {
    let mut file = file_of(&[(1, &[1]), (2, &value_of_sinks(x, y))]);
    if kind != Kind::Sinks {
        file.extend(file_of(&[(3, &value_of_joins(joins))]));
    }
    if kind == Kind::Tree {
        let mut tree = vec![0; kind.file_length(x.len().max(1))];
        if files::write_tree(x, y, joins, &mut tree).is_ok() {
            return tree;
        }
        file.extend(file_of(&[(4, &[]), (5, &[])]));
    }
    file
}

fn read_rooms(session: &mut Session, random: &mut Random) {
    let n = session.small();
    for kind in Kind::ALL {
        let file = good_file(random, kind, n);
        Read::new(kind, file, n).check_rooms(session, random);
    }
}

/// Truncation at every length, damage at every byte, bytes appended.
fn read_every_damage(session: &mut Session, random: &mut Random) {
    let n = 1 + session.round() % 5;
    for kind in Kind::ALL {
        let file = good_file(random, kind, n);
        let mut damages = every_damage(random, &file);
        damages.push(FileDamage::Append(vec![kind_tag(random), 0, 0]));
        for damage in damages {
            session.check(&Read::new(kind, damaged_file(&file, &damage), n));
        }
    }
}

fn kind_tag(random: &mut Random) -> u8 {
    random.pick(&[1, 2, 3, 4, 5, 6])
}

/// Each byte of a file given every value, one at a time.
fn read_every_value(session: &mut Session, random: &mut Random) {
    if session.round() % 16 != 5 {
        return;
    }
    let n = 1 + random.below(2);
    let kind = random.pick(&Kind::ALL);
    let file = good_file(random, kind, n);
    for at in 0..file.len() {
        for value in 0..=255 {
            let changed = damaged_file(&file, &FileDamage::Change(at, value));
            session.check(&Read::new(kind, changed, n));
        }
    }
}

fn read_wrong_kind(session: &mut Session, random: &mut Random) {
    let n = session.small();
    for written in Kind::ALL {
        let file = good_file(random, written, n);
        for read in Kind::ALL {
            Read::new(read, file.clone(), n).check_rooms(session, random);
        }
    }
}

/// The value of tag 2 for any sinks.
pub fn value_of_sinks(x: &[i32], y: &[i32]) -> Vec<u8> {
    let record = |(x, y): (&i32, &i32)| [x.to_be_bytes(), y.to_be_bytes()].concat();
    x.iter().zip(y).flat_map(record).collect()
}

/// The value of tag 3 for any joining order.
fn value_of_joins(joins: &[u16]) -> Vec<u8> {
    joins.iter().flat_map(|name| name.to_be_bytes()).collect()
}

/// A file of any tags and values; a value has at most 65,535 bytes.
pub fn file_of(values: &[(u8, &[u8])]) -> Vec<u8> {
    let mut file = Vec::new();
    for (tag, value) in values {
        put_field(&mut file, *tag, value);
    }
    file
}

fn read_bad_contents(session: &mut Session, random: &mut Random) {
    let n = session.small();
    let mut lists = draw::bad(random, n);
    lists.push(draw::good(random, n));
    for (x, y) in lists {
        let sinks = value_of_sinks(&x, &y);
        for joins in draw::orders(random, n) {
            let pairs = value_of_joins(&joins);
            let mut file = file_of(&[(1, &[1]), (2, &sinks), (3, &pairs)]);
            let mut kind = Kind::Joined;
            if random.below(2) == 0 {
                file.extend(file_of(&[(4, &[]), (5, &[0; 8])]));
                kind = Kind::Tree;
            }
            Read::new(kind, file, n).check_rooms(session, random);
        }
        let file = file_of(&[(1, &[1]), (2, &sinks)]);
        Read::new(Kind::Sinks, file, n).check_rooms(session, random);
    }
}

/// The offsets of tags 4 and 5 in a tree file of `n` sinks.
fn late_tags(n: usize) -> (usize, usize) {
    let fourth = Kind::Joined.file_length(n);
    (fourth, fourth + 3 + 8 * (2 * n - 1))
}

fn read_bad_tree(session: &mut Session, random: &mut Random) {
    let n = session.small();
    let file = good_file(random, Kind::Tree, n);
    let (fourth, fifth) = late_tags(n);
    for _ in 0..8 {
        let mut changed = file.clone();
        for _ in 0..1 + random.below(3) {
            let at = fourth + random.below(file.len() - fourth);
            changed[at] ^= random.pick(&[1, 128, 255]);
        }
        Read::new(Kind::Tree, changed, n).check_rooms(session, random);
    }
    let (places, wires) = (&file[fourth + 3..fifth], &file[fifth + 3..]);
    for _ in 0..4 {
        let mut changed = file[..fourth].to_vec();
        let places = resized(random, places, 8);
        changed.extend(file_of(&[(4, &places), (5, &resized(random, wires, 4))]));
        Read::new(Kind::Tree, changed, n).check_rooms(session, random);
    }
}

/// A value with its number of records kept, cut or raised.
fn resized(random: &mut Random, value: &[u8], record: usize) -> Vec<u8> {
    let mut value = value.to_vec();
    match random.below(4) {
        0 => value.clear(),
        1 => value.truncate(value.len() - record),
        2 => value.extend(vec![0; record]),
        _ => (),
    }
    value
}

/// Files of the form with no sink, with too many, and with too many pairs.
fn read_odd_counts(session: &mut Session, random: &mut Random) {
    if session.round() % 8 != 6 {
        return;
    }
    for n in [0, 1, 511, 512, 513, 514, 1024, 8191] {
        let (x, y) = draw::any_number(random, n);
        let sinks = value_of_sinks(&x, &y);
        let file = file_of(&[(1, &[1]), (2, &sinks)]);
        Read::new(Kind::Sinks, file.clone(), n).check_rooms(session, random);
        read_counts_of_pairs(session, random, &file, n);
    }
}

/// A sink file with pairs after it, and with empty places and wires too.
fn read_counts_of_pairs(session: &mut Session, random: &mut Random, sinks: &[u8], n: usize) {
    for pairs in [0, n.saturating_sub(1), n, 16_383] {
        let file = [sinks, &file_of(&[(3, &vec![0; 4 * pairs])])].concat();
        session.check(&Read::new(Kind::Joined, file, n));
    }
    let joins = value_of_joins(&good_joins(random, n));
    let joined = [sinks, &file_of(&[(3, &joins)])].concat();
    let tree = [&joined[..], &file_of(&[(4, &[]), (5, &[])])].concat();
    Read::new(Kind::Joined, joined, n).check_rooms(session, random);
    Read::new(Kind::Tree, tree, n).check_rooms(session, random);
}

/// Fields of any tags in any order, now and then with a length that lies.
fn read_odd_fields(session: &mut Session, random: &mut Random) {
    for _ in 0..40 {
        let mut file = if random.below(4) == 0 {
            vec![]
        } else {
            file_of(&[(1, &[1])])
        };
        for _ in 0..random.below(6) {
            let value = vec![random.below(3) as u8; random.below(20)];
            put_field(&mut file, kind_tag(random), &value);
        }
        if random.below(2) == 0 {
            let damage = file_damage(random, file.len());
            file = damaged_file(&file, &damage);
        }
        for kind in Kind::ALL {
            session.check(&Read::new(kind, file.clone(), 20));
        }
    }
}

/// Any bytes at all, after as much of a good file as chance leaves.
fn read_any_bytes(session: &mut Session, random: &mut Random) {
    for _ in 0..12 {
        let (kind, n) = (random.pick(&Kind::ALL), 1 + random.below(3));
        let mut file = good_file(random, kind, n);
        file.truncate(random.below(file.len() + 1));
        let more = random.below(40);
        file.extend((0..more).map(|_| random.next_bits() as u8));
        for read in Kind::ALL {
            Read::new(read, file.clone(), n).check_rooms(session, random);
        }
    }
}

fn read_large(session: &mut Session, random: &mut Random) {
    let n = draw::large(random, session.round());
    for kind in Kind::ALL {
        let file = good_file(random, kind, n);
        Read::new(kind, file.clone(), n).check_rooms(session, random);
        for _ in 0..4 {
            let damage = file_damage(random, file.len());
            session.check(&Read::new(kind, damaged_file(&file, &damage), n));
        }
    }
}
