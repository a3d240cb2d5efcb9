//! Lent buffers for a comparison: filled with a pattern, with entries of it
//! on both sides of what is lent, and compared whole.

use crate::embed;
use crate::generate::Random;
use crate::proved::{Answer, Said, MALFORMED};
use crate::refusal::Refusal;
use std::fmt::Display;

/// Entries kept on each side of a lent buffer; a call must not reach them.
const GUARD: usize = 4;

/// A number that a buffer may hold.
pub trait Entry: Copy + PartialEq + Display {
    /// The number's share of the pattern.
    fn of_bits(bits: u64) -> Self;
}

impl Entry for u8 {
    fn of_bits(bits: u64) -> u8 {
        bits as u8
    }
}

impl Entry for u16 {
    fn of_bits(bits: u64) -> u16 {
        bits as u16
    }
}

impl Entry for u32 {
    fn of_bits(bits: u64) -> u32 {
        bits as u32
    }
}

impl Entry for i32 {
    fn of_bits(bits: u64) -> i32 {
        bits as i32
    }
}

/// One lent buffer and its guard entries.
#[derive(Clone, PartialEq, Eq)]
pub struct Buffer<T> {
    all: Vec<T>,
}

impl<T: Entry> Buffer<T> {
    fn new(length: usize, pattern: &mut Random) -> Buffer<T> {
        let entry = |_| T::of_bits(pattern.next_bits());
        Buffer {
            all: (0..length + 2 * GUARD).map(entry).collect(),
        }
    }

    /// What is lent, without the guard entries.
    pub fn slice(&mut self) -> &mut [T] {
        let end = self.all.len() - GUARD;
        &mut self.all[GUARD..end]
    }

    /// The first entry that differs, counted from the first lent one.
    fn difference(&self, proved: &Buffer<T>) -> Option<String> {
        let at = (0..self.all.len()).find(|&at| self.all[at] != proved.all[at])?;
        let (ours, theirs) = (self.all[at], proved.all[at]);
        let place = at as isize - GUARD as isize;
        let lent = self.all.len() - 2 * GUARD;
        Some(format!(
            "entry {place} of {lent}: reference {ours}, proved {theirs}"
        ))
    }
}

/// The lengths of all buffers that any call is lent.
#[derive(Clone, Copy, Debug, Default, PartialEq, Eq)]
pub struct Room {
    /// Entries of the work table.
    pub table: usize,
    /// Node numbers.
    pub joins: usize,
    /// Doubled u.
    pub u: usize,
    /// Doubled v.
    pub v: usize,
    /// Wires.
    pub wires: usize,
    /// Grid x.
    pub x: usize,
    /// Grid y.
    pub y: usize,
    /// Bytes of a file or a text.
    pub bytes: usize,
}

/// The lengths one by one.
const LENGTHS: [fn(&mut Room) -> &mut usize; 8] = [
    |room| &mut room.table,
    |room| &mut room.joins,
    |room| &mut room.u,
    |room| &mut room.v,
    |room| &mut room.wires,
    |room| &mut room.x,
    |room| &mut room.y,
    |room| &mut room.bytes,
];

impl Room {
    /// This room, no room, a longer one, and every room with one buffer that
    /// is one entry short while the others are exact or longer.
    pub fn variants(self, random: &mut Random) -> Vec<Room> {
        let longer = self.longer(random);
        let mut rooms = vec![self, longer, Room::default()];
        for length in LENGTHS {
            let exact = *length(&mut self.clone());
            if exact > 0 {
                let mut short = random.pick(&[self, longer]);
                *length(&mut short) = exact - 1;
                rooms.push(short);
            }
        }
        rooms
    }

    /// Between one and five entries more in every buffer.
    pub fn longer(mut self, random: &mut Random) -> Room {
        for length in LENGTHS {
            *length(&mut self) += 1 + random.below(5);
        }
        self
    }
}

/// All buffers of a room.
#[derive(Clone, PartialEq, Eq)]
pub struct Buffers {
    table: Buffer<u32>,
    joins: Buffer<u16>,
    u: Buffer<i32>,
    v: Buffer<i32>,
    wires: Buffer<u32>,
    x: Buffer<i32>,
    y: Buffer<i32>,
    bytes: Buffer<u8>,
}

/// The buffers as slices to be lent.
pub struct Parts<'a> {
    /// The work table.
    pub table: &'a mut [u32],
    /// Node numbers.
    pub joins: &'a mut [u16],
    /// Places and wires.
    pub tree: embed::Lent<'a>,
    /// Grid x.
    pub x: &'a mut [i32],
    /// Grid y.
    pub y: &'a mut [i32],
    /// Bytes of a file or a text.
    pub bytes: &'a mut [u8],
}

impl Buffers {
    /// Buffers full of the pattern that `salt` stands for.
    pub fn new(room: Room, salt: u64) -> Buffers {
        let mut pattern = Random::new(salt);
        Buffers {
            table: Buffer::new(room.table, &mut pattern),
            joins: Buffer::new(room.joins, &mut pattern),
            u: Buffer::new(room.u, &mut pattern),
            v: Buffer::new(room.v, &mut pattern),
            wires: Buffer::new(room.wires, &mut pattern),
            x: Buffer::new(room.x, &mut pattern),
            y: Buffer::new(room.y, &mut pattern),
            bytes: Buffer::new(room.bytes, &mut pattern),
        }
    }

    /// All of them, lent at once.
    pub fn parts(&mut self) -> Parts<'_> {
        Parts {
            table: self.table.slice(),
            joins: self.joins.slice(),
            tree: embed::Lent {
                u: self.u.slice(),
                v: self.v.slice(),
                wires: self.wires.slice(),
            },
            x: self.x.slice(),
            y: self.y.slice(),
            bytes: self.bytes.slice(),
        }
    }

    /// A line for every buffer that differs.
    fn differences(&self, proved: &Buffers) -> String {
        let found = [
            ("table", self.table.difference(&proved.table)),
            ("joins", self.joins.difference(&proved.joins)),
            ("u", self.u.difference(&proved.u)),
            ("v", self.v.difference(&proved.v)),
            ("wires", self.wires.difference(&proved.wires)),
            ("x", self.x.difference(&proved.x)),
            ("y", self.y.difference(&proved.y)),
            ("bytes", self.bytes.difference(&proved.bytes)),
        ];
        let line = |(name, difference): (&str, Option<String>)| {
            difference.map(|text| format!("  buffer {name}, {text}\n"))
        };
        found.into_iter().filter_map(line).collect()
    }
}

/// What a call leaves behind: what it said, and every buffer whole.
#[derive(Clone, PartialEq, Eq)]
pub struct Outcome {
    /// What the call said.
    pub answer: Answer,
    /// The buffers after the call.
    pub lent: Buffers,
}

impl Outcome {
    /// Runs a call over fresh buffers.
    pub fn of(room: Room, salt: u64, call: impl FnOnce(Parts<'_>) -> Answer) -> Outcome {
        let mut lent = Buffers::new(room, salt);
        let answer = call(lent.parts());
        Outcome { answer, lent }
    }

    /// The first bytes of the buffer of bytes.
    pub fn bytes(&self, length: usize) -> &[u8] {
        &self.lent.bytes.all[GUARD..GUARD + length]
    }

    /// What both sides said, and where their buffers differ.
    pub fn tell(reference: &Outcome, proved: &Outcome) -> String {
        let said = tell_answers(reference.answer, proved.answer);
        said + &reference.lent.differences(&proved.lent)
    }
}

/// A reference's answer in the form of the proved library's.
pub fn told<T: Into<u64>>(result: Result<T, Refusal>) -> Answer {
    let said = |value: T| Said {
        value: value.into(),
        ..Said::default()
    };
    result.map(said).map_err(refused)
}

/// A refusal in the form of the proved library's.
pub fn refused(refusal: Refusal) -> (u64, Option<u64>) {
    let place = refusal.place().map(|place| place as u64);
    (u64::from(refusal.number()), place)
}

/// Two lines with what each side said.
pub fn tell_answers(reference: Answer, proved: Answer) -> String {
    let (ours, theirs) = (words(reference), words(proved));
    format!("  reference said: {ours}\n  proved said:    {theirs}\n")
}

fn words(answer: Answer) -> String {
    match answer {
        Ok(said) => {
            let mark = if said.proven { "proven" } else { "not proven" };
            format!(
                "accepted, value {}, steps {}, {mark}",
                said.value, said.steps
            )
        }
        Err((MALFORMED, at)) => format!("six numbers not of the form, lowest {at:?}"),
        Err((number, None)) => format!("refused {number}, no place"),
        Err((number, Some(place))) => format!("refused {number}, place {place}"),
    }
}

#[cfg(test)]
mod tests {
    use super::*;

    const ROOM: Room = Room {
        table: 8,
        joins: 4,
        u: 5,
        v: 5,
        wires: 5,
        x: 0,
        y: 0,
        bytes: 0,
    };

    #[test]
    fn variants_are_exact_longer_empty_and_one_short() {
        let rooms = ROOM.variants(&mut Random::new(1));
        assert_eq!(rooms.len(), 8);
        assert_eq!((rooms[0], rooms[2]), (ROOM, Room::default()));
        assert!(rooms[1].table > 8 && rooms[1].bytes > 0);
        let shorts = [rooms[3].table, rooms[4].joins, rooms[5].u];
        assert_eq!(shorts, [7, 3, 4]);
        assert_eq!((rooms[6].v, rooms[7].wires), (4, 4));
    }

    #[test]
    fn a_touched_guard_entry_is_a_difference() {
        let reference = Buffers::new(ROOM, 5);
        let mut proved = Buffers::new(ROOM, 5);
        assert!(reference == proved);
        let end = proved.wires.all.len() - GUARD;
        proved.wires.all[end] ^= 1;
        assert!(reference != proved);
        let text = reference.differences(&proved);
        assert!(text.starts_with("  buffer wires, entry 5 of 5: reference "));
    }

    #[test]
    fn the_pattern_turns_on_the_salt() {
        assert!(Buffers::new(ROOM, 5) != Buffers::new(ROOM, 6));
        let outcome = Outcome::of(ROOM, 5, |parts| {
            parts.table[0] ^= 1;
            Err((7, None))
        });
        assert!(outcome.lent != Buffers::new(ROOM, 5));
    }
}
