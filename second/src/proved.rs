//! The proved library behind its C interface.
//!
//! This and `peers` are the only modules with unsafe code. Each wrapper lends its slices
//! for the length of one call and gives back what the call said; the C header
//! in include/skeprafter.h describes the calls themselves.
#![allow(unsafe_code)]

use crate::embed::Lent;
use crate::files::Kind;

/// The functions as the header declares them.
mod c {
    extern "C" {
        pub fn skeprafter_box_of(
            x: *const i32,
            nx: usize,
            y: *const i32,
            ny: usize,
            delays: *const u32,
            nd: usize,
            held: *mut u32,
            said: *mut u64,
        );
        pub fn skeprafter_widen(held: *mut u32, x: i32, y: i32, delay: u32, said: *mut u64);
        pub fn skeprafter_ends(held: *const u32, ends: *mut i64);
        pub fn skeprafter_diameter(held: *const u32) -> u32;
        pub fn skeprafter_embed(
            x: *const i32,
            nx: usize,
            y: *const i32,
            ny: usize,
            delays: *const u32,
            nd: usize,
            joins: *const u16,
            nj: usize,
            u: *mut i32,
            nu: usize,
            v: *mut i32,
            nv: usize,
            wires: *mut u32,
            nw: usize,
            said: *mut u64,
        );
        pub fn skeprafter_join_nearest(
            x: *const i32,
            nx: usize,
            y: *const i32,
            ny: usize,
            delays: *const u32,
            nd: usize,
            joins: *mut u16,
            nj: usize,
            said: *mut u64,
        );
        pub fn skeprafter_embed_nearest(
            x: *const i32,
            nx: usize,
            y: *const i32,
            ny: usize,
            delays: *const u32,
            nd: usize,
            joins: *mut u16,
            nj: usize,
            u: *mut i32,
            nu: usize,
            v: *mut i32,
            nv: usize,
            wires: *mut u32,
            nw: usize,
            said: *mut u64,
        );
        pub fn skeprafter_search(
            x: *const i32,
            nx: usize,
            y: *const i32,
            ny: usize,
            delays: *const u32,
            nd: usize,
            budget: u64,
            table: *mut u32,
            nt: usize,
            joins: *mut u16,
            nj: usize,
            u: *mut i32,
            nu: usize,
            v: *mut i32,
            nv: usize,
            wires: *mut u32,
            nw: usize,
            said: *mut u64,
        );
        pub fn skeprafter_write_sinks(
            x: *const i32,
            nx: usize,
            y: *const i32,
            ny: usize,
            out: *mut u8,
            no: usize,
            said: *mut u64,
        );
        pub fn skeprafter_write_joined(
            x: *const i32,
            nx: usize,
            y: *const i32,
            ny: usize,
            joins: *const u16,
            nj: usize,
            out: *mut u8,
            no: usize,
            said: *mut u64,
        );
        pub fn skeprafter_write_tree(
            x: *const i32,
            nx: usize,
            y: *const i32,
            ny: usize,
            joins: *const u16,
            nj: usize,
            out: *mut u8,
            no: usize,
            said: *mut u64,
        );
        pub fn skeprafter_read_sinks(
            file: *const u8,
            nf: usize,
            x: *mut i32,
            nx: usize,
            y: *mut i32,
            ny: usize,
            said: *mut u64,
        );
        pub fn skeprafter_read_joined(
            file: *const u8,
            nf: usize,
            x: *mut i32,
            nx: usize,
            y: *mut i32,
            ny: usize,
            joins: *mut u16,
            nj: usize,
            said: *mut u64,
        );
        pub fn skeprafter_read_tree(
            file: *const u8,
            nf: usize,
            x: *mut i32,
            nx: usize,
            y: *mut i32,
            ny: usize,
            joins: *mut u16,
            nj: usize,
            said: *mut u64,
        );
        pub fn skeprafter_tree_lines(input: *const u8, ni: usize, out: *mut u8) -> usize;
    }
}

/// What an accepted call says besides what it fills.
#[derive(Clone, Copy, Debug, Default, PartialEq, Eq)]
pub struct Said {
    /// Total wire of a tree, bytes of a file, sinks of a reader, else 0.
    pub value: u64,
    /// Splits examined by the search, else 0.
    pub steps: u64,
    /// Whether a search proved its tree the least.
    pub proven: bool,
}

/// A refusal's number and its place, if it has one.
pub type Refused = (u64, Option<u64>);

/// What a call said.
pub type Answer = Result<Said, Refused>;

/// Stands for the refusal's number where the six numbers said are themselves
/// not of the form; the place is then the lowest of the six that breaks it.
pub const MALFORMED: u64 = u64::MAX;

/// The numbers of an acceptance and of all refusals; a call that says another
/// one breaks the form. 5 was withdrawn.
const NUMBERS: [u64; 10] = [0, 1, 2, 3, 4, 6, 7, 8, 9, 15];

/// The raw numbers of a held box: least and greatest u, least and greatest v,
/// each counted from a far corner.
pub type RawBox = [u32; 4];

/// The raw number of the tilted coordinate 0 (docs/DECISIONS.md, Numbers). The
/// comparison holds the library to it, so that it can work out by itself what
/// any raw numbers stand for.
pub const CORNER: i64 = 64_000_000;

/// The six numbers before a call: a call that leaves one out is found out.
const UNSAID: [u64; 6] = [0xDEAD_DEAD_DEAD_DEAD; 6];

/// The answer that six numbers stand for.
fn heard(said: [u64; 6]) -> Answer {
    const ANY: u64 = u64::MAX;
    let [number, placed, place, value, steps, proven] = said;
    let greatest = match (number, placed) {
        (0, _) => [0, 0, 0, ANY, ANY, 1],
        (_, 0) => [ANY, 0, 0, 0, 0, 0],
        (_, _) => [ANY, 1, ANY, 0, 0, 0],
    };
    if !NUMBERS.contains(&number) {
        return Err((MALFORMED, Some(0)));
    }
    if let Some(at) = (0..6).find(|&at| said[at] > greatest[at]) {
        return Err((MALFORMED, Some(at as u64)));
    }
    if number != 0 {
        return Err((number, Some(place).filter(|_| placed == 1)));
    }
    Ok(Said {
        value,
        steps,
        proven: proven == 1,
    })
}

/// The box of all sinks, put into `held`.
pub fn box_of(x: &[i32], y: &[i32], delays: &[u32], held: &mut RawBox) -> Answer {
    let mut said = UNSAID;
    // SAFETY: pointers and lengths are those of live slices and arrays.
    unsafe {
        c::skeprafter_box_of(
            x.as_ptr(),
            x.len(),
            y.as_ptr(),
            y.len(),
            delays.as_ptr(),
            delays.len(),
            held.as_mut_ptr(),
            said.as_mut_ptr(),
        );
    }
    heard(said)
}

/// Widens a held box by one more sink.
pub fn widen(held: &mut RawBox, x: i32, y: i32, delay: u32) -> Answer {
    let mut said = UNSAID;
    // SAFETY: both arrays are live and of the length the header asks for.
    unsafe { c::skeprafter_widen(held.as_mut_ptr(), x, y, delay, said.as_mut_ptr()) };
    heard(said)
}

/// Least u, greatest u, least v, greatest v of a held box.
pub fn ends(held: &RawBox) -> [i64; 4] {
    let mut ends = [i64::MIN; 4];
    // SAFETY: both arrays are live and of the length the header asks for.
    unsafe { c::skeprafter_ends(held.as_ptr(), ends.as_mut_ptr()) };
    ends
}

/// The larger of a held box's two absolute differences.
pub fn diameter(held: &RawBox) -> u32 {
    // SAFETY: the array is live and of the length the header asks for.
    unsafe { c::skeprafter_diameter(held.as_ptr()) }
}

/// Embeds a joining order.
pub fn embed(x: &[i32], y: &[i32], delays: &[u32], joins: &[u16], lent: Lent<'_>) -> Answer {
    let mut said = UNSAID;
    // SAFETY: pointers and lengths are those of live slices.
    unsafe {
        c::skeprafter_embed(
            x.as_ptr(),
            x.len(),
            y.as_ptr(),
            y.len(),
            delays.as_ptr(),
            delays.len(),
            joins.as_ptr(),
            joins.len(),
            lent.u.as_mut_ptr(),
            lent.u.len(),
            lent.v.as_mut_ptr(),
            lent.v.len(),
            lent.wires.as_mut_ptr(),
            lent.wires.len(),
            said.as_mut_ptr(),
        );
    }
    heard(said)
}

/// Joins by least diameter.
pub fn join_nearest(x: &[i32], y: &[i32], delays: &[u32], joins: &mut [u16]) -> Answer {
    let mut said = UNSAID;
    // SAFETY: pointers and lengths are those of live slices.
    unsafe {
        c::skeprafter_join_nearest(
            x.as_ptr(),
            x.len(),
            y.as_ptr(),
            y.len(),
            delays.as_ptr(),
            delays.len(),
            joins.as_mut_ptr(),
            joins.len(),
            said.as_mut_ptr(),
        );
    }
    heard(said)
}

/// Joins by least diameter and embeds the result.
pub fn embed_nearest(
    x: &[i32],
    y: &[i32],
    delays: &[u32],
    joins: &mut [u16],
    lent: Lent<'_>,
) -> Answer {
    let mut said = UNSAID;
    // SAFETY: pointers and lengths are those of live slices.
    unsafe {
        c::skeprafter_embed_nearest(
            x.as_ptr(),
            x.len(),
            y.as_ptr(),
            y.len(),
            delays.as_ptr(),
            delays.len(),
            joins.as_mut_ptr(),
            joins.len(),
            lent.u.as_mut_ptr(),
            lent.u.len(),
            lent.v.as_mut_ptr(),
            lent.v.len(),
            lent.wires.as_mut_ptr(),
            lent.wires.len(),
            said.as_mut_ptr(),
        );
    }
    heard(said)
}

/// Searches with a budget of steps.
pub fn search(
    x: &[i32],
    y: &[i32],
    delays: &[u32],
    budget: u64,
    table: &mut [u32],
    joins: &mut [u16],
    lent: Lent<'_>,
) -> Answer {
    let mut said = UNSAID;
    // SAFETY: pointers and lengths are those of live slices.
    unsafe {
        c::skeprafter_search(
            x.as_ptr(),
            x.len(),
            y.as_ptr(),
            y.len(),
            delays.as_ptr(),
            delays.len(),
            budget,
            table.as_mut_ptr(),
            table.len(),
            joins.as_mut_ptr(),
            joins.len(),
            lent.u.as_mut_ptr(),
            lent.u.len(),
            lent.v.as_mut_ptr(),
            lent.v.len(),
            lent.wires.as_mut_ptr(),
            lent.wires.len(),
            said.as_mut_ptr(),
        );
    }
    heard(said)
}

/// Writes a file of the given kind; a sink file takes no joins.
pub fn write(kind: Kind, x: &[i32], y: &[i32], joins: &[u16], out: &mut [u8]) -> Answer {
    let (px, nx, py, ny) = (x.as_ptr(), x.len(), y.as_ptr(), y.len());
    let (pj, nj) = (joins.as_ptr(), joins.len());
    let (po, no) = (out.as_mut_ptr(), out.len());
    let mut said = UNSAID;
    let ps = said.as_mut_ptr();
    // SAFETY: pointers and lengths are those of live slices.
    unsafe {
        match kind {
            Kind::Sinks => c::skeprafter_write_sinks(px, nx, py, ny, po, no, ps),
            Kind::Joined => c::skeprafter_write_joined(px, nx, py, ny, pj, nj, po, no, ps),
            Kind::Tree => c::skeprafter_write_tree(px, nx, py, ny, pj, nj, po, no, ps),
        }
    }
    heard(said)
}

/// Reads a file as one of the given kind; a sink file fills no joins.
pub fn read(kind: Kind, file: &[u8], x: &mut [i32], y: &mut [i32], joins: &mut [u16]) -> Answer {
    let (pf, nf) = (file.as_ptr(), file.len());
    let (px, nx, py, ny) = (x.as_mut_ptr(), x.len(), y.as_mut_ptr(), y.len());
    let (pj, nj) = (joins.as_mut_ptr(), joins.len());
    let mut said = UNSAID;
    let ps = said.as_mut_ptr();
    // SAFETY: pointers and lengths are those of live slices.
    unsafe {
        match kind {
            Kind::Sinks => c::skeprafter_read_sinks(pf, nf, px, nx, py, ny, ps),
            Kind::Joined => c::skeprafter_read_joined(pf, nf, px, nx, py, ny, pj, nj, ps),
            Kind::Tree => c::skeprafter_read_tree(pf, nf, px, nx, py, ny, pj, nj, ps),
        }
    }
    heard(said)
}

/// The room that every text of the tree program fits.
pub const LINES: usize = 49_152;

/// The length of the tree program's text, which fills `out` from the front.
pub fn tree_lines(input: &[u8], out: &mut [u8; LINES]) -> usize {
    // SAFETY: the pointer and length are those of a live slice, and `out` is
    // a live array of the length that the function writes within.
    unsafe { c::skeprafter_tree_lines(input.as_ptr(), input.len(), out.as_mut_ptr()) }
}

#[cfg(test)]
mod tests {
    use super::*;

    #[test]
    fn six_numbers_are_heard_as_they_stand() {
        let search = Said {
            value: 30,
            steps: 25,
            proven: true,
        };
        assert_eq!(heard([0, 0, 0, 30, 25, 1]), Ok(search));
        assert_eq!(heard([8, 1, 0, 0, 0, 0]), Err((8, Some(0))));
        assert_eq!(heard([2, 0, 0, 0, 0, 0]), Err((2, None)));
        assert_eq!(heard([15, 1, 0, 0, 0, 0]), Err((15, Some(0))));
        assert_eq!(heard([15, 1, 511, 0, 0, 0]), Err((15, Some(511))));
    }

    #[test]
    fn six_numbers_not_of_the_form_name_the_lowest_bad_one() {
        let at = |said| match heard(said) {
            Err((MALFORMED, Some(at))) => at,
            other => panic!("{other:?}"),
        };
        assert_eq!(at(UNSAID), 0);
        for number in [10, 11, 12, 13, 14, 16, 17, 1 << 32, u64::MAX] {
            assert_eq!(at([number, 0, 0, 0, 0, 0]), 0);
            assert_eq!(at([number, 1, 3, 0, 0, 0]), 0);
        }
        assert_eq!(at([0, 1, 0, 0, 0, 0]), 1);
        assert_eq!(at([4, 2, 0, 0, 0, 0]), 1);
        assert_eq!(at([4, 0, 1, 0, 0, 0]), 2);
        assert_eq!(at([7, 0, 0, 1, 1, 1]), 3);
        assert_eq!(at([7, 0, 0, 0, 1, 1]), 4);
        assert_eq!(at([0, 0, 0, 5, 5, 2]), 5);
    }

    #[test]
    fn the_withdrawn_number_is_not_of_the_form() {
        let malformed = Err((MALFORMED, Some(0)));
        assert_eq!(heard([5, 1, 2, 0, 0, 0]), malformed);
        assert_eq!(heard([5, 0, 0, 0, 0, 0]), malformed);
        assert_eq!(heard([4, 1, 5, 0, 0, 0]), Err((4, Some(5))));
        assert_eq!(heard([6, 1, 5, 0, 0, 0]), Err((6, Some(5))));
    }
}
