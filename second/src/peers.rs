//! The peers in C, which are tuned for speed alone.
//!
//! They check little of what they are lent, so each wrapper makes sure of the
//! lengths first; peers/peers.h describes the calls themselves.
#![allow(unsafe_code)]

use crate::embed::Lent;
use crate::plane::{MOST_SEARCHED, MOST_SINKS};

/// The functions as the header declares them.
mod c {
    extern "C" {
        pub fn peer_join(
            x: *const i32,
            y: *const i32,
            delays: *const u32,
            n: usize,
            joins: *mut u16,
        ) -> u64;
        pub fn peer_search(
            x: *const i32,
            y: *const i32,
            delays: *const u32,
            n: usize,
            table: *mut u32,
            joins: *mut u16,
            u: *mut i32,
            v: *mut i32,
            wires: *mut u32,
        ) -> u64;
        pub fn peer_embed(
            x: *const i32,
            y: *const i32,
            delays: *const u32,
            n: usize,
            joins: *const u16,
            u: *mut i32,
            v: *mut i32,
            wires: *mut u32,
        ) -> u64;
    }
}

/// The number of sinks, which lists and buffers must fit.
fn count(x: &[i32], y: &[i32], delays: &[u32], most: usize, joins: &[u16]) -> usize {
    let n = x.len();
    assert!(n == y.len() && n == delays.len() && (1..=most).contains(&n));
    assert_eq!(joins.len(), 2 * (n - 1));
    n
}

fn check_lent(lent: &Lent<'_>, n: usize) {
    assert!(lent.check(n).is_ok());
}

/// Joins by least diameter; 0.
pub fn join(x: &[i32], y: &[i32], delays: &[u32], joins: &mut [u16]) -> u64 {
    let n = count(x, y, delays, MOST_SINKS, joins);
    // SAFETY: pointers and lengths are those of live slices.
    unsafe {
        c::peer_join(
            x.as_ptr(),
            y.as_ptr(),
            delays.as_ptr(),
            n,
            joins.as_mut_ptr(),
        )
    }
}

/// Searches with an unlimited budget; the total wire.
pub fn search(
    x: &[i32],
    y: &[i32],
    delays: &[u32],
    table: &mut [u32],
    joins: &mut [u16],
    lent: Lent<'_>,
) -> u64 {
    let n = count(x, y, delays, MOST_SEARCHED, joins);
    check_lent(&lent, n);
    assert!(table.len() >= 1 << n);
    // SAFETY: pointers and lengths are those of live slices.
    unsafe {
        c::peer_search(
            x.as_ptr(),
            y.as_ptr(),
            delays.as_ptr(),
            n,
            table.as_mut_ptr(),
            joins.as_mut_ptr(),
            lent.u.as_mut_ptr(),
            lent.v.as_mut_ptr(),
            lent.wires.as_mut_ptr(),
        )
    }
}

/// Embeds a joining order; the total wire.
pub fn embed(x: &[i32], y: &[i32], delays: &[u32], joins: &[u16], lent: Lent<'_>) -> u64 {
    let n = count(x, y, delays, MOST_SINKS, joins);
    check_lent(&lent, n);
    // SAFETY: pointers and lengths are those of live slices.
    unsafe {
        c::peer_embed(
            x.as_ptr(),
            y.as_ptr(),
            delays.as_ptr(),
            n,
            joins.as_ptr(),
            lent.u.as_mut_ptr(),
            lent.v.as_mut_ptr(),
            lent.wires.as_mut_ptr(),
        )
    }
}
