//! Joining orders: flat lists of node numbers, two for each join.

use crate::refusal::Refusal;

/// Checks a joining order of `n` sinks (1 or more); the list may have any
/// length. A wrong count beats bad pairs, and half a pair makes the count
/// wrong without counting as given.
pub fn check(n: usize, joins: &[u16]) -> Result<(), Refusal> {
    let wanted = n.saturating_sub(1);
    if joins.len() != 2 * wanted {
        return Err(Refusal::WrongJoins(wanted.min(joins.len() / 2)));
    }
    // All names differ and stay below their join's number, so 2(n-1) of them
    // name every node but the root exactly once: no last count is needed.
    let mut named = vec![false; n + wanted];
    for (i, pair) in joins.chunks_exact(2).enumerate() {
        let (a, b) = (usize::from(pair[0]), usize::from(pair[1]));
        let own = n + i;
        if a == b || a >= own || b >= own || named[a] || named[b] {
            return Err(Refusal::WrongJoins(i));
        }
        named[a] = true;
        named[b] = true;
    }
    Ok(())
}

/// Each node's parent in a checked joining order; none for the root.
pub fn parents(n: usize, joins: &[u16]) -> Vec<Option<usize>> {
    let mut parents = vec![None; n + joins.len() / 2];
    for (i, pair) in joins.chunks_exact(2).enumerate() {
        for &child in pair {
            parents[usize::from(child)] = Some(n + i);
        }
    }
    parents
}

#[cfg(test)]
mod tests {
    use super::*;
    use crate::generate::{damaged_joins, good_joins, JoinDamage, Random};

    fn place(n: usize, joins: &[u16]) -> Option<usize> {
        check(n, joins).unwrap_err().place()
    }

    #[test]
    fn a_wrong_count_beats_bad_pairs() {
        assert_eq!(place(4, &[0, 0, 1, 2]), Some(2));
        assert_eq!(place(4, &[]), Some(0));
        assert_eq!(place(4, &[0, 1, 2, 3, 4, 5, 6, 6]), Some(3));
    }

    #[test]
    fn half_a_pair_makes_the_count_wrong() {
        assert_eq!(place(4, &[0, 1, 2, 3, 4]), Some(2));
        assert_eq!(place(4, &[0, 1, 2, 3, 4, 5, 6]), Some(3));
        assert_eq!(place(3, &[0]), Some(0));
    }

    #[test]
    fn one_sink_takes_only_the_empty_list() {
        assert_eq!(check(1, &[]), Ok(()));
        assert_eq!(place(1, &[0]), Some(0));
        assert_eq!(place(1, &[0, 0]), Some(0));
    }

    #[test]
    fn the_first_bad_pair_is_named() {
        assert_eq!(check(4, &[0, 1, 2, 3, 4, 5]), Ok(()));
        assert_eq!(check(4, &[1, 2, 4, 0, 3, 5]), Ok(()));
        assert_eq!(place(4, &[0, 0, 2, 3, 4, 5]), Some(0));
        assert_eq!(place(4, &[0, 4, 2, 3, 1, 5]), Some(0));
        assert_eq!(place(4, &[0, 1, 1, 3, 4, 5]), Some(1));
        assert_eq!(place(4, &[0, 1, 2, 5, 4, 3]), Some(1));
        assert_eq!(place(4, &[0, 1, 2, 3, 4, 65535]), Some(2));
        assert_eq!(place(4, &[0, 1, 2, 3, 4, 6]), Some(2));
    }

    #[test]
    fn generated_orders_are_good_and_damage_is_seen() {
        let mut random = Random::new(31);
        for n in 1..60 {
            let joins = good_joins(&mut random, n);
            assert_eq!(check(n, &joins), Ok(()));
            for damage in JoinDamage::ALL {
                let bad = damaged_joins(&mut random, n, damage);
                assert_eq!(check(n, &bad).unwrap_err().number(), 6);
            }
        }
    }

    #[test]
    fn every_node_but_the_root_has_a_parent() {
        let parents = parents(4, &[0, 1, 2, 3, 4, 5]);
        let expected = [4, 4, 5, 5, 6, 6].map(Some);
        assert_eq!(parents[..6], expected);
        assert_eq!(parents[6], None);
    }
}
