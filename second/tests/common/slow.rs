//! Slow renderings of the document's sentences, over diameters and ranges
//! that the tests work out for themselves, with delays or without.

/// The sinks under every node, by the pairs.
pub fn sinks_under(n: usize, joins: &[u16]) -> Vec<Vec<usize>> {
    let mut sets: Vec<Vec<usize>> = (0..n).map(|sink| vec![sink]).collect();
    for pair in joins.chunks_exact(2) {
        let (a, b) = (pair[0] as usize, pair[1] as usize);
        sets.push([sets[a].clone(), sets[b].clone()].concat());
    }
    sets
}

/// One axis of all places, from all values of each node's range: the root's
/// least value, then for each node below the value nearest to its parent's.
pub fn axis(n: usize, joins: &[u16], ranges: &[Vec<i32>]) -> Vec<i32> {
    let mut values = vec![0; ranges.len()];
    for (node, choices) in ranges.iter().enumerate().rev() {
        let named = joins.iter().position(|&name| name as usize == node);
        values[node] = match named {
            None => choices[0],
            Some(at) => {
                let above = values[n + at / 2];
                let near = |value: &i32| (value - above).abs();
                choices.iter().copied().min_by_key(near).unwrap()
            }
        };
    }
    values
}

/// Calls `visit` with every joining order that goes on from the given one.
pub fn every_order(n: usize, live: &[u16], joins: &mut Vec<u16>, visit: &mut dyn FnMut(&[u16])) {
    if live.len() == 1 {
        visit(joins);
        return;
    }
    let join = (n + joins.len() / 2) as u16;
    for (at, &a) in live.iter().enumerate() {
        for &b in &live[at + 1..] {
            let mut left: Vec<u16> = live.to_vec();
            left.retain(|&node| node != a && node != b);
            left.push(join);
            joins.extend([a, b]);
            every_order(n, &left, joins, visit);
            joins.truncate(joins.len() - 2);
        }
    }
}

/// The diameters of subsets, by which the search is rendered.
pub type Diameter<'a> = &'a dyn Fn(u32) -> u32;

pub fn size(subset: u32) -> u32 {
    (0..32).filter(|bit| subset >> bit & 1 == 1).count() as u32
}

/// The splits of a subset, each named by the part with the lowest sink.
fn splits(subset: u32) -> Vec<u32> {
    let lowest = (0..32).find(|bit| subset >> bit & 1 == 1).unwrap();
    let is_part = |part: &u32| part & !subset == 0 && part >> lowest & 1 == 1;
    (0..subset).filter(is_part).collect()
}

/// best by its definition, with nothing remembered.
pub fn best(diameter: Diameter, subset: u32) -> u32 {
    if size(subset) < 2 {
        return 0;
    }
    let sum = |part: u32| best(diameter, part) + best(diameter, subset - part);
    diameter(subset) + splits(subset).into_iter().map(sum).min().unwrap()
}

/// The steps of the whole search in order: subset and part.
pub fn all_steps(n: usize) -> Vec<(u32, u32)> {
    let subsets = (0..1 << n).filter(|&subset| size(subset) >= 2);
    let steps = |subset| splits(subset).into_iter().map(move |part| (subset, part));
    subsets.flat_map(steps).collect()
}

/// The work table of `n` sinks after the first `budget` steps, by its
/// sentences.
pub fn table(diameter: Diameter, n: usize, budget: u64) -> Vec<u32> {
    let steps = all_steps(n);
    let examined = &steps[..steps.len().min(budget as usize)];
    let entry = |subset: u32| {
        if size(subset) < 2 {
            return 0;
        }
        let own = examined.iter().filter(|step| step.0 == subset);
        let sums = own.map(|&(_, part)| best(diameter, part) + best(diameter, subset - part));
        match sums.min() {
            Some(least) => diameter(subset) + least,
            None => 4_294_967_295,
        }
    };
    (0..1 << n).map(entry).collect()
}

/// The proven joining order of `n` sinks by its sentences: the first least
/// split, the part with the lowest sink numbered first.
pub fn joins(diameter: Diameter, n: usize) -> Vec<u16> {
    let mut joins = Vec::new();
    number(diameter, n, (1 << n) - 1, &mut joins);
    joins
}

fn number(diameter: Diameter, n: usize, subset: u32, joins: &mut Vec<u16>) -> u16 {
    if size(subset) == 1 {
        return subset.trailing_zeros() as u16;
    }
    let sum = |part: &u32| best(diameter, *part) + best(diameter, subset - *part);
    let part = splits(subset).into_iter().min_by_key(sum).unwrap();
    let first = number(diameter, n, part, joins);
    let second = number(diameter, n, subset - part, joins);
    joins.extend([first, second]);
    (n + joins.len() / 2 - 1) as u16
}
