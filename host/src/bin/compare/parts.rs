//! All flags of a closed listing, said plainly and apart from the model, and the parts that they are in.

use std::collections::HashMap;

use flumedrac_trial::Raw;

use crate::plain;

/// All flags of a closed listing, or so many of them if there are more: the ways up from the minimal element, rank by
/// rank. As every way goes on to the top, no more are kept in any rank.
pub fn flags(cell: &Raw, most: usize) -> Vec<Vec<u16>> {
    let mut ways: Vec<Vec<u16>> = vec![vec![0]];
    for r in 0..cell.counts.len() - 1 {
        let on = |way: &Vec<u16>| -> Vec<Vec<u16>> {
            plain::list(cell, r, way[r].into(), 1).iter().map(|&sup| [way.as_slice(), &[sup]].concat()).collect()
        };
        ways = ways.iter().flat_map(on).take(most).collect();
    }
    ways
}

/// How many parts flags are in: two that differ at one rank alone are in the same part. Each flag names one of its
/// part, itself or an earlier one; those that name themselves are counted.
pub fn parts(flags: &[Vec<u16>]) -> usize {
    let mut named: Vec<usize> = (0..flags.len()).collect();
    for r in 0..flags.first().map_or(0, Vec::len) {
        let mut met = HashMap::new();
        for (i, flag) in flags.iter().enumerate() {
            let like_it = *met.entry((&flag[..r], &flag[r + 1..])).or_insert(i);
            let (one, other) = (last_named(&mut named, i), last_named(&mut named, like_it));
            named[one.max(other)] = one.min(other);
        }
    }
    (0..flags.len()).filter(|&i| named[i] == i).count()
}

/// The flag of a part that names itself, from any flag of it; the way to it becomes shorter.
fn last_named(named: &mut [usize], mut i: usize) -> usize {
    while named[i] != i {
        named[i] = named[named[i]];
        i = named[i];
    }
    i
}
