//! Listings with one thing changed, and turned over.

use flumedrac_trial::duals::Lists;
use flumedrac_trial::{Random, Raw};

use crate::plain;

/// The slices that hold these lists.
pub fn written(lists: &Lists) -> Raw {
    let mut raw = Raw::default();
    for rank in lists {
        raw.counts.push(rank.len() as u16);
        for list in rank.iter().flatten() {
            raw.inc.extend(list);
            raw.ends.push(raw.inc.len() as u16);
        }
    }
    raw
}

/// The lists of slices of the right shape.
fn lists(raw: &Raw) -> Lists {
    let element = |r: usize, i: u16| [0, 1].map(|side| plain::list(raw, r, i.into(), side).to_vec());
    raw.counts.iter().enumerate().map(|(r, &count)| (0..count).map(|i| element(r, i)).collect()).collect()
}

/// The slices with the highest rank first and, of each element, the sups before the subs.
pub fn turned_over(raw: &Raw) -> Raw {
    let mut lists = lists(raw);
    lists.reverse();
    lists.iter_mut().flatten().for_each(|element| element.reverse());
    written(&lists)
}

/// The slices with one thing changed in them.
pub fn damaged(raw: &Raw, random: &mut Random) -> Raw {
    if plain::shape(raw) == 0 && !random.once_in(6) {
        let mut lists = lists(raw);
        damage_lists(&mut lists, random);
        return written(&lists);
    }
    let mut raw = raw.clone();
    damage_slices(&mut raw, random);
    raw
}

/// A number, an end or a count changed as it stands; the shape may break.
fn damage_slices(raw: &mut Raw, random: &mut Random) {
    let slices = [&mut raw.counts, &mut raw.ends, &mut raw.inc];
    let slice = slices.into_iter().nth(random.below(3)).expect("one of three");
    if slice.is_empty() {
        return slice.push(random.below(3) as u16);
    }
    let (at, other) = (random.below(slice.len()), random.below(slice.len()));
    match random.below(5) {
        0 => slice.push(random.below(3) as u16),
        1 => drop(slice.pop()),
        2 => slice[at] = slice[at].wrapping_add(1),
        3 => slice[at] = slice[at].wrapping_sub(1),
        _ => slice.swap(at, other),
    }
}

/// A list, an incidence, an element or a rank changed; the shape stays.
fn damage_lists(lists: &mut Lists, random: &mut Random) {
    let r = random.below(lists.len());
    if lists[r].is_empty() {
        return;
    }
    let i = random.below(lists[r].len());
    let side = random.below(2);
    let list = &mut lists[r][i][side];
    let (at, other) = (random.below(list.len()), random.below(list.len()));
    match random.below(13) {
        0 if !list.is_empty() => list[at] = *random.pick(&[0, 1, 2, list[at] ^ 1, list[at].saturating_add(1), 65535]),
        1 if !list.is_empty() => drop(list.remove(at)),
        2 if !list.is_empty() => list.insert(at, list[at]),
        3 if !list.is_empty() => list.swap(at, other),
        4 => list.push(random.below(5) as u16),
        5 => list.reverse(),
        6 => list.clear(),
        7 | 8 if !list.is_empty() => {
            // An incidence dropped, or doubled, on both sides.
            let double = random.once_in(2);
            let x = list[at];
            let back = if side == 0 { r.checked_sub(1) } else { Some(r + 1) };
            let over = |list: &mut Vec<u16>, x: u16| match double {
                true => list.push(x),
                false => list.retain(|&y| y != x),
            };
            over(list, x);
            if let Some(other) = back.and_then(|r| lists.get_mut(r)).and_then(|rank| rank.get_mut(usize::from(x))) {
                over(&mut other[1 - side], i as u16);
            }
        }
        9 if r + 1 < lists.len() && !lists[r + 1].is_empty() => {
            // An incidence added on both sides.
            let x = random.below(lists[r + 1].len());
            lists[r][i][1].push(x as u16);
            lists[r + 1][x][0].push(i as u16);
        }
        10 => {
            // An element once more, listed by the others as the first one is.
            let copy = lists[r][i].clone();
            let new = lists[r].len() as u16;
            for (side, list) in copy.iter().enumerate() {
                let back = if side == 0 { r.checked_sub(1) } else { Some(r + 1) };
                for &x in list {
                    let other = back.and_then(|r| lists.get_mut(r)).and_then(|rank| rank.get_mut(usize::from(x)));
                    other.into_iter().for_each(|other| other[1 - side].push(new));
                }
            }
            lists[r].push(copy);
        }
        11 => drop(lists[r].remove(i)),
        12 if lists.len() > 1 => drop(lists.remove(r)),
        _ => {}
    }
}
