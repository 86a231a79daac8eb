//! Whether a cell is one body: all its flags, counted and listed apart from the search, and the parts that they are in.

use std::collections::HashSet;

use flumedrac::ffi::{Answer, Searched};
use flumedrac::{Slices, MAX_FLAGS};

use super::{layers, Break, Element, Layers, Model, RIGHT};
use crate::library::Test;

type Flag = Vec<u16>;

impl Model {
    /// The flag of first sups: from the minimal element upward, the first sup each time.
    fn body_first(&self, cell: &Layers<'_>) -> Flag {
        let mut flag = vec![0; cell.len()];
        if self.has(Break::BodyFromSubs) {
            (1..cell.len()).rev().for_each(|r| flag[r - 1] = cell[r][flag[r] as usize].subs[0]);
            return flag;
        }
        for r in 1..cell.len() {
            let sups = cell[r - 1][flag[r - 1] as usize].sups;
            flag[r] = if self.has(Break::BodyFromLastSups) { sups[sups.len() - 1] } else { sups[0] };
        }
        flag
    }

    /// The mask of every change.
    fn body_mask(&self, cell: &Layers<'_>) -> u16 {
        let highest = cell.len().saturating_sub(2);
        let last = if self.has(Break::BodyMaskShort) { highest.saturating_sub(1) } else { highest };
        (1..=last).map(|r| 1 << r).sum()
    }

    /// How many flags there are in all: up to an element there are as many chains as up to its subs together.
    fn flags_in_all(&self, cell: &Layers<'_>) -> u128 {
        let up_to = |below: Vec<u128>, rank: &Vec<Element<'_>>| -> Vec<u128> {
            rank.iter().map(|element| element.subs.iter().map(|&sub| below[sub as usize]).sum()).collect()
        };
        let all = cell[1..].iter().fold(vec![1], up_to)[0];
        match self.fault {
            Some(Break::BodyWraps16) => all % (1 << 16),
            Some(Break::BodyWraps32) => all % (1 << 32),
            Some(Break::BodyFullRefused) => all + 1,
            _ => all,
        }
    }

    /// The flags that have these members in their upper ranks; in all no more than one over the limit.
    fn list_flags(cell: &Layers<'_>, upper: &[u16], flags: &mut Vec<Flag>) {
        let r = cell.len() - upper.len();
        if flags.len() > MAX_FLAGS {
            return;
        }
        if r == 0 {
            return flags.push(upper.to_vec());
        }
        for &sub in cell[r][upper[0] as usize].subs {
            Self::list_flags(cell, &[&[sub], upper].concat(), flags);
        }
    }

    /// How many parts these flags are in, where changes up to a rank lead from a flag to all others of its part. Each
    /// part is taken out whole, from the first flag that is left.
    fn parts(&self, cell: &Layers<'_>, flags: &[Flag], last: usize) -> usize {
        let mut left: HashSet<Flag> = flags.iter().cloned().collect();
        let mut parts = 0;
        for first in flags {
            let mut found: Vec<Flag> = left.take(first).into_iter().collect();
            parts += found.len();
            while let Some(flag) = found.pop() {
                let mut near: Vec<Flag> = (1..=last).map(|r| RIGHT.changed(cell, &flag, r)).collect();
                if self.has(Break::PartsByVertex) {
                    near.extend(left.iter().filter(|other| other.get(1) == flag.get(1)).cloned());
                }
                found.extend(near.iter().filter_map(|flag| left.take(flag)));
            }
        }
        parts
    }

    /// Whether the flags are in several parts.
    pub(super) fn in_parts(&self, cell: &Layers<'_>) -> bool {
        let rank = cell.len() - 1;
        let mut flags = vec![];
        // The top is element 0 of its rank.
        Self::list_flags(cell, &[0], &mut flags);
        if self.has(Break::PartsOfFaces) && rank > 3 {
            let faces: HashSet<&[u16]> = flags.iter().map(|flag| &flag[3..]).collect();
            return self.parts(cell, &flags, 2) > faces.len();
        }
        !self.has(Break::PartsFree) && self.parts(cell, &flags, rank.saturating_sub(1)) > 1
    }

    /// The number of what is refused of a closed cell, 0 for nothing.
    fn body_refusal(&self, cell: &Layers<'_>, room: usize, searched: &Searched) -> u16 {
        let room = if self.has(Break::BodyRoomFree) { room } else { room.min(MAX_FLAGS) };
        let more = match self.has(Break::BodyByReached) {
            true => searched.answer.no != 0,
            false => self.flags_in_all(cell) > room as u128,
        };
        match more {
            true if self.has(Break::PartsBeforeMore) && self.in_parts(cell) => 25,
            true => 22,
            false if self.in_parts(cell) => 25,
            false => 0,
        }
    }

    pub(super) fn answer_body(&self, l: Slices<'_>, table: &mut [u16], orientations: &mut [u8]) -> Searched {
        let refused = |answer: Answer| Searched { answer, ..Searched::default() };
        let plain = |no: u16| Answer { no, ..Answer::default() };
        let test = if self.has(Break::BodyByValid) { Test::IsValid } else { Test::Closed };
        if let Some(answer) = RIGHT.tested(test, l) {
            return refused(if self.has(Break::BodyNoFields) { plain(answer.no) } else { answer });
        }
        let cell = layers(l);
        let (old_table, old_orientations) = (table.to_vec(), orientations.to_vec());
        let (first, mask) = (self.body_first(&cell), self.body_mask(&cell));
        let searched = RIGHT.answer_search(l, &first, mask, table, orientations);
        let room = (table.len() / cell.len()).min(orientations.len());
        let no = self.body_refusal(&cell, room, &searched);
        let silent = [(22, Break::BodyMoreWritesNothing), (25, Break::PartsWriteNothing)];
        if silent.iter().any(|&(refusal, fault)| no == refusal && self.has(fault)) {
            table.copy_from_slice(&old_table);
            orientations.copy_from_slice(&old_orientations);
        }
        match no {
            0 => searched,
            _ if self.has(Break::BodyKeepsNumbers) => Searched { answer: plain(no), ..searched },
            _ => refused(plain(no)),
        }
    }
}

#[cfg(test)]
mod tests {
    use super::*;
    use crate::cells::{digonal, hemicube, product, stacked};
    use crate::Kind::Duopyramid;
    use flumedrac::Listing;

    /// Flags in all, by hand: those of a duopyramid are those of its factors multiplied, times the ways to mix their
    /// ranks.
    #[test]
    fn flags_are_counted() {
        let all = |cell: &Listing| RIGHT.flags_in_all(&layers(cell.slices()));
        assert_eq!([Listing::nullitope(), Listing::point(), Listing::dyad()].map(|cell| all(&cell)), [1, 1, 2]);
        assert_eq!([hemicube(), digonal(15), stacked(&[3, 5])].map(|cell| all(&cell)), [24, 1 << 14, 6 * 10]);
        let (five, four) = (digonal(5), product(Duopyramid, &digonal(3), &Listing::dyad()));
        let ten = product(Duopyramid, &five, &five);
        assert_eq!([&five, &four, &ten].map(all), [16, 10 * 4 * 2, 252 * 16 * 16]);
        // 3003 times 64,512 times 80.
        assert_eq!(all(&product(Duopyramid, &ten, &four)), 15_498_362_880);
    }
}
