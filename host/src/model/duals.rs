//! Duals: the ranks in the opposite order, each element with its two lists exchanged, and what is refused.

use flumedrac::ffi::{Answer, Built};
use flumedrac::Slices;

use super::{layers, Break, Element, Model, RIGHT};
use crate::library::{Outputs, Test, ALL_ROOM};

/// The two lists of each element of a rank.
type Rank = Vec<[Vec<u16>; 2]>;

impl Model {
    /// An element of the dual: it lists first what was over it, and then what was under it.
    fn turned(&self, element: &Element<'_>, in_the_middle: bool) -> [Vec<u16>; 2] {
        let mut lists = [element.sups.to_vec(), element.subs.to_vec()];
        let kept = [Break::DualListsKept, Break::DualItself].iter().any(|&fault| self.has(fault));
        if kept || (in_the_middle && self.has(Break::DualMiddleKept)) {
            lists.reverse();
        }
        if self.has(Break::DualListsReversed) {
            lists.iter_mut().for_each(|list| list.reverse());
        }
        lists
    }

    /// Every element at the index that it has from the other end of its rank, in the lists too, which are put in order.
    fn from_the_other_end(ranks: &mut [Rank]) {
        let counts: Vec<u16> = ranks.iter().map(|rank| rank.len() as u16).collect();
        let turn = |list: &mut Vec<u16>, count: Option<&u16>| {
            list.iter_mut().for_each(|x| *x = count.expect("a listed element exists") - 1 - *x);
            list.sort_unstable();
        };
        for (r, rank) in ranks.iter_mut().enumerate() {
            rank.reverse();
            for [subs, sups] in rank {
                turn(subs, r.checked_sub(1).and_then(|under| counts.get(under)));
                turn(sups, counts.get(r + 1));
            }
        }
    }

    /// The three slices of the dual.
    fn dual_slices(&self, l: Slices<'_>) -> [Vec<u16>; 3] {
        let cell = layers(l);
        let in_the_middle = |r: usize| 2 * r + 1 == cell.len();
        let turned = |(r, rank): (usize, &Vec<Element<'_>>)| -> Rank {
            rank.iter().map(|element| self.turned(element, in_the_middle(r))).collect()
        };
        let mut ranks: Vec<Rank> = cell.iter().enumerate().map(turned).collect();
        if ![Break::DualRanksKept, Break::DualItself].iter().any(|&fault| self.has(fault)) {
            ranks.reverse();
        }
        if self.has(Break::DualIndicesReversed) {
            Self::from_the_other_end(&mut ranks);
        }
        let counts = ranks.iter().map(|rank| rank.len() as u16).collect();
        let (mut ends, mut inc) = (vec![], vec![]);
        for [subs, sups] in ranks.iter().flatten() {
            let inside = if self.has(Break::DualEndsInside) { sups.len() } else { subs.len() };
            ends.push((inc.len() + inside) as u16);
            inc.extend([subs.as_slice(), sups].concat());
            ends.push(inc.len() as u16);
        }
        match self.fault {
            Some(Break::DualCountsKept) => [l.counts.to_vec(), ends, inc],
            Some(Break::DualEndsKept) => [counts, l.ends.to_vec(), inc],
            _ => [counts, ends, inc],
        }
    }

    /// Whether slices of these lengths are too short.
    fn dual_short(&self, l: Slices<'_>, room: [usize; 3]) -> bool {
        let own = [l.counts.len(), l.ends.len(), l.inc.len()];
        let size = if self.has(Break::DualRoomOfAll) { ALL_ROOM } else { own };
        (0..3).any(|i| match self.fault {
            Some(Break::DualShortFree) => false,
            Some(Break::DualShortEnds) if i == 1 => false,
            Some(Break::DualExactRefused) => room[i] <= size[i],
            _ => room[i] < size[i],
        })
    }

    /// What refuses the dual in slices of these lengths, if anything does.
    fn dual_refused(&self, l: Slices<'_>, room: [usize; 3]) -> Option<Answer> {
        let plain = |no: u16| Answer { no, ..Answer::default() };
        let short = self.dual_short(l, room);
        let test = if self.has(Break::DualByValid) { Test::IsValid } else { Test::Closed };
        match RIGHT.tested(test, l) {
            Some(_) if short && self.has(Break::DualShortFirst) => Some(plain(36)),
            Some(answer) if self.has(Break::DualNoFields) => Some(plain(answer.no)),
            Some(answer) => Some(answer),
            None if self.has(Break::DualAsksBody) && RIGHT.in_parts(&layers(l)) => Some(plain(25)),
            None => short.then(|| plain(36)),
        }
    }

    pub(super) fn answer_dual(&self, l: Slices<'_>, lent: Outputs<'_>) -> Built {
        let [counts, ends, inc] = [l.counts, l.ends, l.inc].map(|slice| slice.len() as u16);
        if let Some(answer) = self.dual_refused(l, [0, 1, 2].map(|i| lent[i].len())) {
            let writes = if answer.no == 36 { Break::DualShortWrites } else { Break::DualRefusedWrites };
            if self.has(writes) {
                lent.into_iter().for_each(|slice| slice.iter_mut().take(1).for_each(|number| *number = 0));
            }
            return match answer.no == 36 && self.has(Break::DualRefusedLengths) {
                true => Built { answer, counts, ends, inc },
                false => Built { answer, ..Built::default() },
            };
        }
        let mut slices = self.dual_slices(l);
        // Where 36 is not asked, by a fault, what fits is written.
        slices.iter_mut().zip(&lent).for_each(|(slice, lent)| slice.truncate(lent.len()));
        let writer = if self.has(Break::DualWritesBehind) { Model::broken(Break::WritesRest) } else { RIGHT };
        let built = writer.lend(slices, lent);
        Built { inc: built.inc - u16::from(self.has(Break::DualLengthOneLess) && built.inc > 0), ..built }
    }
}
