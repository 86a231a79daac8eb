//! The tests: shape, bounds, incidences, the diamond, ascent, and the five that are made of them.

use flumedrac::{Slices, MAX_ELEMENTS, MAX_INCIDENCES, MAX_RANKS};

use super::{layers, refuse, Break, Layers, Model, Refused};
use crate::library::Test;

impl Model {
    pub(super) fn shape(&self, l: Slices<'_>) -> Refused {
        let mut elements: usize = l.counts.iter().map(|&count| count as usize).sum();
        if self.has(Break::SumWraps) {
            elements %= 65536;
        }
        let last = l.ends.last().map_or(0, |&end| end as usize);
        let incidences = if self.has(Break::IncidencesByEnds) { last } else { l.inc.len() };
        let falls = l.ends.windows(2).any(|two| two[1] < two[0]);
        let fills = last == l.inc.len() || (self.has(Break::LastEndFree) && last <= l.inc.len());
        let faults = [
            l.counts.is_empty(),
            l.counts.len() > MAX_RANKS,
            elements > MAX_ELEMENTS,
            l.ends.len() != 2 * elements,
            incidences > MAX_INCIDENCES,
            falls || !fills,
        ];
        let first = faults.iter().position(|&fault| fault)?;
        refuse(first as u16 + 1, [0; 4])
    }

    fn bounded(&self, cell: &Layers<'_>) -> Refused {
        let (low, high) = (cell[0].len(), cell[cell.len() - 1].len());
        if low == 1 && high == 1 {
            return None;
        }
        refuse(10, [low, high, 0, 0])
    }

    fn incidences(&self, cell: &Layers<'_>) -> Refused {
        let top = cell.len() - 1;
        let (not_back, missing) = if self.has(Break::Exchanged) { (15, 13) } else { (13, 15) };
        for (r, rank) in cell.iter().enumerate() {
            for (i, element) in rank.iter().enumerate() {
                let no_sups = r != top && element.sups.is_empty();
                if self.has(Break::SupsFirst) && no_sups {
                    return refuse(12, [r, i, 0, 0]);
                }
                if r != 0 && element.subs.is_empty() {
                    return refuse(11, [r, i, 0, 0]);
                }
                for &x in element.subs {
                    let entry = [r, i, x as usize, 0];
                    match r.checked_sub(1).and_then(|under| cell[under].get(x as usize)) {
                        None => return refuse(missing, entry),
                        Some(sub) if !self.lists_back(element.subs, x, sub.sups, i) => return refuse(not_back, entry),
                        Some(_) => {}
                    }
                }
                if no_sups {
                    return refuse(12, [r, i, 0, 0]);
                }
                for &x in element.sups {
                    let entry = [r, i, x as usize, 0];
                    match cell.get(r + 1).and_then(|over| over.get(x as usize)) {
                        None => return refuse(16, entry),
                        Some(sup) if !self.lists_back(element.sups, x, sup.subs, i) => return refuse(14, entry),
                        Some(_) => {}
                    }
                }
            }
        }
        None
    }

    /// Whether the other list holds element i, whose own list holds x.
    fn lists_back(&self, own: &[u16], x: u16, other: &[u16], i: usize) -> bool {
        let count = |list: &[u16], x: u16| list.iter().filter(|&&y| y == x).count();
        if self.has(Break::BackByCount) {
            return count(own, x) == count(other, i as u16);
        }
        other.contains(&(i as u16))
    }

    /// The diamond with the higher element at ranks 2 to `last`.
    fn diamond(&self, cell: &Layers<'_>, last: usize) -> Refused {
        let mut stays = None;
        for r in 2..=last {
            for (i, element) in cell[r].iter().enumerate() {
                let mut tally = vec![0; cell[r - 2].len()];
                if let Some(met) = stays.and_then(|x: usize| tally.get_mut(x)) {
                    *met = 2;
                }
                let mut third = None;
                for &sub in element.subs {
                    let mut seen = vec![];
                    for &x in cell[r - 1].get(sub as usize).map_or(&[][..], |sub| sub.subs) {
                        if self.has(Break::OccurrencesOnce) && seen.contains(&x) {
                            continue;
                        }
                        seen.push(x);
                        let Some(met) = tally.get_mut(x as usize) else { continue };
                        *met += 1;
                        if *met == 3 && third.is_none() {
                            third = Some(x);
                        }
                    }
                }
                let lone = match self.has(Break::LoneLargest) {
                    true => tally.iter().rposition(|&met| met == 1),
                    false => tally.iter().position(|&met| met == 1),
                };
                let third = third.and_then(|x| refuse(17, [r - 2, x as usize, r, i]));
                let lone = lone.and_then(|x| refuse(18, [r - 2, x, r, i]));
                let found = if self.has(Break::LoneBeforeThird) { lone.or(third) } else { third.or(lone) };
                if found.is_some() {
                    return found;
                }
                if self.has(Break::OneNotUndone) {
                    stays = tally.iter().rposition(|&met| met == 2);
                }
            }
        }
        None
    }

    fn ascent(&self, cell: &Layers<'_>) -> Refused {
        let strict = !self.has(Break::AscentNotStrict);
        let ascends = |list: &[u16]| list.windows(2).all(|two| two[0] < two[1] || (!strict && two[0] == two[1]));
        for (r, rank) in cell.iter().enumerate() {
            for (i, element) in rank.iter().enumerate() {
                let subs = if ascends(element.subs) { None } else { refuse(19, [r, i, 0, 0]) };
                let sups = if ascends(element.sups) { None } else { refuse(19, [r, i, 1, 0]) };
                let found = if self.has(Break::AscentSupsFirst) { sups.or(subs) } else { subs.or(sups) };
                if found.is_some() {
                    return found;
                }
            }
        }
        None
    }

    fn is_valid(&self, cell: &Layers<'_>) -> Refused {
        let last = (cell.len() - 1).saturating_sub(1);
        self.bounded(cell).or_else(|| self.incidences(cell)).or_else(|| self.diamond(cell, last))
    }

    fn closed(&self, cell: &Layers<'_>) -> Refused {
        let rank = cell.len() - 1;
        let last = if self.has(Break::ClosedStopsEarly) { rank.saturating_sub(1) } else { rank };
        self.bounded(cell)
            .or_else(|| self.incidences(cell))
            .or_else(|| if self.has(Break::AscentNotAsked) { None } else { self.ascent(cell) })
            .or_else(|| self.diamond(cell, last))
    }

    pub(super) fn tested(&self, test: Test, l: Slices<'_>) -> Refused {
        self.shape(l).or_else(|| {
            let cell = &layers(l);
            let last = (cell.len() - 1).saturating_sub(1);
            match test {
                Test::Bounded => self.bounded(cell),
                Test::CheckIncidences => self.incidences(cell),
                Test::IsDyadic if self.has(Break::DyadicAlone) => self.diamond(cell, last),
                Test::IsDyadic if self.has(Break::DyadicBounded) => self.is_valid(cell),
                Test::IsDyadic => self.incidences(cell).or_else(|| self.diamond(cell, last)),
                Test::IsValid => self.is_valid(cell),
                Test::Closed => self.closed(cell),
            }
        })
    }
}
