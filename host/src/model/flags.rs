//! Flags: which are flags, changes, the search, and its events.

use std::collections::HashMap;

use flumedrac::ffi::{Answer, Changed, Cursor, Event, Searched};
use flumedrac::{Slices, MAX_FLAGS};

use super::{layers, refuse, Break, Layers, Model, Refused};
use crate::library::Test;

impl Model {
    fn is_flag(&self, cell: &Layers<'_>, flag: &[u16]) -> bool {
        let fits = flag.len() == cell.len() || (self.has(Break::LongFlag) && flag.len() > cell.len());
        let exists = || (0..cell.len()).all(|r| (flag[r] as usize) < cell[r].len());
        let under = || (1..cell.len()).all(|r| cell[r][flag[r] as usize].subs.contains(&flag[r - 1]));
        fits && exists() && (under() || self.has(Break::LooseFlag))
    }

    /// What refuses a change or a search with the changes of a mask.
    fn flag_refusal(&self, l: Slices<'_>, flag: &[u16], outside: bool) -> Refused {
        self.tested(Test::Closed, l).or_else(|| {
            let no_flag = if self.is_flag(&layers(l), flag) { None } else { refuse(20, [0; 4]) };
            let ranks = if outside { refuse(21, [0; 4]) } else { None };
            if self.has(Break::RanksBeforeFlag) {
                ranks.or(no_flag)
            } else {
                no_flag.or(ranks)
            }
        })
    }

    /// The flag of a closed listing changed at a rank from 1 to rank - 1.
    pub(super) fn changed(&self, cell: &Layers<'_>, flag: &[u16], r: usize) -> Vec<u16> {
        let mut next = flag.to_vec();
        let (below, above) = (flag[r - 1], flag[r + 1]);
        let between = |&&x: &&u16| cell[r][x as usize].subs.contains(&below) && x != flag[r];
        if let Some(&other) = cell[r + 1][above as usize].subs.iter().find(between) {
            if !self.has(Break::NoChange) {
                next[r] = other;
            }
        }
        next
    }

    /// What the change of a flag at a rank takes out and puts in: of the elements over the one below, the flag's own
    /// and the other that the one above lists.
    fn replaced(&self, cell: &Layers<'_>, flag: &[u16], r: usize) -> (u16, u16) {
        let [below, own, above] = [flag[r - 1], flag[r], flag[r + 1]];
        let listed = |x: u16| self.has(Break::PutAside) || cell[r + 1][above as usize].subs.contains(&x);
        let sups = cell[r - 1][below as usize].sups.iter();
        let other = sups.copied().find(|&x| x != own && listed(x)).expect("two elements between");
        match self.fault {
            Some(Break::ReplacedExchanged) => (other, own),
            Some(Break::PutOld) => (own, own),
            Some(Break::TakenBelow) => (below, other),
            Some(Break::PutAbove) => (own, above),
            _ => (own, other),
        }
    }

    fn ranks_of(&self, mask: u16) -> Vec<usize> {
        let mut ranks: Vec<usize> = (0..16).filter(|r| mask >> r & 1 == 1).collect();
        if self.has(Break::MaskDownward) {
            ranks.reverse();
        }
        ranks
    }

    pub(super) fn answer_change(&self, l: Slices<'_>, flag: &[u16], r: u16) -> Changed {
        let r = r as usize;
        let rank = l.counts.len().wrapping_sub(1);
        let last = if self.has(Break::ChangeAtTop) { rank } else { rank.saturating_sub(1) };
        if let Some(answer) = self.flag_refusal(l, flag, r < 1 || r > last) {
            let beside = if self.has(Break::ReplacedRefused) { flag.get(r).copied() } else { None };
            let number = beside.unwrap_or_default();
            return Changed { answer, taken: number, put: number, ..Changed::default() };
        }
        let mut changed = Changed::default();
        if r == rank {
            changed.flag[..=rank].copy_from_slice(flag);
        } else {
            let cell = layers(l);
            changed.flag[..=rank].copy_from_slice(&self.changed(&cell, flag, r)[..=rank]);
            (changed.taken, changed.put) = self.replaced(&cell, flag, r);
        }
        changed
    }

    pub(super) fn answer_search(
        &self,
        l: Slices<'_>,
        first: &[u16],
        mask: u16,
        table: &mut [u16],
        orientations: &mut [u8],
    ) -> Searched {
        let ranks = self.ranks_of(mask);
        let outside = ranks.iter().any(|&r| r < 1 || r + 1 >= l.counts.len());
        if let Some(answer) = self.flag_refusal(l, first, outside) {
            return Searched { answer, ..Searched::default() };
        }
        let cell = layers(l);
        let width = cell.len();
        let limit = MAX_FLAGS - self.has(Break::FlagsOneLess) as usize;
        let mut room = (table.len() / width).min(limit);
        if !self.has(Break::RoomByTable) {
            room = room.min(orientations.len());
        }
        let mut flags = vec![first[..width].to_vec()];
        let mut odd = vec![0];
        let mut number = HashMap::from([(flags[0].clone(), 0)]);
        let mut place = 0;
        let mut at = 0;
        while at < flags.len() && flags.len() <= room {
            for &r in &ranks {
                let next = self.changed(&cell, &flags[at], r);
                let flip = 1 - odd[at];
                match number.get(&next) {
                    Some(&known) => {
                        if place == 0 && odd[known] != flip {
                            place = flags.len();
                        }
                        if self.has(Break::OrientationFollows) {
                            odd[known] = flip;
                        }
                    }
                    None => {
                        number.insert(next.clone(), flags.len());
                        flags.push(next);
                        odd.push(if self.has(Break::NotFlipped) { odd[at] } else { flip });
                    }
                }
            }
            at += 1;
        }
        let more = flags.len() > room || (self.has(Break::FullRefused) && flags.len() == room);
        let kept = flags.len().min(room);
        if !(more && self.has(Break::MoreWritesNothing)) {
            for (i, flag) in flags[..kept].iter().enumerate() {
                let flag = if self.has(Break::OneFlag) { &flags[0] } else { flag };
                table[i * width..][..width].copy_from_slice(flag);
            }
            for (byte, odd) in orientations.iter_mut().zip(&odd[..kept]) {
                *byte = *odd;
            }
        }
        if more && !(self.has(Break::FullStops) && kept > 0) {
            let count = if self.has(Break::MoreKeepsCount) { kept as u16 } else { 0 };
            return Searched { answer: Answer { no: 22, ..Answer::default() }, count, ..Searched::default() };
        }
        let orientable = (place == 0) as u8;
        if self.has(Break::PlaceOneLess) && place > 0 {
            place -= 1;
        }
        if self.has(Break::EventAtEnd) && place > 0 {
            place = kept;
        }
        Searched { answer: Answer::default(), count: kept as u16, place: place as u16, orientable }
    }

    pub(super) fn answer_event(&self, cursor: &mut Cursor, count: u16, place: u16) -> Event {
        let (at, count, place) = (cursor.at as u64, count as u64, place as u64);
        let event_at = if self.has(Break::CursorLate) { place + 1 } else { place };
        let given = (1..=count).contains(&place);
        let events = if self.has(Break::CursorStops) { 1 } else { count + given as u64 };
        if at >= events {
            if self.has(Break::CursorRunsOn) {
                cursor.at = cursor.at.wrapping_add(1);
            }
            return Event::default();
        }
        cursor.at += 1;
        match at {
            at if !given || at < event_at => Event { kind: 1, flag: at as u16 },
            at if at == event_at => Event { kind: 2, flag: 0 },
            at => Event { kind: 1, flag: at as u16 - 1 },
        }
    }
}
