//! The products: their refusals, their elements and lists, and what is written to the slices lent.

use std::collections::HashMap;

use flumedrac::ffi::{Answer, Built};
use flumedrac::{Slices, MAX_ELEMENTS, MAX_INCIDENCES, MAX_RANKS};

use super::{layers, Break, Element, Layers, Model};
use crate::library::{Kind, Outputs, Test};

/// The elements of a product: pairs of ranks and indices, by rank. The added ends are no pairs.
type Pair = (usize, usize, usize, usize);

impl Model {
    /// The three slices of a product whose refusals up to 33 are settled, or 34 or 35.
    fn build(&self, kind: Kind, first: &Layers<'_>, second: &Layers<'_>) -> Result<[Vec<u16>; 3], Answer> {
        let (low, high) = (kind.adds_minimal() as usize, kind.adds_maximal() as usize);
        let rank = first.len() + second.len() - 2 - low - high;
        let used = |cell: &Layers<'_>| low..cell.len() - high;
        let subs_in = |rank: &Vec<Element<'_>>| -> usize { rank.iter().map(|element| element.subs.len()).sum() };

        // Sizes.
        let mut elements = low + high;
        let mut subs = 0;
        for r in used(first) {
            for s in used(second) {
                let pairs = first[r].len() * second[s].len();
                elements += pairs;
                if r > low {
                    subs += subs_in(&first[r]) * second[s].len();
                }
                if s > low {
                    subs += first[r].len() * subs_in(&second[s]);
                }
                if (r, s) == (low, low) {
                    subs += low * pairs;
                }
                if r + s - low == rank - high {
                    subs += high * pairs;
                }
            }
        }
        if elements > MAX_ELEMENTS - self.has(Break::ElementsOneLess) as usize {
            return Err(Answer { no: 34, ..Answer::default() });
        }
        if 2 * subs > MAX_INCIDENCES - self.has(Break::IncidencesOneLess) as usize {
            return Err(Answer { no: 35, ..Answer::default() });
        }

        // The pairs of each rank, and where each one stands.
        let mut pairs: Vec<Vec<Pair>> = vec![vec![]; rank + 1];
        let mut place = HashMap::new();
        for r in used(first) {
            for s in used(second) {
                for i in 0..first[r].len() {
                    for j in 0..second[s].len() {
                        let here = &mut pairs[r + s - low];
                        place.insert((r, i, s, j), here.len() as u16);
                        here.push((r, i, s, j));
                    }
                }
            }
        }

        // Subs, rank by rank.
        let mut subs: Vec<Vec<Vec<u16>>> = vec![];
        if low == 1 {
            subs.push(vec![vec![]]);
        }
        for rank in &pairs[low..=rank - high] {
            subs.push(rank.iter().map(|&pair| self.pair_subs(low, first, second, &place, pair)).collect());
        }
        if high == 1 {
            let facets = subs[rank - 1].len() as u16;
            subs.push(vec![(0..facets).collect()]);
        }
        Ok(self.written(&subs))
    }

    fn pair_subs(
        &self,
        low: usize,
        first: &Layers<'_>,
        second: &Layers<'_>,
        place: &HashMap<Pair, u16>,
        (r, i, s, j): Pair,
    ) -> Vec<u16> {
        let mut firsts = vec![];
        let mut seconds = vec![];
        if r > low {
            firsts.extend(first[r][i].subs.iter().map(|&x| place[&(r - 1, x as usize, s, j)]));
        }
        if s > low {
            seconds.extend(second[s][j].subs.iter().map(|&x| place[&(r, i, s - 1, x as usize)]));
        }
        let mut subs = if self.has(Break::SubsOtherOrder) { [seconds, firsts] } else { [firsts, seconds] }.concat();
        if subs.is_empty() && low == 1 {
            subs.push(0);
        }
        subs
    }

    /// The slices with these subs, sups gathered from them. A sub that does not exist gets none.
    pub(super) fn written(&self, subs: &[Vec<Vec<u16>>]) -> [Vec<u16>; 3] {
        let counts = subs.iter().map(|rank| rank.len() as u16).collect();
        let mut ends = vec![];
        let mut inc = vec![];
        for (r, rank) in subs.iter().enumerate() {
            let mut sups = vec![vec![]; rank.len()];
            for (index, above) in subs.get(r + 1).into_iter().flatten().enumerate() {
                for &sub in above {
                    let missing_to_last = self.has(Break::MissingToLast) && sub as usize >= rank.len();
                    let sub = if missing_to_last { rank.len() - 1 } else { sub as usize };
                    let Some(list) = sups.get_mut(sub) else { continue };
                    if !self.has(Break::SupsOnce) || list.last() != Some(&(index as u16)) {
                        list.push(index as u16);
                    }
                }
            }
            for (subs, mut sups) in rank.iter().zip(sups) {
                if self.has(Break::SupsDownward) {
                    sups.reverse();
                }
                inc.extend_from_slice(subs);
                ends.push(inc.len() as u16);
                inc.extend_from_slice(&sups);
                ends.push(inc.len() as u16);
            }
        }
        if self.has(Break::FirstEndMoved) {
            ends[0] += 1;
        }
        [counts, ends, inc]
    }

    /// The slices of a product, or its refusal up to 35.
    fn product_slices(&self, kind: Kind, p: Slices<'_>, q: Slices<'_>) -> Result<[Vec<u16>; 3], Answer> {
        let left = if self.has(Break::FactorClosed) { Test::Closed } else { Test::IsValid };
        if self.tested(left, p).is_some() {
            return Err(Answer { no: 30, ..Answer::default() });
        }
        let right = if self.has(Break::RightUntested) { self.shape(q) } else { self.tested(Test::IsValid, q) };
        if right.is_some() {
            return Err(Answer { no: 31, ..Answer::default() });
        }
        if self.has(Break::FirstFactor) {
            return Ok([p.counts.to_vec(), p.ends.to_vec(), p.inc.to_vec()]);
        }
        let (p, q) = (layers(p), layers(q));
        let (p_rank, q_rank) = (p.len() - 1, q.len() - 1);
        let nullitope = kind != Kind::Duopyramid || self.has(Break::PyramidNullitope);
        if nullitope && (p_rank == 0 || q_rank == 0) {
            return Ok([vec![1], vec![0, 0], vec![]]);
        }
        if kind == Kind::Duocomb && (p_rank == 1 || q_rank == 1) {
            let no = if self.has(Break::CombOfOnePoint) && p_rank != q_rank { 33 } else { 32 };
            return Err(Answer { no, ..Answer::default() });
        }
        let rank = p_rank + q_rank - kind.adds_minimal() as usize - kind.adds_maximal() as usize;
        if rank >= MAX_RANKS - self.has(Break::RanksOneLess) as usize {
            return Err(Answer { no: 33, ..Answer::default() });
        }
        if kind.takes_second_first() && !(self.has(Break::PairsSwapped) && kind == Kind::Duopyramid) {
            self.build(kind, &q, &p)
        } else {
            self.build(kind, &p, &q)
        }
    }

    pub(super) fn answer_product(&self, kind: Kind, p: Slices<'_>, q: Slices<'_>, lent: Outputs<'_>) -> Built {
        let slices = match self.product_slices(kind, p, q) {
            Ok(slices) => slices,
            Err(answer) => {
                let early = self.has(Break::ShortBeforeIncidences) && answer.no == 35 && lent[2].len() < MAX_INCIDENCES;
                let answer = if early { Answer { no: 36, ..answer } } else { answer };
                return Built { answer, ..Built::default() };
            }
        };
        self.lend(slices, lent)
    }

    /// What is answered and written where these slices are to stand in front of those lent: 36 if one does not fit.
    pub(super) fn lend(&self, slices: [Vec<u16>; 3], mut lent: Outputs<'_>) -> Built {
        let lengths = [slices[0].len(), slices[1].len(), slices[2].len()];
        let short = (0..3).any(|i| lent[i].len() < lengths[i] && !(i == 2 && self.has(Break::ShortInc)));
        if short {
            if self.has(Break::ShortWrites) {
                lent[0].fill(0);
            }
            return Built { answer: Answer { no: 36, ..Answer::default() }, ..Built::default() };
        }
        for (slice, lent) in slices.iter().zip(&mut lent) {
            if self.has(Break::WritesNothing) {
                continue;
            }
            let n = slice.len().min(lent.len());
            lent[..n].copy_from_slice(&slice[..n]);
            if let (Some(next), true) = (lent.get_mut(n), self.has(Break::WritesRest)) {
                *next = 0;
            }
        }
        let [counts, ends, inc] = lengths.map(|n| n as u16);
        Built { answer: Answer::default(), counts, ends, inc }
    }
}
