//! What is asked of the Rust files, in plain numbers and lists.
//!
//! Every call catches a panic and then answers `None`.

use std::panic::{catch_unwind, AssertUnwindSafe};

use miratope_core::abs::flag::{Flag, FlagChanges, FlagEvent, Orientation, OrientedFlagIter};
use miratope_core::abs::{Abstract, AbstractError, AbstractResult, Element, IncidenceType, Ranked, Ranks};
use miratope_core::Polytope;
use vec_like::VecLike;

/// A refusal's number and its four fields; all 0 if there is none.
pub type Answer = [usize; 5];

/// One event of a search.
#[derive(Clone, Debug, PartialEq, Eq)]
pub enum Event {
    /// A new flag, and whether it is odd.
    Flag(Vec<usize>, bool),
    /// The one event that says that the cell is not orientable.
    NonOrientable,
}

/// The four products.
#[derive(Clone, Copy, Debug, PartialEq, Eq)]
pub enum Product {
    Duopyramid,
    Duoprism,
    Duotegum,
    Duocomb,
}

/// A listing as the Rust files hold it.
#[derive(Clone)]
pub struct Cell(Abstract);

impl Cell {
    /// The listing in three slices that pass the shape test, each list as it stands there. The lists are taken as
    /// sorted; only the changes and the search ask that.
    pub fn new(counts: &[u16], ends: &[u16], inc: &[u16]) -> Self {
        let mut start = 0;
        let mut lists = ends.iter().map(|&end| {
            let list: Vec<usize> = inc[start..end as usize].iter().map(|&x| x as usize).collect();
            start = end as usize;
            list
        });
        let mut element = || Element::new(lists.next().unwrap().into(), lists.next().unwrap().into());
        let ranks = counts.iter().map(|&count| (0..count).map(|_| element()).collect()).collect();
        Self::with_ranks(ranks)
    }

    /// Elements without any lists, for the counts alone.
    pub fn bare(counts: &[u16]) -> Self {
        let ranks = counts.iter().map(|&count| vec![Element::default(); count as usize].into()).collect();
        Self::with_ranks(ranks)
    }

    fn with_ranks(ranks: Ranks) -> Self {
        // Safety: nothing in the files relies on a valid listing to keep memory safe.
        unsafe {
            let mut cell = Abstract::from_ranks(ranks);
            cell.set_sorted(true);
            Self(cell)
        }
    }

    /// The listing with one more rank, whose one element lies over all elements of the top rank. Its diamond test looks
    /// at the old top rank too.
    pub fn one_rank_more(&self) -> Self {
        let mut ranks = self.0.ranks().clone();
        let top = ranks.len() - 1;
        for element in ranks[top].iter_mut() {
            element.sups = vec![0].into();
        }
        ranks.push(vec![Element::max(ranks[top].len())].into());
        Self::with_ranks(ranks)
    }

    /// The three slices.
    pub fn slices(&self) -> [Vec<u16>; 3] {
        let (mut counts, mut ends, mut inc) = (vec![], vec![], vec![]);
        for elements in self.0.ranks() {
            counts.push(short(elements.len()));
            for element in elements {
                inc.extend(element.subs.iter().copied().map(short));
                ends.push(short(inc.len()));
                inc.extend(element.sups.iter().copied().map(short));
                ends.push(short(inc.len()));
            }
        }
        [counts, ends, inc]
    }

    pub fn rank(&self) -> Option<usize> {
        caught(|| self.0.rank())
    }

    pub fn el_count(&self, rank: usize) -> Option<usize> {
        caught(|| self.0.el_count(rank))
    }

    pub fn vertex_count(&self) -> Option<usize> {
        caught(|| self.0.vertex_count())
    }

    pub fn facet_count(&self) -> Option<usize> {
        caught(|| self.0.facet_count())
    }

    pub fn bounded(&self) -> Option<Answer> {
        caught(|| answer(self.0.ranks().bounded()))
    }

    pub fn check_incidences(&self) -> Option<Answer> {
        caught(|| answer(self.0.ranks().check_incidences()))
    }

    pub fn is_dyadic(&self) -> Option<Answer> {
        caught(|| answer(self.0.ranks().is_dyadic()))
    }

    pub fn is_valid(&self) -> Option<Answer> {
        caught(|| answer(self.0.ranks().is_valid()))
    }

    /// A product of two listings. A duocomb with a point and no nullitope is not asked for: of two points it takes all
    /// memory.
    pub fn product(which: Product, p: &Self, q: &Self) -> Option<Self> {
        let (p, q) = (&p.0, &q.0);
        caught(|| match which {
            Product::Duopyramid => p.duopyramid(q),
            Product::Duoprism => p.duoprism(q),
            Product::Duotegum => p.duotegum(q),
            Product::Duocomb => {
                let ranks = [p.rank(), q.rank()];
                assert!(ranks.contains(&0) || !ranks.contains(&1), "a duocomb with a point");
                p.duocomb(q)
            }
        })
        .map(Self)
    }

    /// The dual. It asks nothing of the listing.
    pub fn dual(&self) -> Option<Self> {
        caught(|| self.0.dual()).map(Self)
    }

    /// The flag changed at a rank.
    pub fn change(&self, flag: &[usize], r: usize) -> Option<Vec<usize>> {
        caught(|| Flag::from(flag.to_vec()).change(&self.0, r).into_inner())
    }

    /// The events of the search with these changes, as many as there are up to a limit.
    pub fn events(&self, first: &[usize], changes: &[usize], limit: usize) -> Option<Vec<Event>> {
        caught(|| self.search(first, changes).take(limit).map(event).collect())
    }

    /// How many events the search has.
    pub fn event_count(&self, first: &[usize], changes: &[usize]) -> Option<usize> {
        caught(|| self.search(first, changes).count())
    }

    fn search(&self, first: &[usize], changes: &[usize]) -> OrientedFlagIter<'_> {
        let changes = FlagChanges::from(changes.to_vec());
        OrientedFlagIter::with_flags(&self.0, changes, first.to_vec().into())
    }
}

/// The sign of an orientation.
pub fn sign(odd: bool) -> f64 {
    let orientation = if odd { Orientation::Odd } else { Orientation::Even };
    orientation.sign()
}

fn caught<T>(call: impl FnOnce() -> T) -> Option<T> {
    catch_unwind(AssertUnwindSafe(call)).ok()
}

fn short(x: usize) -> u16 {
    x.try_into().expect("a number of a listing fits 16 bits")
}

fn event(event: FlagEvent) -> Event {
    match event {
        FlagEvent::Flag(found) => Event::Flag(found.flag.into_inner(), found.orientation == Orientation::Odd),
        FlagEvent::NonOrientable => Event::NonOrientable,
    }
}

/// The number and the fields of what a test says.
fn answer(result: AbstractResult<()>) -> Answer {
    use IncidenceType::{Subelement, Superelement};
    match result {
        Ok(()) => [0; 5],
        Err(AbstractError::Bounded { min_count, max_count }) => [10, min_count, max_count, 0, 0],
        Err(AbstractError::Ranked { el: (r, i), incidence_type }) => match incidence_type {
            Subelement => [11, r, i, 0, 0],
            Superelement => [12, r, i, 0, 0],
        },
        Err(AbstractError::Consistency { el: (r, i), incidence_type, index }) => match incidence_type {
            Subelement => [13, r, i, index, 0],
            Superelement => [14, r, i, index, 0],
        },
        Err(AbstractError::Index { el: (r, i), incidence_type, index }) => match incidence_type {
            Subelement => [15, r, i, index, 0],
            Superelement => [16, r, i, index, 0],
        },
        Err(AbstractError::Dyadic { section: s, more }) => {
            [if more { 17 } else { 18 }, s.lo_rank, s.lo_idx, s.hi_rank, s.hi_idx]
        }
        Err(AbstractError::Connected(_)) => unreachable!("no test gives this"),
    }
}
