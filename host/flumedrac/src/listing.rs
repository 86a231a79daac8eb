//! Listings: cells in three slices.

use std::iter;

use crate::ffi::Built;
use crate::Refusal;

/// The most ranks a listing has.
pub const MAX_RANKS: usize = 16;
/// The most elements a listing has.
pub const MAX_ELEMENTS: usize = 4096;
/// The most incidences a listing has.
pub const MAX_INCIDENCES: usize = 32768;
/// The most flags a search finds.
pub const MAX_FLAGS: usize = 16384;
/// The most bytes a text has.
pub const MAX_TEXT: usize = 65536;
/// The most metres a coordinate has, either way from 0.
pub const MAX_METRES: usize = 1000;

/// Three lent slices, whether or not they are a listing.
#[derive(Clone, Copy, Debug, PartialEq, Eq)]
pub struct Slices<'a> {
    /// The number of elements of each rank, rank 0 first.
    pub counts: &'a [u16],
    /// For each element, by rank and then index, where its subs end in `inc` and where its sups end.
    pub ends: &'a [u16],
    /// The indices: an element's subs, one rank lower, and then its sups, one rank higher.
    pub inc: &'a [u16],
}

/// A listing: the elements of each rank, each with its subs (directly under it) and its sups (directly over it).
///
/// A listing always has the right shape: 1 to 16 ranks, at most 4,096 elements and 32,768 incidences. Whether it is a
/// cell is what its tests say.
///
/// ```
/// use flumedrac::Listing;
/// let triangle = Listing::polygon(3)?;
/// assert_eq!(triangle.rank(), 3);
/// assert_eq!(triangle.vertex_count(), 3);
/// assert_eq!(triangle.subs(2, 1).collect::<Vec<_>>(), [0, 2]);
/// assert_eq!(triangle.sups(1, 0).collect::<Vec<_>>(), [0, 1]);
/// # Ok::<(), flumedrac::Refusal>(())
/// ```
#[derive(Clone, Debug, PartialEq, Eq, Hash)]
pub struct Listing {
    counts: Vec<u16>,
    ends: Vec<u16>,
    inc: Vec<u16>,
}

impl Listing {
    /// The listing in three slices, or the refusal of its shape.
    ///
    /// ```
    /// use flumedrac::{Listing, Refusal};
    /// let point = Listing::new(vec![1, 1], vec![0, 1, 2, 2], vec![0, 0])?;
    /// assert_eq!(point, Listing::point());
    /// assert_eq!(Listing::new(vec![1, 1], vec![0, 1, 2], vec![0, 0]), Err(Refusal::WrongEnds));
    /// # Ok::<(), Refusal>(())
    /// ```
    pub fn new(counts: Vec<u16>, ends: Vec<u16>, inc: Vec<u16>) -> Result<Self, Refusal> {
        let listing = Self { counts, ends, inc };
        match Refusal::check(crate::raw::bounded(listing.slices())) {
            Err(refusal) if refusal.class() == crate::Class::Shape => Err(refusal),
            _ => Ok(listing),
        }
    }

    /// The listing that a function of [`raw`](crate::raw) writes to slices which have room for any listing.
    pub(crate) fn written(write: impl FnOnce(&mut [u16], &mut [u16], &mut [u16]) -> Built) -> Result<Self, Refusal> {
        let mut counts = vec![0; MAX_RANKS];
        let mut ends = vec![0; 2 * MAX_ELEMENTS];
        let mut inc = vec![0; MAX_INCIDENCES];
        let built = write(&mut counts, &mut ends, &mut inc);
        Refusal::check(built.answer)?;
        Ok(Self {
            counts: counts[..built.counts as usize].to_vec(),
            ends: ends[..built.ends as usize].to_vec(),
            inc: inc[..built.inc as usize].to_vec(),
        })
    }

    /// The listing with these subs, rank by rank and element by element. Sups are derived from them: in order of the
    /// elements above, once for each occurrence. A sub that does not exist gets no sups, and the tests say so.
    ///
    /// Refuses a listing over the limits.
    ///
    /// ```
    /// use flumedrac::{Listing, Refusal};
    /// // Three vertices and three edges in a ring.
    /// let triangle = Listing::from_subs(&[
    ///     vec![vec![]],
    ///     vec![vec![0], vec![0], vec![0]],
    ///     vec![vec![0, 1], vec![0, 2], vec![1, 2]],
    ///     vec![vec![0, 1, 2]],
    /// ])?;
    /// assert_eq!(triangle.slices().counts, [1, 3, 3, 1]);
    /// assert_eq!(Listing::from_subs(&[]), Err(Refusal::NoRanks));
    /// # Ok::<(), Refusal>(())
    /// ```
    pub fn from_subs(ranks: &[Vec<Vec<u16>>]) -> Result<Self, Refusal> {
        let elements: usize = ranks.iter().map(Vec::len).sum();
        if ranks.is_empty() {
            return Err(Refusal::NoRanks);
        } else if ranks.len() > MAX_RANKS {
            return Err(Refusal::OverRanks);
        } else if elements > MAX_ELEMENTS {
            return Err(Refusal::OverElements);
        }
        let mut inc = vec![];
        let mut ends = vec![];
        for (r, rank) in ranks.iter().enumerate() {
            let mut sups = vec![vec![]; rank.len()];
            for (index, above) in ranks.get(r + 1).into_iter().flatten().enumerate() {
                for &sub in above {
                    if let Some(list) = sups.get_mut(sub as usize) {
                        list.push(index as u16);
                    }
                }
            }
            for (subs, sups) in iter::zip(rank, &sups) {
                for list in [subs, sups] {
                    inc.extend_from_slice(list);
                    ends.push(inc.len() as u16);
                    if inc.len() > MAX_INCIDENCES {
                        return Err(Refusal::OverIncidences);
                    }
                }
            }
        }
        let counts = ranks.iter().map(|rank| rank.len() as u16).collect();
        Ok(Self { counts, ends, inc })
    }

    /// The nullitope, rank 0: one element and nothing else.
    pub fn nullitope() -> Self {
        Self { counts: vec![1], ends: vec![0, 0], inc: vec![] }
    }

    /// The point, rank 1.
    pub fn point() -> Self {
        Self { counts: vec![1, 1], ends: vec![0, 1, 2, 2], inc: vec![0, 0] }
    }

    /// The dyad, rank 2: two vertices.
    pub fn dyad() -> Self {
        let ends = vec![0, 2, 3, 4, 5, 6, 8, 8];
        Self { counts: vec![1, 2, 1], ends, inc: vec![0, 1, 0, 0, 0, 0, 0, 1] }
    }

    /// A polygon with `n` sides, rank 3. Edges go in order of their vertices: the triangle's are 01, 02, 12.
    ///
    /// Over 2,047 sides are refused. With fewer than two it is a listing that is not closed.
    pub fn polygon(n: u16) -> Result<Self, Refusal> {
        let mut edges: Vec<Vec<u16>> = (1..n).map(|i| vec![i - 1, i]).collect();
        if n > 0 {
            edges.insert(1.min(edges.len()), vec![0, n - 1]);
        }
        Self::from_subs(&[vec![vec![]], vec![vec![0]; n as usize], edges, vec![(0..n).collect()]])
    }

    /// The three slices.
    pub fn slices(&self) -> Slices<'_> {
        Slices { counts: &self.counts, ends: &self.ends, inc: &self.inc }
    }

    /// The three slices, taken out.
    pub fn into_slices(self) -> (Vec<u16>, Vec<u16>, Vec<u16>) {
        (self.counts, self.ends, self.inc)
    }

    /// The rank: nullitope 0, point 1, dyad 2, polygon 3, cell 4.
    pub fn rank(&self) -> usize {
        self.counts.len() - 1
    }

    /// How many elements a rank has; 0 for a rank that is not there.
    pub fn el_count(&self, rank: usize) -> usize {
        self.counts.get(rank).map_or(0, |&count| count as usize)
    }

    /// How many vertices there are: elements of rank 1.
    pub fn vertex_count(&self) -> usize {
        self.el_count(1)
    }

    /// How many facets there are: elements of one rank below the top. The nullitope has none.
    pub fn facet_count(&self) -> usize {
        self.el_count(self.rank().wrapping_sub(1))
    }

    /// The elements directly under one element, in their order; none if there is no such element.
    pub fn subs(&self, rank: usize, index: usize) -> impl ExactSizeIterator<Item = u16> + '_ {
        self.list(rank, index, 0).iter().copied()
    }

    /// The elements directly over one element, in their order; none if there is no such element.
    pub fn sups(&self, rank: usize, index: usize) -> impl ExactSizeIterator<Item = u16> + '_ {
        self.list(rank, index, 1).iter().copied()
    }

    /// Side 0 is the subs, 1 the sups.
    fn list(&self, rank: usize, index: usize, side: usize) -> &[u16] {
        if index >= self.el_count(rank) {
            return &[];
        }
        let before: usize = self.counts[..rank].iter().map(|&count| count as usize).sum();
        let at = 2 * (before + index) + side;
        let start = if at == 0 { 0 } else { self.ends[at - 1] };
        &self.inc[start as usize..self.ends[at] as usize]
    }
}
