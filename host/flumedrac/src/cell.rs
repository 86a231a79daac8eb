//! The tests of a listing, its dual and its products.

use crate::ffi::Built;
use crate::{raw, Listing, Refusal, Slices};

/// A product in [`raw`]: two factors and the three slices to write.
type Product = fn(Slices<'_>, Slices<'_>, &mut [u16], &mut [u16], &mut [u16]) -> Built;

impl Listing {
    /// Whether there are one minimal and one maximal element.
    pub fn bounded(&self) -> Result<(), Refusal> {
        Refusal::check(raw::bounded(self.slices()))
    }

    /// Whether every element but the ends has subs and sups, each one listed exists, and it lists the element back.
    pub fn check_incidences(&self) -> Result<(), Refusal> {
        Refusal::check(raw::check_incidences(self.slices()))
    }

    /// Whether exactly two elements lie between any two that are two ranks apart with some element between, the higher
    /// one below the top. Incidences are tested first.
    pub fn is_dyadic(&self) -> Result<(), Refusal> {
        Refusal::check(raw::is_dyadic(self.slices()))
    }

    /// The three tests above, one after another. The top is not looked at: an edge that lies in one face only passes.
    ///
    /// ```
    /// use flumedrac::{Listing, Refusal, Section};
    /// // Three vertices directly under the top: no cell, and still valid.
    /// let tripod = Listing::from_subs(&[vec![vec![]], vec![vec![0]; 3], vec![vec![0, 1, 2]]])?;
    /// assert_eq!(tripod.is_valid(), Ok(()));
    /// let section = Section { low_rank: 0, low_index: 0, high_rank: 2, high_index: 0 };
    /// assert_eq!(tripod.closed(), Err(Refusal::ThirdBetween { section }));
    /// # Ok::<(), Refusal>(())
    /// ```
    pub fn is_valid(&self) -> Result<(), Refusal> {
        Refusal::check(raw::is_valid(self.slices()))
    }

    /// Whether the listing is a closed cell: bounded, its incidences right, every list ascending, and exactly two
    /// elements between any two that are two ranks apart, up to the top. Several cells under one top are closed too:
    /// [`one_body`](Listing::one_body) asks that there is one.
    ///
    /// ```
    /// use flumedrac::Listing;
    /// assert_eq!(Listing::polygon(3)?.closed(), Ok(()));
    /// # Ok::<(), flumedrac::Refusal>(())
    /// ```
    pub fn closed(&self) -> Result<(), Refusal> {
        Refusal::check(raw::closed(self.slices()))
    }

    /// The dual of a closed listing: the listing with the top at the bottom. The ranks are in the opposite order, each
    /// element keeps its index in its rank, and what it listed as subs it lists as sups, and the other way round.
    ///
    /// The dual is closed again, and its own dual is the listing begun with. For closed factors the dual of a
    /// [`duoprism`] is the [`duotegum`] of the duals, with its pairs numbered otherwise and its lists in another order;
    /// [`duopyramid`] and [`duocomb`] go to themselves. Refuses what [`closed`](Listing::closed) refuses, and nothing
    /// else: the wrapper sees to the room.
    ///
    /// ```
    /// use flumedrac::{duoprism, Listing, Refusal};
    /// let cube = duoprism(&Listing::polygon(4)?, &Listing::dyad())?;
    /// let dual = cube.dual()?;
    /// // A vertex for each of the six faces, and a face for each of the eight vertices.
    /// assert_eq!(dual.slices().counts, [1, 6, 12, 8, 1]);
    /// // Vertex 3 of the dual lies on the edges that face 3 of the cube has.
    /// assert!(dual.sups(1, 3).eq(cube.subs(3, 3)));
    /// assert_eq!(dual.dual()?, cube);
    ///
    /// // One vertex alone in an edge: not closed, so there is no dual.
    /// let lone = Listing::from_subs(&[vec![vec![]], vec![vec![0]], vec![vec![0]]])?;
    /// assert_eq!(lone.dual(), Err(lone.closed().unwrap_err()));
    /// # Ok::<(), Refusal>(())
    /// ```
    pub fn dual(&self) -> Result<Listing, Refusal> {
        Listing::written(|counts, ends, inc| raw::dual(self.slices(), counts, ends, inc))
    }

    /// The product that a function of [`raw`] writes.
    fn built(product: Product, p: &Listing, q: &Listing) -> Result<Listing, Refusal> {
        Listing::written(|counts, ends, inc| product(p.slices(), q.slices(), counts, ends, inc))
    }
}

/// The duopyramid: every element of one factor with every element of the other.
///
/// ```
/// use flumedrac::{duopyramid, Listing};
/// // A dyad and a point make the triangle.
/// assert_eq!(duopyramid(&Listing::dyad(), &Listing::point())?, Listing::polygon(3)?);
/// # Ok::<(), flumedrac::Refusal>(())
/// ```
pub fn duopyramid(p: &Listing, q: &Listing) -> Result<Listing, Refusal> {
    Listing::built(raw::duopyramid, p, q)
}

/// The duoprism: as the duopyramid, without the minimal elements of the factors and with a new one.
///
/// ```
/// use flumedrac::{duoprism, Listing};
/// let square = duoprism(&Listing::dyad(), &Listing::dyad())?;
/// assert_eq!(square.slices().counts, [1, 4, 4, 1]);
/// # Ok::<(), flumedrac::Refusal>(())
/// ```
pub fn duoprism(p: &Listing, q: &Listing) -> Result<Listing, Refusal> {
    Listing::built(raw::duoprism, p, q)
}

/// The duotegum: as the duopyramid, without the maximal elements of the factors and with a new one.
///
/// ```
/// use flumedrac::{duotegum, Listing};
/// let octahedron = duotegum(&Listing::polygon(4)?, &Listing::dyad())?;
/// assert_eq!(octahedron.slices().counts, [1, 6, 12, 8, 1]);
/// # Ok::<(), flumedrac::Refusal>(())
/// ```
pub fn duotegum(p: &Listing, q: &Listing) -> Result<Listing, Refusal> {
    Listing::built(raw::duotegum, p, q)
}

/// The duocomb: as the duopyramid, without the ends of the factors and with new ones.
///
/// ```
/// use flumedrac::{duocomb, Listing, Refusal};
/// let triangle = Listing::polygon(3)?;
/// assert_eq!(duocomb(&triangle, &triangle)?.slices().counts, [1, 9, 18, 9, 1]);
/// assert_eq!(duocomb(&Listing::point(), &triangle), Err(Refusal::CombOfPoint));
/// # Ok::<(), Refusal>(())
/// ```
pub fn duocomb(p: &Listing, q: &Listing) -> Result<Listing, Refusal> {
    Listing::built(raw::duocomb, p, q)
}

#[cfg(test)]
mod tests {
    use super::*;
    use crate::Section;

    /// The dual of a listing by its own lists, rank by rank: sups for subs and the highest rank first.
    fn by_hand(cell: &Listing) -> Listing {
        let sups = |r: usize| (0..cell.el_count(r)).map(|i| cell.sups(r, i).collect()).collect();
        Listing::from_subs(&(0..=cell.rank()).rev().map(sups).collect::<Vec<_>>()).unwrap()
    }

    /// Small cells are their own duals, number by number.
    #[test]
    fn own_duals() -> Result<(), Refusal> {
        for cell in [Listing::nullitope(), Listing::point(), Listing::dyad(), Listing::polygon(3)?] {
            assert_eq!(cell.dual()?, cell);
        }
        Ok(())
    }

    /// The dual of a closed listing is closed, and has the listing for its dual, also where it is as large as can be.
    #[test]
    fn duals_of_duals() -> Result<(), Refusal> {
        let (dyad, triangle, side) = (Listing::dyad(), Listing::polygon(3)?, Listing::polygon(31)?);
        let prism = duoprism(&dyad, &triangle)?;
        assert_eq!(prism.dual()?.slices().counts, [1, 5, 9, 6, 1]);
        let two = duocomb(&dyad, &triangle)?;
        let large = [duoprism(&side, &Listing::polygon(32)?)?, duopyramid(&side, &side)?, Listing::polygon(2047)?];
        for cell in [prism, two].into_iter().chain(large) {
            let dual = cell.dual()?;
            assert_eq!(dual, by_hand(&cell));
            assert_eq!(dual.closed(), Ok(()));
            assert_eq!(dual.dual()?, cell);
        }
        Ok(())
    }

    /// What is not closed is refused as the closed test refuses it, with its place.
    #[test]
    fn no_duals() -> Result<(), Refusal> {
        let comb = duocomb(&Listing::dyad(), &Listing::dyad())?;
        let section = Section { low_rank: 0, low_index: 0, high_rank: 2, high_index: 0 };
        assert_eq!(comb.dual(), Err(Refusal::ThirdBetween { section }));
        let none = Listing::new(vec![0], vec![], vec![])?;
        assert_eq!(none.dual(), Err(Refusal::NotBounded { minimal: 0, maximal: 0 }));
        Ok(())
    }

    /// Lent slices are written in front, and not at all where one of them is too short or the listing is not closed.
    #[test]
    fn lent_slices() {
        let (mut counts, mut ends, mut inc) = ([9; 3], [9; 5], [9; 3]);
        let point = Listing::point();
        let short = raw::dual(point.slices(), &mut counts, &mut ends, &mut inc[..1]);
        assert_eq!((short.answer.no, short.counts, short.ends, short.inc), (36, 0, 0, 0));
        let open = Slices { counts: &[2], ends: &[0; 4], inc: &[] };
        let refused = raw::dual(open, &mut counts, &mut ends, &mut inc);
        assert_eq!((refused.answer.no, refused.answer.a, refused.answer.b), (10, 2, 2));
        assert_eq!((refused.counts, refused.ends, refused.inc), (0, 0, 0));
        assert_eq!((counts, ends, inc), ([9; 3], [9; 5], [9; 3]));
        let built = raw::dual(point.slices(), &mut counts, &mut ends, &mut inc);
        assert_eq!((built.answer.no, built.counts, built.ends, built.inc), (0, 2, 4, 2));
        assert_eq!((counts, ends, inc), ([1, 1, 9], [0, 1, 2, 2, 9], [0, 0, 9]));
    }
}
