//! Volumes of cells.

use crate::ffi::Answer;
use crate::{raw, Listing, Refusal, MAX_FLAGS};

impl Listing {
    /// Six times the volume of a cell of rank 4. Each vertex has three coordinates, x, y and z, the vertices in the
    /// order of their indices; each coordinate is a whole number of metres from -1,000 to 1,000.
    ///
    /// The cell is searched by all changes from the first flag. For each even flag found, with vertex v, edge e and
    /// face f, the determinant of three vertices is taken: the lowest-numbered one of f, v, and the other one of e. The
    /// answer is their sum, exact and a whole number; a zero is never -0.0. From the first flag changed once it is the
    /// same with the other sign, zero apart. With all vertices moved by the same whole metres it is the same, as long
    /// as they stay in range.
    ///
    /// No more is promised. By geometry, which is not proved here, it is six times the volume of what was searched if
    /// each face is one ring of edges in a plane and the faces do not run through each other, which is not tested. It
    /// is then positive if the first flag's edge, seen from outside and with right-handed axes, leads from its vertex
    /// counterclockwise around its face. Of several cells under one top, which [`one_body`](Listing::one_body)
    /// refuses, it is that of the one which the first flag belongs to.
    ///
    /// What refuses the search by all changes refuses this; a search that finds more than 16,384 flags is
    /// [`MoreFlags`](Refusal::MoreFlags). Then come [`NotRankFour`](Refusal::NotRankFour),
    /// [`NotOrientable`](Refusal::NotOrientable), [`WrongCoordinates`](Refusal::WrongCoordinates) where there are not
    /// as many records as vertices, and [`NotInMetres`](Refusal::NotInMetres). With [`raw::six_volume`] the flags stand
    /// in lent slices afterwards, also where one of these four refuses.
    ///
    /// ```
    /// use flumedrac::{duoprism, Listing, Refusal};
    /// // A cube of side 10: vertex 4a + 2b + c stands at 10a, 10b, 10c.
    /// let dyad = Listing::dyad();
    /// let cube = duoprism(&dyad, &duoprism(&dyad, &dyad)?)?;
    /// let mut vertices = [0, 1, 2, 3, 4, 5, 6, 7].map(|v| [v / 4, v / 2 % 2, v % 2].map(|side| 10.0 * side as f64));
    /// assert_eq!(cube.six_volume(&[0, 0, 0, 0, 0], &vertices)?, 6000.0);
    /// // From a flag one change away it is negative.
    /// assert_eq!(cube.six_volume(&[0, 1, 0, 0, 0], &vertices)?, -6000.0);
    /// vertices[7] = [10.0, 10.0, 1001.0];
    /// assert_eq!(cube.six_volume(&[0, 0, 0, 0, 0], &vertices), Err(Refusal::NotInMetres));
    /// # Ok::<(), Refusal>(())
    /// ```
    pub fn six_volume(&self, first: &[u16], vertices: &[[f64; 3]]) -> Result<f64, Refusal> {
        let mut table = vec![0; MAX_FLAGS * (self.rank() + 1)];
        let mut orientations = vec![0; MAX_FLAGS];
        let volume = raw::six_volume(self.slices(), first, vertices.as_flattened(), &mut table, &mut orientations);
        if volume.no != 0 {
            // The answer is a number alone: where the listing is not closed, that test says where.
            self.closed()?;
        }
        Refusal::check(Answer { no: volume.no, ..Answer::default() })?;
        Ok(volume.six)
    }
}

#[cfg(test)]
mod tests {
    use super::*;
    use crate::flags::tests::hemicube;
    use crate::{duoprism, Section};

    /// The prism over a triangle, 12 by 5 at the right angle and 20 high: vertex 3h + i is corner i of the floor or of
    /// the roof.
    fn prism() -> (Listing, Vec<[f64; 3]>) {
        let cell = duoprism(&Listing::dyad(), &Listing::polygon(3).unwrap()).unwrap();
        let corners = [[0.0, 0.0], [12.0, 0.0], [0.0, 5.0]];
        let vertices = [0.0, 20.0].iter().flat_map(|&z| corners.map(|[x, y]| [x, y, z])).collect();
        (cell, vertices)
    }

    /// Six times 600 cubic metres, wherever the prism stands; from all other first flags the same or its opposite, as
    /// the search says of them.
    #[test]
    fn prisms_have_volumes() {
        let (prism, vertices) = prism();
        let moved: Vec<[f64; 3]> = vertices.iter().map(|v| [v[0] - 900.0, v[1] + 995.0, v[2] - 1000.0]).collect();
        let first = prism.first_flag().unwrap();
        let six = prism.six_volume(&first, &vertices).unwrap();
        assert_eq!(six.abs(), 3600.0);
        let search = prism.search(&first, prism.all_changes(), 100).unwrap();
        assert_eq!(search.len(), 36);
        for (flag, orientation) in search.flags() {
            for vertices in [&vertices, &moved] {
                assert_eq!(prism.six_volume(flag, vertices), Ok(six * orientation.sign()));
            }
        }
    }

    /// All that is refused, in the order of the tests; a listing that is not closed with its place.
    #[test]
    fn refusals_come_in_order() {
        let (prism, mut vertices) = prism();
        let first = prism.first_flag().unwrap();
        let triangle = Listing::polygon(3).unwrap();
        let tripod = Listing::from_subs(&[vec![vec![]], vec![vec![0]; 3], vec![vec![0, 1, 2]]]).unwrap();
        let section = Section { low_rank: 0, low_index: 0, high_rank: 2, high_index: 0 };
        assert_eq!(tripod.six_volume(&[], &[]), Err(Refusal::ThirdBetween { section }));
        assert_eq!(triangle.six_volume(&[0, 2, 0, 0], &[]), Err(Refusal::NotAFlag));
        assert_eq!(triangle.six_volume(&[0, 0, 0, 0], &[]), Err(Refusal::NotRankFour));
        assert_eq!(hemicube().six_volume(&[0, 0, 0, 0, 0], &[]), Err(Refusal::NotAFlag));
        assert_eq!(hemicube().six_volume(&[0, 0, 0, 1, 0], &[]), Err(Refusal::NotOrientable));
        vertices[5][1] = f64::NAN;
        assert_eq!(prism.six_volume(&first, &vertices[1..]), Err(Refusal::WrongCoordinates));
        assert_eq!(prism.six_volume(&first, &vertices), Err(Refusal::NotInMetres));
        vertices[5][1] = -0.0;
        assert!(prism.six_volume(&first, &vertices).is_ok());
    }

    /// A search that finds more flags than there can be room for comes before all about the volume.
    #[test]
    fn more_flags_come_first() {
        let large = duoprism(&Listing::polygon(31).unwrap(), &Listing::polygon(32).unwrap()).unwrap();
        let first = large.first_flag().unwrap();
        assert_eq!(large.six_volume(&first, &[]), Err(Refusal::MoreFlags));
    }

    /// All vertices at one place: a zero, and the positive one, whatever the flag; and the flags stand in lent slices,
    /// also where a coordinate is refused.
    #[test]
    fn zeros_and_lent_slices() {
        let (prism, _) = prism();
        let first = prism.first_flag().unwrap();
        let other = prism.change(&first, 2).unwrap().flag;
        for flag in [&first, &other] {
            for place in [[-7.0, 3.0, -0.0], [-0.0; 3]] {
                assert_eq!(prism.six_volume(flag, &[place; 6]).map(f64::to_bits), Ok(0));
            }
        }
        let (mut table, mut orientations) = ([9; 36 * 5 + 2], [9; 37]);
        let (mut found, mut odd) = (table, orientations);
        raw::search(prism.slices(), &first, prism.all_changes(), &mut found, &mut odd);
        let volume = raw::six_volume(prism.slices(), &first, &[0.5; 18], &mut table, &mut orientations);
        assert_eq!((volume.no, volume.six.to_bits()), (53, 0));
        assert_eq!((table, orientations), (found, odd));
    }
}
