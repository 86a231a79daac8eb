//! Flags: one element of each rank, each under the next.

use std::iter::FusedIterator;
use std::ops::Deref;

use crate::ffi::{self, Searched};
use crate::{raw, Listing, Refusal, MAX_FLAGS};

/// One index for each rank, rank 0 first. Whether it is a flag of a listing is seen where it is used.
#[derive(Clone, Debug, PartialEq, Eq, Hash, PartialOrd, Ord)]
pub struct Flag(Vec<u16>);

impl From<Vec<u16>> for Flag {
    fn from(indices: Vec<u16>) -> Self {
        Self(indices)
    }
}

impl<const N: usize> From<[u16; N]> for Flag {
    fn from(indices: [u16; N]) -> Self {
        Self(indices.to_vec())
    }
}

impl From<Flag> for Vec<u16> {
    fn from(flag: Flag) -> Self {
        flag.0
    }
}

impl Deref for Flag {
    type Target = [u16];

    fn deref(&self) -> &[u16] {
        &self.0
    }
}

/// The parity of a flag, which every change flips.
#[derive(Clone, Copy, Debug, Default, PartialEq, Eq, Hash)]
pub enum Orientation {
    /// That of the first flag, and of every flag an even number of changes away.
    #[default]
    Even,
    /// That of every flag an odd number of changes away from the first.
    Odd,
}

impl Orientation {
    /// The other one.
    pub fn flip(self) -> Self {
        match self {
            Self::Even => Self::Odd,
            Self::Odd => Self::Even,
        }
    }

    /// 1.0 for even, -1.0 for odd.
    ///
    /// ```
    /// use flumedrac::Orientation;
    /// assert_eq!(Orientation::Even.flip().sign(), -1.0);
    /// ```
    pub fn sign(self) -> f64 {
        raw::sign(self as u8)
    }

    fn from_byte(byte: u8) -> Self {
        match byte {
            0 => Self::Even,
            _ => Self::Odd,
        }
    }
}

/// A change that was made: the new flag, and what was replaced in it.
#[derive(Clone, Debug, PartialEq, Eq, Hash)]
pub struct Change {
    /// The new flag.
    pub flag: Flag,
    /// The index that was taken out: the old flag's at the rank of the change.
    pub taken: u16,
    /// The index that was put in: the new flag's at that rank.
    pub put: u16,
}

/// What a search came upon.
#[derive(Clone, Copy, Debug, PartialEq, Eq)]
pub enum Event<'a> {
    /// A new flag.
    Flag {
        /// One index for each rank, rank 0 first.
        flag: &'a [u16],
        /// The opposite of that of the flag it was found from; even for the first.
        orientation: Orientation,
    },
    /// The cell is not orientable. This comes at most once.
    NonOrientable,
}

/// What a search found: all flags that can be reached, in the order found.
#[derive(Clone, Debug, PartialEq, Eq)]
pub struct Search {
    width: usize,
    table: Vec<u16>,
    orientations: Vec<u8>,
    place: u16,
}

impl Listing {
    /// The mask of all changes: bits 1 to one less than the rank.
    ///
    /// ```
    /// use flumedrac::Listing;
    /// assert_eq!(Listing::dyad().all_changes(), 0b10);
    /// assert_eq!(Listing::polygon(5)?.all_changes(), 0b110);
    /// # Ok::<(), flumedrac::Refusal>(())
    /// ```
    pub fn all_changes(&self) -> u16 {
        (1..self.rank()).map(|r| 1 << r).sum()
    }

    /// The flag of first subs: element 0 of the top rank, its first sub, the first sub of that one, and so on down.
    /// `None` where that is no flag of the listing: there is no such element, or one on the way lists no sub, or as its
    /// first sub one that is not there.
    ///
    /// ```
    /// use flumedrac::{Flag, Listing};
    /// assert_eq!(Listing::dyad().first_flag(), Some(Flag::from([0, 0, 0])));
    /// // A rank without elements, and a sub that is not there.
    /// assert_eq!(Listing::new(vec![0], vec![], vec![])?.first_flag(), None);
    /// assert_eq!(Listing::new(vec![1, 1], vec![0, 1, 2, 2], vec![0, 7])?.first_flag(), None);
    /// # Ok::<(), flumedrac::Refusal>(())
    /// ```
    pub fn first_flag(&self) -> Option<Flag> {
        let top = self.rank();
        let mut flag = vec![0; top + 1];
        for rank in (0..=top).rev() {
            if rank < top {
                flag[rank] = self.subs(rank + 1, flag[rank + 1].into()).next()?;
            }
            if usize::from(flag[rank]) >= self.el_count(rank) {
                return None;
            }
        }
        Some(Flag(flag))
    }

    /// The flag with the other element at rank `r`, and what was replaced: the index that the change took out and the
    /// one that it put in. These two lie between the flag's elements at the ranks below and above, and no third does.
    /// The same change again, of the new flag, leads back and exchanges them.
    ///
    /// In a listing of rank 5, whose elements of rank 4 are cells, the change at rank 4 leads across the flag's face:
    /// out of the cell taken and into the cell put, the only other one that has this face. The change at rank 3 stays
    /// in the cell and leads from one face to the other at the flag's edge.
    ///
    /// ```
    /// use flumedrac::{Change, Flag, Listing, Refusal};
    /// let triangle = Listing::polygon(3)?;
    /// let first = Flag::from([0, 0, 0, 0]);
    /// // To the other vertex of the edge, and back.
    /// let other = triangle.change(&first, 1)?;
    /// assert_eq!(other, Change { flag: Flag::from([0, 1, 0, 0]), taken: 0, put: 1 });
    /// assert_eq!(triangle.change(&other.flag, 1)?, Change { flag: first.clone(), taken: 1, put: 0 });
    /// // To the other edge at the vertex.
    /// assert_eq!(triangle.change(&first, 2)?, Change { flag: Flag::from([0, 0, 1, 0]), taken: 0, put: 1 });
    /// assert_eq!(triangle.change(&first, 3), Err(Refusal::OutsideRanks));
    /// assert_eq!(triangle.change(&first[1..], 1), Err(Refusal::NotAFlag));
    /// # Ok::<(), Refusal>(())
    /// ```
    pub fn change(&self, flag: &[u16], r: u16) -> Result<Change, Refusal> {
        let changed = raw::change(self.slices(), flag, r);
        Refusal::check(changed.answer)?;
        let flag = Flag(changed.flag[..=self.rank()].to_vec());
        Ok(Change { flag, taken: changed.taken, put: changed.put })
    }

    /// All flags that the changes in `mask` reach from the first flag, if there are at most `room`, and never more than
    /// 16,384. Bit r of the mask asks for the change at rank r.
    ///
    /// Where there are more, [`raw::search`] leaves the first ones found in the slices it is lent.
    ///
    /// ```
    /// use flumedrac::{Listing, Refusal};
    /// let triangle = Listing::polygon(3)?;
    /// let search = triangle.search(&[0, 0, 0, 0], triangle.all_changes(), 100)?;
    /// assert_eq!(search.len(), 6);
    /// assert!(search.is_orientable());
    /// assert_eq!(triangle.search(&[0, 0, 0, 0], 0b110, 5), Err(Refusal::MoreFlags));
    /// # Ok::<(), Refusal>(())
    /// ```
    pub fn search(&self, first: &[u16], mask: u16, room: usize) -> Result<Search, Refusal> {
        self.searched(room, |table, orientations| raw::search(self.slices(), first, mask, table, orientations))
    }

    /// Whether the listing is [closed](Listing::closed) and one body: changes at single ranks lead from any of its
    /// flags to every other. What is answered is the search by all changes, which then finds every flag. It begins with
    /// the flag of first sups: element 0 of rank 0, and upward the first sup each time.
    ///
    /// It needs room for all flags, and there is never room for more than 16,384: a listing that has more is refused as
    /// [`MoreFlags`](Refusal::MoreFlags), whether or not it is one body. One whose flags are in several parts is
    /// refused as [`SeveralParts`](Refusal::SeveralParts). After either, [`raw::one_body`] leaves the flags that the
    /// search found in the slices it is lent.
    ///
    /// ```
    /// use flumedrac::{duocomb, Listing, Refusal};
    /// let triangle = Listing::polygon(3)?;
    /// assert_eq!(triangle.one_body(6)?.len(), 6);
    /// // Two separate triangles under one top are closed, and not one body.
    /// let two = duocomb(&Listing::dyad(), &triangle)?;
    /// assert_eq!(two.closed(), Ok(()));
    /// assert_eq!(two.one_body(12), Err(Refusal::SeveralParts));
    /// assert_eq!(two.one_body(11), Err(Refusal::MoreFlags));
    /// # Ok::<(), Refusal>(())
    /// ```
    pub fn one_body(&self, room: usize) -> Result<Search, Refusal> {
        self.searched(room, |table, orientations| raw::one_body(self.slices(), table, orientations))
    }

    /// What a function of [`raw`] finds that is lent room for so many flags.
    fn searched(&self, room: usize, search: impl FnOnce(&mut [u16], &mut [u8]) -> Searched) -> Result<Search, Refusal> {
        let width = self.rank() + 1;
        let room = room.min(MAX_FLAGS);
        let mut table = vec![0; room * width];
        let mut orientations = vec![0; room];
        let searched = search(&mut table, &mut orientations);
        Refusal::check(searched.answer)?;
        table.truncate(searched.count as usize * width);
        orientations.truncate(searched.count as usize);
        Ok(Search { width, table, orientations, place: searched.place })
    }
}

impl Search {
    /// How many flags were found; at least one.
    #[allow(clippy::len_without_is_empty)]
    pub fn len(&self) -> usize {
        self.orientations.len()
    }

    /// Whether every change flips the orientation.
    pub fn is_orientable(&self) -> bool {
        self.place == 0
    }

    /// How many flags came before the event "not orientable", if it came.
    pub fn place(&self) -> Option<usize> {
        (self.place != 0).then_some(self.place as usize)
    }

    /// The flags with their orientations, in the order found.
    pub fn flags(&self) -> impl ExactSizeIterator<Item = (&[u16], Orientation)> {
        let orientations = self.orientations.iter().map(|&byte| Orientation::from_byte(byte));
        std::iter::zip(self.table.chunks_exact(self.width), orientations)
    }

    /// The events of the search, in their order.
    ///
    /// ```
    /// use flumedrac::{Event, Listing, Orientation};
    /// let dyad = Listing::dyad();
    /// let search = dyad.search(&[0, 0, 0], 0b10, 2)?;
    /// let events: Vec<Event> = search.events().collect();
    /// assert_eq!(events, [
    ///     Event::Flag { flag: &[0, 0, 0], orientation: Orientation::Even },
    ///     Event::Flag { flag: &[0, 1, 0], orientation: Orientation::Odd },
    /// ]);
    /// assert_eq!(search.events().len(), 2);
    /// # Ok::<(), flumedrac::Refusal>(())
    /// ```
    pub fn events(&self) -> Events<'_> {
        Events { search: self, cursor: ffi::Cursor::default() }
    }
}

/// An iterator over the events of a search, which knows how many are left.
#[derive(Clone, Debug)]
pub struct Events<'a> {
    search: &'a Search,
    cursor: ffi::Cursor,
}

impl<'a> Iterator for Events<'a> {
    type Item = Event<'a>;

    fn next(&mut self) -> Option<Event<'a>> {
        let search = self.search;
        let event = raw::next_event(&mut self.cursor, search.len() as u16, search.place);
        let at = event.flag as usize;
        match event.kind {
            0 => None,
            1 => Some(Event::Flag {
                flag: &search.table[at * search.width..][..search.width],
                orientation: Orientation::from_byte(search.orientations[at]),
            }),
            _ => Some(Event::NonOrientable),
        }
    }

    /// The flags, and one more event where the cell is not orientable, less those that were given: the cursor counts
    /// them.
    fn size_hint(&self) -> (usize, Option<usize>) {
        let all = self.search.len() + usize::from(!self.search.is_orientable());
        let left = all - self.cursor.at as usize;
        (left, Some(left))
    }
}

impl ExactSizeIterator for Events<'_> {}

impl FusedIterator for Events<'_> {}

impl<'a> IntoIterator for &'a Search {
    type Item = Event<'a>;
    type IntoIter = Events<'a>;

    fn into_iter(self) -> Events<'a> {
        self.events()
    }
}

#[cfg(test)]
pub(crate) mod tests {
    use super::*;

    /// Half a cube, which is not orientable: 4 vertices, 6 edges, 3 faces.
    pub(crate) fn hemicube() -> Listing {
        Listing::from_subs(&[
            vec![vec![]],
            vec![vec![0]; 4],
            vec![vec![0, 1], vec![0, 2], vec![0, 3], vec![1, 2], vec![1, 3], vec![2, 3]],
            vec![vec![1, 2, 3, 4], vec![0, 2, 3, 5], vec![0, 1, 4, 5]],
            vec![vec![0, 1, 2]],
        ])
        .unwrap()
    }

    /// After each event the iterator says how many are left, and after the last none.
    #[test]
    fn events_know_their_number() {
        for (cell, count) in [(Listing::nullitope(), 1), (Listing::polygon(5).unwrap(), 10), (hemicube(), 24 + 1)] {
            let first = cell.first_flag().unwrap();
            let search = cell.search(&first, cell.all_changes(), 100).unwrap();
            let mut events = search.events();
            for left in (0..count).rev() {
                assert_eq!(events.size_hint(), (left + 1, Some(left + 1)));
                assert!(events.next().is_some());
            }
            for _ in 0..3 {
                assert_eq!((events.next(), events.len()), (None, 0));
            }
        }
    }

    /// The test for one body answers the search by all changes from the flag of first sups, which is another than that
    /// of first subs; room for a flag less is too little.
    #[test]
    fn bodies_are_searched() {
        for (cell, first) in [(Listing::point(), vec![0, 0]), (hemicube(), vec![0, 0, 0, 1, 0])] {
            let body = cell.one_body(100).unwrap();
            assert_eq!(Ok(&body), cell.search(&first, cell.all_changes(), 100).as_ref());
            assert_eq!(body.flags().next(), Some((&first[..], Orientation::Even)));
            assert_eq!(cell.one_body(body.len()).as_ref(), Ok(&body));
            assert_eq!(cell.one_body(body.len() - 1), Err(Refusal::MoreFlags));
        }
        assert_ne!(hemicube().first_flag(), Some(Flag::from([0, 0, 0, 1, 0])));
    }

    /// The first flag of a closed cell is one: the library takes it.
    #[test]
    fn first_flags_of_cells() {
        for cell in [Listing::nullitope(), Listing::point(), Listing::dyad(), hemicube()] {
            let first = cell.first_flag().unwrap();
            assert_eq!(cell.search(&first, 0, 1).unwrap().len(), 1);
        }
    }

    /// Nothing but a flag is answered for a first flag, whatever is wrong on the way.
    #[test]
    fn first_flags_of_others() {
        let none = |ranks: &[Vec<Vec<u16>>]| assert_eq!(Listing::from_subs(ranks).unwrap().first_flag(), None);
        none(&[vec![]]);
        none(&[vec![], vec![]]);
        none(&[vec![vec![]], vec![]]);
        none(&[vec![], vec![vec![0]]]);
        none(&[vec![vec![]], vec![vec![]]]);
        none(&[vec![vec![]], vec![vec![7]]]);
        none(&[vec![vec![]], vec![vec![0]], vec![vec![1, 0]]]);
        none(&[vec![vec![]; 2], vec![vec![2, 0]], vec![vec![0]]]);
        let below_rank_0 = Listing::from_subs(&[vec![vec![3]]]).unwrap();
        assert_eq!(below_rank_0.first_flag(), Some(Flag::from([0])));
    }
}
