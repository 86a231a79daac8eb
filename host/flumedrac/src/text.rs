//! Listings read from a text, and written as one.

use crate::{raw, Listing, Refusal, Slices};

impl Listing {
    /// The listing in a text: lines of `key=value`, each ended by a newline. First comes `rank=`, then for every rank
    /// `count=`, and after it a line `subs=` for each element, with commas between the indices. Sups are derived as
    /// [`from_subs`](Listing::from_subs) does.
    ///
    /// Refuses what is no such text ([`WrongKey`](Refusal::WrongKey), [`BadLine`](Refusal::BadLine),
    /// [`LongText`](Refusal::LongText), [`MoreBytes`](Refusal::MoreBytes)) and a listing over the limits
    /// ([`OverRanks`](Refusal::OverRanks), [`OverElements`](Refusal::OverElements),
    /// [`OverIncidences`](Refusal::OverIncidences)), whichever comes first in the text. Whether it is a cell is what
    /// its tests say.
    ///
    /// ```
    /// use flumedrac::{Listing, Refusal};
    /// let dyad = Listing::read_text(b"rank=2\ncount=1\nsubs=\ncount=2\nsubs=0\nsubs=0\ncount=1\nsubs=0,1\n")?;
    /// assert_eq!(dyad, Listing::dyad());
    /// assert_eq!(Listing::read_text(b"rank=0\ncount=1\n"), Err(Refusal::WrongKey));
    /// assert_eq!(Listing::read_text(b"rank=00\n"), Err(Refusal::BadLine));
    /// # Ok::<(), Refusal>(())
    /// ```
    pub fn read_text(text: &[u8]) -> Result<Listing, Refusal> {
        Listing::written(|counts, ends, inc| raw::read_text(text, counts, ends, inc))
    }

    /// The text of a closed listing: the one that [`read_text`](Listing::read_text) reads as this listing.
    ///
    /// Refuses what [`closed`](Listing::closed) refuses, and then a text that would be over its limit
    /// ([`LongText`](Refusal::LongText)). A listing has no `Display`: one that is not closed has no text, and
    /// `to_string` panics where a `Display` fails.
    ///
    /// ```
    /// use flumedrac::{duoprism, Listing, Refusal};
    /// assert_eq!(Listing::point().write_text()?, "rank=1\ncount=1\nsubs=\ncount=1\nsubs=0\n");
    ///
    /// let prism = duoprism(&Listing::dyad(), &Listing::polygon(3)?)?;
    /// let text = prism.write_text()?;
    /// assert!(text.starts_with("rank=4\ncount=1\nsubs=\ncount=6\nsubs=0\n"));
    /// assert_eq!(Listing::read_text(text.as_bytes())?, prism);
    ///
    /// // One vertex alone in an edge: not closed, so there is no text.
    /// let lone = Listing::from_subs(&[vec![vec![]], vec![vec![0]], vec![vec![0]]])?;
    /// assert_eq!(lone.write_text(), Err(lone.closed().unwrap_err()));
    /// # Ok::<(), Refusal>(())
    /// ```
    pub fn write_text(&self) -> Result<String, Refusal> {
        let mut text = vec![0; self.text_room()];
        let written = raw::write_text(self.slices(), &mut text);
        Refusal::check(written.answer)?;
        text.truncate(written.length);
        Ok(String::from_utf8(text).expect("keys, digits, commas and newlines"))
    }

    /// At least as many bytes as the text has. No number has more than five digits, and each ends with a comma or a
    /// newline; a line `subs=` without numbers has six bytes. Sups are counted too, though they are not written.
    fn text_room(&self) -> usize {
        let Slices { counts, ends, inc } = self.slices();
        "rank=65535\n".len() + "count=65535\n".len() * counts.len() + "subs=\n".len() * (ends.len() / 2) + 6 * inc.len()
    }
}

/// Whether the listing in a text is [closed](Listing::closed): what refuses the reading, or else the test.
///
/// The number of the refusal is the one that the C function `fd_check_text` answers, and that the program `cellcheck`
/// prints; here it comes with its place.
///
/// ```
/// use flumedrac::{check_text, Refusal};
/// assert_eq!(check_text(b"rank=1\ncount=1\nsubs=\ncount=1\nsubs=0\n"), Ok(()));
/// // The vertex lists an element that does not exist, so nothing is over the lowest.
/// let open = b"rank=1\ncount=1\nsubs=\ncount=1\nsubs=5\n";
/// assert_eq!(check_text(open), Err(Refusal::NoSups { rank: 0, index: 0 }));
/// ```
pub fn check_text(text: &[u8]) -> Result<(), Refusal> {
    Listing::read_text(text)?.closed()
}

#[cfg(test)]
mod tests {
    use super::*;

    const POINT: &[u8] = b"rank=1\ncount=1\nsubs=\ncount=1\nsubs=0\n";

    /// The number of the refusal is the one that the library gives a text.
    #[test]
    fn numbers_agree() {
        let longer = [POINT, b"\n"].concat();
        let cells = [b"rank=0\ncount=2\nsubs=\nsubs=\n".as_slice(), b"rank=1\ncount=1\nsubs=\ncount=1\nsubs=0,5\n"];
        let over = [b"rank=16\n".as_slice(), b"rank=0\ncount=4097\n", &[b'x'; crate::MAX_TEXT + 1]];
        for text in [&[], POINT, &POINT[..POINT.len() - 1], &longer].into_iter().chain(cells).chain(over) {
            let number = check_text(text).map_or_else(|refusal| refusal.number(), |()| 0);
            assert_eq!(number, raw::check_text(text));
        }
    }

    /// Lent slices are written in front, and not at all where one of them is too short.
    #[test]
    fn lent_slices() {
        let (mut counts, mut ends, mut inc) = ([9; 3], [9; 5], [9; 3]);
        assert_eq!(raw::read_text(POINT, &mut counts, &mut ends, &mut inc[..1]).answer.no, 36);
        assert_eq!((counts, ends, inc), ([9; 3], [9; 5], [9; 3]));
        let built = raw::read_text(POINT, &mut counts, &mut ends, &mut inc);
        assert_eq!((built.answer.no, built.counts, built.ends, built.inc), (0, 2, 4, 2));
        assert_eq!((counts, ends, inc), ([1, 1, 9], [0, 1, 2, 2, 9], [0, 0, 9]));
    }

    /// Lent bytes are written in front, and not at all where they are too few.
    #[test]
    fn lent_bytes() {
        let mut bytes = [9; 40];
        let point = Listing::point();
        let short = raw::write_text(point.slices(), &mut bytes[..35]);
        assert_eq!((short.answer.no, short.length, bytes), (44, 0, [9; 40]));
        let written = raw::write_text(point.slices(), &mut bytes);
        assert_eq!((written.answer.no, written.length), (0, 36));
        assert_eq!((&bytes[..36], &bytes[36..]), (POINT, [9; 4].as_slice()));
    }

    /// There is always room for the text: where none is written, it is refused as too long or not closed.
    #[test]
    fn room_for_every_text() -> Result<(), Refusal> {
        let (dyad, nullitope) = (Listing::dyad(), Listing::nullitope());
        for cell in [nullitope, Listing::point(), dyad, Listing::polygon(10)?, Listing::polygon(2047)?] {
            let text = cell.write_text()?;
            assert!(text.len() <= cell.text_room());
            assert_eq!(Listing::read_text(text.as_bytes()), Ok(cell));
        }
        let side = Listing::polygon(31)?;
        assert_eq!(crate::duopyramid(&side, &side)?.write_text(), Err(Refusal::LongText));
        assert_eq!(Listing::polygon(0)?.write_text(), Err(Listing::polygon(0)?.closed().unwrap_err()));
        Ok(())
    }
}
