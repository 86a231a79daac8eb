//! Refusals: why a listing, a flag, a product, a text or a cell's coordinates were not taken.

use std::error::Error;
use std::fmt;

use crate::ffi::Answer;

/// Two elements two ranks apart.
#[derive(Clone, Copy, Debug, PartialEq, Eq, Hash)]
pub struct Section {
    /// The rank of the lower element.
    pub low_rank: u16,
    /// The index of the lower element.
    pub low_index: u16,
    /// The rank of the higher element.
    pub high_rank: u16,
    /// The index of the higher element.
    pub high_index: u16,
}

/// Which of an element's two lists is meant.
#[derive(Clone, Copy, Debug, PartialEq, Eq, Hash)]
pub enum Side {
    /// The elements directly under it.
    Subs,
    /// The elements directly over it.
    Sups,
}

/// The classes of refusals. Later releases may have more.
#[non_exhaustive]
#[derive(Clone, Copy, Debug, PartialEq, Eq, Hash)]
pub enum Class {
    /// None of the others: a number outside their bands, as those of texts and of volumes.
    Other,
    /// The three slices are no listing.
    Shape,
    /// The listing is one, but not of a cell.
    Structure,
    /// The flag, the changes or the room are not right.
    Flags,
    /// The product is not there, too large, or has no room.
    Products,
}

/// Why something was refused, with the place where it was seen first. Later releases have more.
///
/// ```
/// use flumedrac::{Class, Refusal};
/// let refusal = Refusal::NoSubs { rank: 2, index: 5 };
/// assert_eq!(refusal.number(), 11);
/// assert_eq!(refusal.class(), Class::Structure);
/// assert_eq!(refusal.to_string(), "element 5 of rank 2 has no subs");
/// ```
#[non_exhaustive]
#[derive(Clone, Copy, Debug, PartialEq, Eq, Hash)]
pub enum Refusal {
    /// 1: there are no ranks.
    NoRanks,
    /// 2: there are more ranks than [`MAX_RANKS`](crate::MAX_RANKS).
    OverRanks,
    /// 3: there are more elements than [`MAX_ELEMENTS`](crate::MAX_ELEMENTS).
    OverElements,
    /// 4: there are not two ends for each element.
    WrongEnds,
    /// 5: there are more incidences than [`MAX_INCIDENCES`](crate::MAX_INCIDENCES).
    OverIncidences,
    /// 6: the ends fall, or the last one is not the number of incidences.
    FallingEnds,
    /// 10: the lowest rank or the top rank does not have one element.
    NotBounded {
        /// How many elements rank 0 has.
        minimal: u16,
        /// How many elements the top rank has.
        maximal: u16,
    },
    /// 11: an element above rank 0 lists nothing under it.
    NoSubs {
        /// The rank of the element.
        rank: u16,
        /// Its index.
        index: u16,
    },
    /// 12: an element below the top rank lists nothing over it.
    NoSups {
        /// The rank of the element.
        rank: u16,
        /// Its index.
        index: u16,
    },
    /// 13: an element lists a sub that does not list it back.
    SubNotBack {
        /// The rank of the element.
        rank: u16,
        /// Its index.
        index: u16,
        /// The sub that it lists.
        entry: u16,
    },
    /// 14: an element lists a sup that does not list it back.
    SupNotBack {
        /// The rank of the element.
        rank: u16,
        /// Its index.
        index: u16,
        /// The sup that it lists.
        entry: u16,
    },
    /// 15: an element lists a sub that is not there.
    SubMissing {
        /// The rank of the element.
        rank: u16,
        /// Its index.
        index: u16,
        /// The sub that it lists.
        entry: u16,
    },
    /// 16: an element lists a sup that is not there.
    SupMissing {
        /// The rank of the element.
        rank: u16,
        /// Its index.
        index: u16,
        /// The sup that it lists.
        entry: u16,
    },
    /// 17: more than two elements lie between two that are two ranks apart.
    ThirdBetween {
        /// The two.
        section: Section,
    },
    /// 18: only one element lies between two that are two ranks apart.
    LoneBetween {
        /// The two.
        section: Section,
    },
    /// 19: a list does not strictly ascend.
    NotAscending {
        /// The rank of the element whose list it is.
        rank: u16,
        /// Its index.
        index: u16,
        /// Which of its lists.
        side: Side,
    },
    /// 20: the numbers given are no flag of the listing.
    NotAFlag,
    /// 21: a change outside the ranks 1 to one less than the rank.
    OutsideRanks,
    /// 22: more flags than there is room for: that a search reaches, or that there are in all.
    MoreFlags,
    /// 25: the flags are in several parts.
    SeveralParts,
    /// 30: the left factor of a product is not valid.
    LeftInvalid,
    /// 31: the right factor of a product is not valid.
    RightInvalid,
    /// 32: a duocomb with a point.
    CombOfPoint,
    /// 33: the product has more ranks than [`MAX_RANKS`](crate::MAX_RANKS).
    ProductRanks,
    /// 34: the product has more elements than [`MAX_ELEMENTS`](crate::MAX_ELEMENTS).
    ProductElements,
    /// 35: the product has more incidences than [`MAX_INCIDENCES`](crate::MAX_INCIDENCES).
    ProductIncidences,
    /// 36: a slice lent for the product, the dual, or what is read, is too short.
    OutputShort,
    /// 40: a line of a text does not begin with its key, or is not there.
    WrongKey,
    /// 41: a line of a text has a bad number, or does not end with a newline.
    BadLine,
    /// 42: a text has more bytes than [`MAX_TEXT`](crate::MAX_TEXT), or would have if it were written.
    LongText,
    /// 43: a text goes on after its last line.
    MoreBytes,
    /// 44: the bytes lent for a text are too few.
    BytesShort,
    /// 50: a volume is asked of a cell whose rank is not 4.
    NotRankFour,
    /// 51: a volume is asked of a cell that is not orientable.
    NotOrientable,
    /// 52: there are not three coordinates for each vertex.
    WrongCoordinates,
    /// 53: a coordinate is not whole, or not from -[`MAX_METRES`](crate::MAX_METRES) to it.
    NotInMetres,
    /// An answer that this package does not know: the archive is of another release.
    Unknown {
        /// The answer as it came.
        answer: Answer,
    },
}

use Refusal::*;

impl Refusal {
    /// The number that the C boundary gives it.
    pub fn number(&self) -> u16 {
        match self {
            NoRanks => 1,
            OverRanks => 2,
            OverElements => 3,
            WrongEnds => 4,
            OverIncidences => 5,
            FallingEnds => 6,
            NotBounded { .. } => 10,
            NoSubs { .. } => 11,
            NoSups { .. } => 12,
            SubNotBack { .. } => 13,
            SupNotBack { .. } => 14,
            SubMissing { .. } => 15,
            SupMissing { .. } => 16,
            ThirdBetween { .. } => 17,
            LoneBetween { .. } => 18,
            NotAscending { .. } => 19,
            NotAFlag => 20,
            OutsideRanks => 21,
            MoreFlags => 22,
            SeveralParts => 25,
            LeftInvalid => 30,
            RightInvalid => 31,
            CombOfPoint => 32,
            ProductRanks => 33,
            ProductElements => 34,
            ProductIncidences => 35,
            OutputShort => 36,
            WrongKey => 40,
            BadLine => 41,
            LongText => 42,
            MoreBytes => 43,
            BytesShort => 44,
            NotRankFour => 50,
            NotOrientable => 51,
            WrongCoordinates => 52,
            NotInMetres => 53,
            Unknown { answer } => answer.no,
        }
    }

    /// What kind of refusal it is, by its number.
    pub fn class(&self) -> Class {
        match self.number() {
            1..=9 => Class::Shape,
            10..=19 => Class::Structure,
            20..=29 => Class::Flags,
            30..=39 => Class::Products,
            _ => Class::Other,
        }
    }

    /// What an answer of the C boundary says: nothing, or a refusal; [`Refusal::Unknown`] for a number that is not
    /// known here.
    ///
    /// ```
    /// use flumedrac::{ffi::Answer, Refusal};
    /// assert_eq!(Refusal::check(Answer::default()), Ok(()));
    /// let answer = Answer { no: 13, a: 2, b: 1, c: 0, d: 0 };
    /// assert_eq!(Refusal::check(answer), Err(Refusal::SubNotBack { rank: 2, index: 1, entry: 0 }));
    /// ```
    pub fn check(answer: Answer) -> Result<(), Refusal> {
        let Answer { no, a, b, c, d } = answer;
        let (rank, index, entry) = (a, b, c);
        let section = Section { low_rank: a, low_index: b, high_rank: c, high_index: d };
        Err(match no {
            0 => return Ok(()),
            1 => NoRanks,
            2 => OverRanks,
            3 => OverElements,
            4 => WrongEnds,
            5 => OverIncidences,
            6 => FallingEnds,
            10 => NotBounded { minimal: a, maximal: b },
            11 => NoSubs { rank, index },
            12 => NoSups { rank, index },
            13 => SubNotBack { rank, index, entry },
            14 => SupNotBack { rank, index, entry },
            15 => SubMissing { rank, index, entry },
            16 => SupMissing { rank, index, entry },
            17 => ThirdBetween { section },
            18 => LoneBetween { section },
            19 if c == 0 => NotAscending { rank, index, side: Side::Subs },
            19 if c == 1 => NotAscending { rank, index, side: Side::Sups },
            20 => NotAFlag,
            21 => OutsideRanks,
            22 => MoreFlags,
            25 => SeveralParts,
            30 => LeftInvalid,
            31 => RightInvalid,
            32 => CombOfPoint,
            33 => ProductRanks,
            34 => ProductElements,
            35 => ProductIncidences,
            36 => OutputShort,
            40 => WrongKey,
            41 => BadLine,
            42 => LongText,
            43 => MoreBytes,
            44 => BytesShort,
            50 => NotRankFour,
            51 => NotOrientable,
            52 => WrongCoordinates,
            53 => NotInMetres,
            _ => Unknown { answer },
        })
    }
}

impl fmt::Display for Section {
    fn fmt(&self, f: &mut fmt::Formatter<'_>) -> fmt::Result {
        let Section { low_rank, low_index, high_rank, high_index } = self;
        write!(f, "element {low_index} of rank {low_rank} and element {high_index} of rank {high_rank}")
    }
}

impl fmt::Display for Side {
    fn fmt(&self, f: &mut fmt::Formatter<'_>) -> fmt::Result {
        f.write_str(match self {
            Side::Subs => "subs",
            Side::Sups => "sups",
        })
    }
}

impl fmt::Display for Refusal {
    fn fmt(&self, f: &mut fmt::Formatter<'_>) -> fmt::Result {
        match self {
            NoRanks => write!(f, "the listing has no ranks"),
            OverRanks => write!(f, "the listing has more than 16 ranks"),
            OverElements => write!(f, "the listing has more than 4,096 elements"),
            WrongEnds => write!(f, "there are not two ends for each element"),
            OverIncidences => write!(f, "the listing has more than 32,768 incidences"),
            FallingEnds => write!(f, "the ends fall, or the last one is not the number of incidences"),
            NotBounded { minimal, maximal } => {
                write!(f, "there are {minimal} minimal and {maximal} maximal elements instead of one and one")
            }
            NoSubs { rank, index } => write!(f, "element {index} of rank {rank} has no subs"),
            NoSups { rank, index } => write!(f, "element {index} of rank {rank} has no sups"),
            SubNotBack { rank, index, entry } => {
                write!(f, "element {index} of rank {rank} lists the sub {entry}, which does not list it back")
            }
            SupNotBack { rank, index, entry } => {
                write!(f, "element {index} of rank {rank} lists the sup {entry}, which does not list it back")
            }
            SubMissing { rank, index, entry } => {
                write!(f, "element {index} of rank {rank} lists the sub {entry}, which does not exist")
            }
            SupMissing { rank, index, entry } => {
                write!(f, "element {index} of rank {rank} lists the sup {entry}, which does not exist")
            }
            ThirdBetween { section } => write!(f, "more than two elements lie between {section}"),
            LoneBetween { section } => write!(f, "only one element lies between {section}"),
            NotAscending { rank, index, side } => {
                write!(f, "the {side} of element {index} of rank {rank} do not strictly ascend")
            }
            NotAFlag => write!(f, "this is not a flag of the listing"),
            OutsideRanks => write!(f, "a change lies outside the ranks 1 to one less than the rank"),
            MoreFlags => write!(f, "there are more flags than there is room for"),
            SeveralParts => write!(f, "the flags are in several parts: the cell is not one body"),
            LeftInvalid => write!(f, "the left factor is not valid"),
            RightInvalid => write!(f, "the right factor is not valid"),
            CombOfPoint => write!(f, "there is no duocomb with a point"),
            ProductRanks => write!(f, "the product has more than 16 ranks"),
            ProductElements => write!(f, "the product has more than 4,096 elements"),
            ProductIncidences => write!(f, "the product has more than 32,768 incidences"),
            OutputShort => write!(f, "a slice to write the listing to is too short"),
            WrongKey => write!(f, "a line of the text does not begin with its key, or is missing"),
            BadLine => write!(f, "a line of the text has a bad number, or does not end with a newline"),
            LongText => write!(f, "the text has more than 65,536 bytes"),
            MoreBytes => write!(f, "the text goes on after its last line"),
            BytesShort => write!(f, "the byte slice is too short for the text"),
            NotRankFour => write!(f, "the cell's rank is not 4"),
            NotOrientable => write!(f, "the cell is not orientable"),
            WrongCoordinates => write!(f, "there are not three coordinates for each vertex"),
            NotInMetres => write!(f, "a coordinate is not a whole number of metres from -1,000 to 1,000"),
            Unknown { answer: Answer { no, a, b, c, d } } => {
                write!(f, "refusal {no}, which this release does not know, with the fields {a}, {b}, {c} and {d}")
            }
        }
    }
}

impl Error for Refusal {}

#[cfg(test)]
mod tests {
    use super::*;
    use std::collections::HashSet;

    /// Every number that stands for a refusal is read as the refusal of that number; every other is unknown. The
    /// classes are the library's.
    #[test]
    fn numbers_and_refusals_match() {
        let mut seen = HashSet::new();
        for no in 1..=u16::MAX {
            let refusal = Refusal::check(Answer { no, a: 7, b: 8, c: 1, d: 9 }).unwrap_err();
            assert_eq!(refusal.number(), no);
            assert_eq!(refusal.class() as u16, crate::raw::class(no));
            let known = !matches!(refusal, Unknown { .. });
            assert_eq!(known, matches!(no, 1..=6 | 10..=22 | 25 | 30..=36 | 40..=44 | 50..=53));
            if known {
                assert!(seen.insert(refusal.to_string()), "{refusal} is said twice");
            }
        }
        let no_side = Answer { no: 19, a: 1, b: 2, c: 3, d: 0 };
        assert_eq!(Refusal::check(no_side), Err(Unknown { answer: no_side }));
    }
}
