//! Texts, listings and duals sent round, by the library alone: what is read is written again, what is written is read
//! again, and of a dual the dual is taken. All must come back as they were wherever the library's own closed test
//! accepts; where it refuses, writing and the dual must refuse the same, and have written nothing. And duals of products
//! are held against products of the duals.

use std::ops::AddAssign;
use std::panic::{catch_unwind, AssertUnwindSafe};

use flumedrac::ffi::Answer;
use flumedrac::{Listing, MAX_ELEMENTS, MAX_INCIDENCES, MAX_RANKS, MAX_TEXT};
use flumedrac_trial::question::{answer_numbers, BYTE_FILL};
use flumedrac_trial::{cell_texts, duals, with_lengths, Kind, Library, Raw, Reply, Test};

/// How many were sent round.
#[derive(Clone, Copy, Default)]
pub struct Rounds {
    /// Texts; those that could be read; and those of them whose listing is closed.
    pub texts: u64,
    pub read: u64,
    pub closed_texts: u64,
    /// Listings; those that are closed; and those of them whose text is over the limit.
    pub listings: u64,
    pub closed: u64,
    pub over: u64,
    /// Listings whose dual was asked for; and those that are closed.
    pub duals: u64,
    pub closed_duals: u64,
    /// Products of closed listings, of one kind each; and those where their duals and the products of the duals are
    /// both answered, by kind.
    pub laws: u64,
    pub held: [u64; 4],
}

impl Rounds {
    /// All that were sent round.
    pub fn all(&self) -> u64 {
        self.texts + self.listings + self.duals + self.laws
    }
}

impl AddAssign for Rounds {
    fn add_assign(&mut self, more: Self) {
        self.texts += more.texts;
        self.read += more.read;
        self.closed_texts += more.closed_texts;
        self.listings += more.listings;
        self.closed += more.closed;
        self.over += more.over;
        self.duals += more.duals;
        self.closed_duals += more.closed_duals;
        self.laws += more.laws;
        self.held.iter_mut().zip(more.held).for_each(|(held, more)| *held += more);
    }
}

/// What was expected, and what came instead.
pub type Otherwise = (String, String);

/// How many were counted, or how it went wrong.
pub type Went = Result<Rounds, Otherwise>;

/// What comes back must be this.
fn same<T: PartialEq>(expected: T, came: T, said: impl Fn(&T) -> String) -> Result<(), Otherwise> {
    match expected == came {
        true => Ok(()),
        false => Err((said(&expected), said(&came))),
    }
}

/// What is written of a listing into so many bytes: the answer, and the text. What is refused has no length, and behind
/// a text all bytes are as they were.
fn written(library: &dyn Library, cell: &Raw, room: usize) -> Result<(Answer, Vec<u8>), Otherwise> {
    let mut bytes = vec![BYTE_FILL; room];
    let written = library.write_text(cell.slices(), &mut bytes);
    let length = if written.answer.no == 0 { written.length } else { 0 };
    same(length, written.length, |length| format!("the length {length}"))?;
    let behind = bytes.get(length..).ok_or(("a length within the bytes lent".into(), format!("{length}")))?;
    match behind.iter().all(|&byte| byte == BYTE_FILL) {
        true => Ok((written.answer, bytes[..length].to_vec())),
        false => Err(("other bytes as they were".into(), "bytes that were changed".into())),
    }
}

/// What is read of a text, with as much room as one of its length can need.
fn read(library: &dyn Library, text: &[u8]) -> (Answer, Raw) {
    let elements = (text.len() / "subs=\n".len()).min(MAX_ELEMENTS);
    let room = [MAX_RANKS, 2 * elements, text.len().min(MAX_INCIDENCES)];
    with_lengths(room, |outputs| library.read_text(text, outputs))
}

/// A text as it is shown.
pub fn quoted(text: &[u8]) -> String {
    format!("\"{}\"", text.escape_ascii())
}

fn said(answer: &Answer) -> String {
    Reply::of(answer_numbers(*answer)).to_string()
}

/// A text must be read as this listing.
fn reads_as(library: &dyn Library, text: &[u8], cell: &Raw) -> Result<(), Otherwise> {
    let (answer, came) = read(library, text);
    same((0, cell), (answer.no, &came), |(no, cell)| format!("{no} {cell}"))
}

/// A text read, written and read.
fn text_round(library: &dyn Library, text: &[u8]) -> Went {
    let (answer, cell) = read(library, text);
    if answer.no != 0 {
        return Ok(Rounds { texts: 1, ..Rounds::default() });
    }
    let closed = library.test(Test::Closed, cell.slices());
    let (answer, again) = written(library, &cell, text.len() + 3)?;
    same(closed, answer, said)?;
    if closed.no == 0 {
        same(text, &again, |text| quoted(text))?;
        reads_as(library, &again, &cell)?;
    }
    Ok(Rounds { texts: 1, read: 1, closed_texts: u64::from(closed.no == 0), ..Rounds::default() })
}

/// A listing written and read.
fn listing_round(library: &dyn Library, cell: &Raw) -> Went {
    let closed = library.test(Test::Closed, cell.slices());
    // No number has more than five digits.
    let room = 12 * (cell.counts.len() + 1) + 6 * (cell.ends.len() + cell.inc.len());
    let (answer, text) = written(library, cell, room)?;
    let over = closed.no == 0 && cell_texts::text(cell.slices()).len() > MAX_TEXT;
    same(if over { Answer { no: 42, ..Answer::default() } } else { closed }, answer, said)?;
    if answer.no == 0 {
        reads_as(library, &text, cell)?;
    }
    Ok(Rounds { listings: 1, closed: u64::from(closed.no == 0), over: u64::from(over), ..Rounds::default() })
}

/// The dual of a listing, with just enough room: the answer, and what was written.
fn dual(library: &dyn Library, cell: &Raw) -> (Answer, Raw) {
    let room = [cell.counts.len(), cell.ends.len(), cell.inc.len()];
    with_lengths(room, |outputs| library.dual(cell.slices(), outputs))
}

/// The dual of a listing, tested, and its dual.
fn dual_round(library: &dyn Library, cell: &Raw) -> Went {
    let closed = library.test(Test::Closed, cell.slices());
    let (answer, turned) = dual(library, cell);
    same(closed, answer, said)?;
    if closed.no == 0 {
        same(closed, library.test(Test::Closed, turned.slices()), said)?;
        let (answer, again) = dual(library, &turned);
        same((0, cell), (answer.no, &again), |(no, cell)| format!("{no} {cell}"))?;
    } else {
        same(Raw::default(), turned, Raw::to_string)?;
    }
    Ok(Rounds { duals: 1, closed_duals: u64::from(closed.no == 0), ..Rounds::default() })
}

/// The dual of a product beside the product of the duals, where both are answered.
fn law_held(library: &dyn Library, kind: Kind, p: &Listing, q: &Listing) -> Went {
    let mut counted = Rounds { laws: 1, ..Rounds::default() };
    if let Some([of_product, of_duals]) = duals::sides(library, kind, p, q) {
        same(of_duals, of_product, |lists| format!("{lists:?}"))?;
        counted.held = Kind::ALL.map(|other| u64::from(other == kind));
    }
    Ok(counted)
}

/// What a model with a fault panics at has gone wrong as well.
fn caught(go: impl FnOnce() -> Went) -> Went {
    catch_unwind(AssertUnwindSafe(go)).unwrap_or(Err(("an answer".into(), "a panic".into())))
}

/// Sends a text round.
pub fn text(library: &dyn Library, text: &[u8]) -> Went {
    caught(|| text_round(library, text))
}

/// Sends a listing round.
pub fn listing(library: &dyn Library, cell: &Raw) -> Went {
    caught(|| listing_round(library, cell))
}

/// Takes the dual of a listing, and of the dual.
pub fn dual_of_dual(library: &dyn Library, cell: &Raw) -> Went {
    caught(|| dual_round(library, cell))
}

/// Holds the dual of a product of closed listings against the product of their duals.
pub fn law(library: &dyn Library, kind: Kind, p: &Listing, q: &Listing) -> Went {
    caught(|| law_held(library, kind, p, q))
}
