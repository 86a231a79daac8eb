//! What a library answers, on lent slices.

use flumedrac::ffi::{Answer, Built, Changed, Cursor, Event, Number, Searched, Volume, Written};
use flumedrac::{raw, Listing, Slices, MAX_ELEMENTS, MAX_INCIDENCES, MAX_RANKS};

use crate::Raw;

/// The tests.
#[derive(Clone, Copy, Debug, PartialEq, Eq, Hash)]
pub enum Test {
    Bounded,
    CheckIncidences,
    IsDyadic,
    IsValid,
    Closed,
}

impl Test {
    pub const ALL: [Test; 5] = [Test::Bounded, Test::CheckIncidences, Test::IsDyadic, Test::IsValid, Test::Closed];

    pub fn name(self) -> &'static str {
        match self {
            Test::Bounded => "bounded",
            Test::CheckIncidences => "check_incidences",
            Test::IsDyadic => "is_dyadic",
            Test::IsValid => "is_valid",
            Test::Closed => "closed",
        }
    }
}

/// The kinds of products.
#[derive(Clone, Copy, Debug, PartialEq, Eq, Hash)]
pub enum Kind {
    Duopyramid,
    Duoprism,
    Duotegum,
    Duocomb,
}

impl Kind {
    pub const ALL: [Kind; 4] = [Kind::Duopyramid, Kind::Duoprism, Kind::Duotegum, Kind::Duocomb];

    pub fn name(self) -> &'static str {
        match self {
            Kind::Duopyramid => "duopyramid",
            Kind::Duoprism => "duoprism",
            Kind::Duotegum => "duotegum",
            Kind::Duocomb => "duocomb",
        }
    }

    /// Whether the factors' minimal elements are left out and one is added.
    pub fn adds_minimal(self) -> bool {
        matches!(self, Kind::Duoprism | Kind::Duocomb)
    }

    /// Whether the factors' maximal elements are left out and one is added.
    pub fn adds_maximal(self) -> bool {
        matches!(self, Kind::Duotegum | Kind::Duocomb)
    }

    /// Whether the pairs are those of the second factor with the first.
    pub fn takes_second_first(self) -> bool {
        matches!(self, Kind::Duopyramid | Kind::Duotegum)
    }

    /// The kind that treats minimal elements as this one treats maximal ones, and maximal ones as it treats minimal
    /// ones.
    pub fn turned_over(self) -> Kind {
        match self {
            Kind::Duoprism => Kind::Duotegum,
            Kind::Duotegum => Kind::Duoprism,
            same => same,
        }
    }
}

/// The three slices that a listing is written to: counts, ends and inc.
pub type Outputs<'a> = [&'a mut [u16]; 3];

/// All that can be asked.
pub trait Library {
    fn rank(&self, counts: &[u16]) -> Number;
    fn el_count(&self, counts: &[u16], rank: usize) -> Number;
    fn vertex_count(&self, counts: &[u16]) -> Number;
    fn facet_count(&self, counts: &[u16]) -> Number;
    fn class(&self, no: u16) -> u16;
    fn test(&self, test: Test, l: Slices<'_>) -> Answer;
    fn change(&self, l: Slices<'_>, flag: &[u16], r: u16) -> Changed;
    fn search(&self, l: Slices<'_>, first: &[u16], mask: u16, table: &mut [u16], orientations: &mut [u8]) -> Searched;
    fn one_body(&self, l: Slices<'_>, table: &mut [u16], orientations: &mut [u8]) -> Searched;
    fn six_volume(
        &self,
        l: Slices<'_>,
        first: &[u16],
        coordinates: &[f64],
        table: &mut [u16],
        orientations: &mut [u8],
    ) -> Volume;
    fn sign(&self, orientation: u8) -> f64;
    fn next_event(&self, cursor: &mut Cursor, count: u16, place: u16) -> Event;
    fn product(&self, kind: Kind, p: Slices<'_>, q: Slices<'_>, outputs: Outputs<'_>) -> Built;
    fn dual(&self, l: Slices<'_>, outputs: Outputs<'_>) -> Built;
    fn read_text(&self, text: &[u8], outputs: Outputs<'_>) -> Built;
    fn check_text(&self, text: &[u8]) -> u16;
    fn write_text(&self, l: Slices<'_>, text: &mut [u8]) -> Written;
}

/// Room for any listing.
pub const ALL_ROOM: [usize; 3] = [MAX_RANKS, 2 * MAX_ELEMENTS, MAX_INCIDENCES];

/// What is written where there is room for any listing: the answer, and the slices as far as they were written.
pub fn with_room(write: impl FnOnce(Outputs<'_>) -> Built) -> (Answer, Raw) {
    with_lengths(ALL_ROOM, write)
}

/// The same in slices of these lengths.
pub fn with_lengths(room: [usize; 3], write: impl FnOnce(Outputs<'_>) -> Built) -> (Answer, Raw) {
    let mut slices = room.map(|length| vec![0; length]);
    let built = write(slices.each_mut().map(Vec::as_mut_slice));
    for (slice, length) in slices.iter_mut().zip([built.counts, built.ends, built.inc]) {
        slice.truncate(length.into());
    }
    let [counts, ends, inc] = slices;
    (built.answer, Raw { counts, ends, inc })
}

/// What a library builds with all the room that a product can need: its answer, and what was written.
pub fn build(library: &dyn Library, kind: Kind, p: &Listing, q: &Listing) -> (Answer, Raw) {
    with_room(|outputs| library.product(kind, p.slices(), q.slices(), outputs))
}

/// The archive: the proved functions.
pub struct Archive;

impl Library for Archive {
    fn rank(&self, counts: &[u16]) -> Number {
        raw::rank(counts)
    }

    fn el_count(&self, counts: &[u16], rank: usize) -> Number {
        raw::el_count(counts, rank)
    }

    fn vertex_count(&self, counts: &[u16]) -> Number {
        raw::vertex_count(counts)
    }

    fn facet_count(&self, counts: &[u16]) -> Number {
        raw::facet_count(counts)
    }

    fn class(&self, no: u16) -> u16 {
        raw::class(no)
    }

    fn test(&self, test: Test, l: Slices<'_>) -> Answer {
        match test {
            Test::Bounded => raw::bounded(l),
            Test::CheckIncidences => raw::check_incidences(l),
            Test::IsDyadic => raw::is_dyadic(l),
            Test::IsValid => raw::is_valid(l),
            Test::Closed => raw::closed(l),
        }
    }

    fn change(&self, l: Slices<'_>, flag: &[u16], r: u16) -> Changed {
        raw::change(l, flag, r)
    }

    fn search(&self, l: Slices<'_>, first: &[u16], mask: u16, table: &mut [u16], orientations: &mut [u8]) -> Searched {
        raw::search(l, first, mask, table, orientations)
    }

    fn one_body(&self, l: Slices<'_>, table: &mut [u16], orientations: &mut [u8]) -> Searched {
        raw::one_body(l, table, orientations)
    }

    fn six_volume(
        &self,
        l: Slices<'_>,
        first: &[u16],
        coordinates: &[f64],
        table: &mut [u16],
        orientations: &mut [u8],
    ) -> Volume {
        raw::six_volume(l, first, coordinates, table, orientations)
    }

    fn sign(&self, orientation: u8) -> f64 {
        raw::sign(orientation)
    }

    fn next_event(&self, cursor: &mut Cursor, count: u16, place: u16) -> Event {
        raw::next_event(cursor, count, place)
    }

    fn product(&self, kind: Kind, p: Slices<'_>, q: Slices<'_>, outputs: Outputs<'_>) -> Built {
        let [counts, ends, inc] = outputs;
        match kind {
            Kind::Duopyramid => raw::duopyramid(p, q, counts, ends, inc),
            Kind::Duoprism => raw::duoprism(p, q, counts, ends, inc),
            Kind::Duotegum => raw::duotegum(p, q, counts, ends, inc),
            Kind::Duocomb => raw::duocomb(p, q, counts, ends, inc),
        }
    }

    fn dual(&self, l: Slices<'_>, outputs: Outputs<'_>) -> Built {
        let [counts, ends, inc] = outputs;
        raw::dual(l, counts, ends, inc)
    }

    fn read_text(&self, text: &[u8], outputs: Outputs<'_>) -> Built {
        let [counts, ends, inc] = outputs;
        raw::read_text(text, counts, ends, inc)
    }

    fn check_text(&self, text: &[u8]) -> u16 {
        raw::check_text(text)
    }

    fn write_text(&self, l: Slices<'_>, text: &mut [u8]) -> Written {
        raw::write_text(l, text)
    }
}
