//! A plain reading of what the library is to answer, in Rust and unproved.
//!
//! It is there to try the harness: without faults it must agree with the Rust files everywhere, and with any one of the
//! faults in [`Break`] it must be caught. Here are the model, its faults, the counts and the classes; `tests`, `flags`,
//! `bodies`, `volumes`, `products`, `duals`, `texts` and `writing` have the rest.

mod bodies;
mod duals;
mod flags;
mod products;
mod tests;
mod texts;
mod volumes;
mod writing;

use flumedrac::ffi::{Answer, Built, Changed, Cursor, Event, Number, Searched, Volume, Written};
use flumedrac::Slices;

use crate::library::{Kind, Library, Outputs, Test};

macro_rules! breaks {
    ($($(#[$doc:meta])* $case:ident $name:literal,)*) => {
        /// Faults that a model can be given, one at a time.
        #[derive(Clone, Copy, Debug, PartialEq, Eq)]
        pub enum Break {
            $($(#[$doc])* $case,)*
        }

        impl Break {
            pub const ALL: &'static [Break] = &[$(Break::$case),*];

            pub fn name(self) -> &'static str {
                match self {
                    $(Break::$case => $name,)*
                }
            }
        }
    };
}

breaks! {
    /// Every test refuses.
    RefusesAll "refuses-all",
    /// Every test accepts.
    AcceptsAll "accepts-all",
    /// Refusal 5 looks at the last end and not at the length of inc.
    IncidencesByEnds "incidences-by-ends",
    /// The sum of the counts is made in 16 bits.
    SumWraps "sum-wraps",
    /// The last end is not looked at.
    LastEndFree "last-end-free",
    /// The classes' first band ends at 8.
    BandShort "band-short",
    /// The nullitope has a facet.
    NullitopeFacet "nullitope-facet",
    /// Bytes from 2 have the sign of even.
    SignOfTwo "sign-of-two",
    /// 13 is answered for 15 and 15 for 13.
    Exchanged "13-15-exchanged",
    /// 12 is looked for before the subs.
    SupsFirst "12-before-subs",
    /// 13 and 14 ask both lists to hold each other equally often.
    BackByCount "back-by-count",
    /// is_dyadic does not look at incidences first.
    DyadicAlone "dyadic-alone",
    /// is_dyadic asks for bounds.
    DyadicBounded "dyadic-bounded",
    /// The diamond counts an index once for each sub.
    OccurrencesOnce "occurrences-once",
    /// The diamond counts for an element an index that the element before it met: of its tally one count stays.
    OneNotUndone "one-not-undone",
    /// 18 names the largest index.
    LoneLargest "lone-largest",
    /// Of one element 18 is answered before 17.
    LoneBeforeThird "lone-before-third",
    /// closed looks at the diamond as is_valid does.
    ClosedStopsEarly "closed-stops-early",
    /// closed does not ask for ascent.
    AscentNotAsked "ascent-not-asked",
    /// Equal numbers ascend.
    AscentNotStrict "ascent-not-strict",
    /// Sups are looked at before subs for ascent.
    AscentSupsFirst "ascent-sups-first",
    /// A flag may be longer than the listing.
    LongFlag "long-flag",
    /// A flag's members need not be incident.
    LooseFlag "loose-flag",
    /// 21 comes before 20.
    RanksBeforeFlag "21-before-20",
    /// A change at the top rank is answered.
    ChangeAtTop "change-at-top",
    /// The flag comes back unchanged.
    NoChange "no-change",
    /// What was taken out is said for what was put in, and the other way round.
    ReplacedExchanged "taken-put-exchanged",
    /// What was put in is said to be what was taken out.
    PutOld "put-is-old",
    /// What was put in is said to be another element over the one below, under the one above or not.
    PutAside "put-aside",
    /// What was taken out is said to be the flag's element of one rank less.
    TakenBelow "taken-of-rank-below",
    /// What was put in is said to be the flag's element of one rank more.
    PutAbove "put-of-rank-above",
    /// Beside a refusal of a change stands the flag's own element, as taken out and as put in.
    ReplacedRefused "replaced-beside-refusal",
    /// Changes are taken from the highest bit downward.
    MaskDownward "mask-downward",
    /// A new flag has the orientation of the flag it came from.
    NotFlipped "not-flipped",
    /// The stored orientation follows a repeat.
    OrientationFollows "orientation-follows",
    /// The place is one less.
    PlaceOneLess "place-one-less",
    /// The event comes after all flags.
    EventAtEnd "event-at-end",
    /// Room is what the table alone holds.
    RoomByTable "room-by-table",
    /// A search that fills its room is refused.
    FullRefused "full-refused",
    /// A search that has filled its room stops and is accepted.
    FullStops "full-stops",
    /// 22 writes nothing.
    MoreWritesNothing "22-writes-nothing",
    /// 22 keeps the count.
    MoreKeepsCount "22-keeps-count",
    /// The table holds the first flag again and again.
    OneFlag "one-flag-repeated",
    /// The flags' limit is one less.
    FlagsOneLess "flags-one-less",
    /// one_body asks is_valid and not closed.
    BodyByValid "body-by-is-valid",
    /// one_body drops the fields of what closed refuses.
    BodyNoFields "body-without-fields",
    /// The search of one_body begins with the flag of first subs.
    BodyFromSubs "body-from-subs",
    /// The search of one_body begins with the flag of last sups.
    BodyFromLastSups "body-from-last-sups",
    /// The search of one_body leaves out the change at the highest rank.
    BodyMaskShort "body-mask-short",
    /// 22 of one_body goes by the flags that the search reaches.
    BodyByReached "body-by-reached",
    /// one_body counts flags in 16 bits.
    BodyWraps16 "body-wraps-16",
    /// one_body counts flags in 32 bits.
    BodyWraps32 "body-wraps-32",
    /// one_body refuses flags that just fit.
    BodyFullRefused "body-full-refused",
    /// The room of one_body has no other limits than the slices.
    BodyRoomFree "body-room-free",
    /// 25 comes before 22.
    PartsBeforeMore "25-before-22",
    /// Flags that share a vertex are in one part.
    PartsByVertex "parts-by-vertex",
    /// A cell with a face in several parts is refused as 25.
    PartsOfFaces "parts-of-faces",
    /// 25 is not asked.
    PartsFree "25-not-asked",
    /// 25 writes nothing.
    PartsWriteNothing "25-writes-nothing",
    /// 22 of one_body writes nothing.
    BodyMoreWritesNothing "body-22-writes-nothing",
    /// Beside 22 and 25 of one_body stand the numbers of the search.
    BodyKeepsNumbers "body-keeps-numbers",
    /// The sum of six_volume begins at -0.0.
    VolumeFromMinusZero "volume-from-minus-zero",
    /// six_volume sums the odd flags.
    VolumeOfOdd "volume-of-odd",
    /// six_volume sums all flags, the odd ones with the other sign.
    VolumeOfAll "volume-of-all",
    /// six_volume leaves out the first flag.
    VolumeWithoutFirst "volume-without-first",
    /// six_volume takes the lowest vertex of the edge and not of the face.
    LowestOfEdge "lowest-of-edge",
    /// six_volume takes the lowest vertex of the cell and not of the face.
    LowestOfCell "lowest-of-cell",
    /// six_volume takes the highest vertex of the face.
    HighestOfFace "highest-of-face",
    /// six_volume takes the first vertex of the face's first edge, which need not be the lowest.
    FirstOfFace "first-of-face",
    /// The determinant adds its second product.
    MinorAdded "minor-added",
    /// The edge's other vertex comes before the flag's own in the determinant.
    VolumeTurned "volume-turned",
    /// six_volume has no sign.
    VolumeUnsigned "volume-unsigned",
    /// six_volume answers the volume itself.
    VolumeItself "volume-itself",
    /// six_volume sums in 32 bits.
    VolumeWraps32 "volume-wraps-32",
    /// six_volume sums in f32.
    VolumeInSingle "volume-in-f32",
    /// The search of six_volume leaves out the change at the highest rank.
    VolumeMaskShort "volume-mask-short",
    /// six_volume refuses what is not one body.
    VolumeAsksBody "volume-asks-one-body",
    /// 50 is not asked of ranks over 4.
    RankOverFour "50-not-asked-over",
    /// 50 is not asked of ranks under 4.
    RankUnderFour "50-not-asked-under",
    /// 51 comes before 50.
    OrientableFirst "51-before-50",
    /// 51 is not asked.
    OrientableFree "51-not-asked",
    /// 52 comes before 50.
    LengthFirst "52-before-50",
    /// 53 comes before 51.
    MetresBeforeOrientable "53-before-51",
    /// 53 comes before 52.
    MetresBeforeLength "53-before-52",
    /// 53 is answered for 52 and 52 for 53.
    LengthForMetres "52-53-exchanged",
    /// More coordinates than three for each vertex are taken.
    MoreCoordinates "52-more-taken",
    /// 52 asks for one coordinate for each vertex.
    LengthByVertices "52-by-vertices",
    /// A coordinate of 1,001 is taken.
    OverMetres "1001-taken",
    /// A coordinate of -1,001 is taken.
    UnderMetres "minus-1001-taken",
    /// Coordinates of 1,000 and -1,000 are refused.
    MetresOneLess "1000-refused",
    /// A coordinate need not be whole.
    FractionTaken "fraction-taken",
    /// A coordinate that is NaN is taken for 0.
    NanTaken "nan-taken",
    /// An infinite coordinate is taken for 0.
    InfinityTaken "infinity-taken",
    /// -0.0 is refused.
    MinusZeroRefused "minus-zero-refused",
    /// 53 does not look at the last coordinate.
    LastFree "53-without-last",
    /// 53 looks at the vertices that the search has met.
    MetresOfMet "53-of-met",
    /// 50 writes nothing.
    RankWritesNothing "50-writes-nothing",
    /// 51 writes nothing.
    OrientableWritesNothing "51-writes-nothing",
    /// 52 writes nothing.
    LengthWritesNothing "52-writes-nothing",
    /// 53 writes nothing.
    MetresWriteNothing "53-writes-nothing",
    /// 22 of six_volume writes nothing.
    VolumeMoreWritesNothing "volume-22-writes-nothing",
    /// 20 of six_volume writes.
    VolumeFlagWrites "volume-20-writes",
    /// Beside a refusal of six_volume stands -0.0.
    VolumeRefusedMinusZero "volume-refused-minus-zero",
    /// Beside 51 of six_volume stands the sum.
    VolumeKeepsSum "volume-keeps-sum",
    /// The cursor runs on past the last event.
    CursorRunsOn "cursor-runs-on",
    /// The cursor gives one event and then none.
    CursorStops "cursor-stops",
    /// The event that a cell is not orientable comes one flag late.
    CursorLate "cursor-late",
    /// The left factor is asked to be closed.
    FactorClosed "factor-closed",
    /// The right factor is not tested.
    RightUntested "right-untested",
    /// A duopyramid with the nullitope is the nullitope.
    PyramidNullitope "pyramid-nullitope",
    /// A duocomb of a point and a larger listing is 33.
    CombOfOnePoint "comb-of-one-point",
    /// A product with 16 ranks is refused.
    RanksOneLess "33-one-less",
    /// A product with 4,096 elements is refused.
    ElementsOneLess "34-one-less",
    /// A product with 32,768 incidences is refused.
    IncidencesOneLess "35-one-less",
    /// 36 before 35.
    ShortBeforeIncidences "36-before-35",
    /// 36 writes the counts.
    ShortWrites "36-writes",
    /// 36 does not look at the third slice.
    ShortInc "36-without-inc",
    /// A product writes one number more than it says.
    WritesRest "writes-rest",
    /// A product answers its lengths and writes nothing.
    WritesNothing "writes-nothing",
    /// A product is its first factor.
    FirstFactor "first-factor",
    /// The duopyramid takes its pairs the other way.
    PairsSwapped "pairs-swapped",
    /// The second member's subs come first.
    SubsOtherOrder "subs-other-order",
    /// Sups are gathered downward.
    SupsDownward "sups-downward",
    /// The sups of a product's pairs are gathered once for each element above.
    SupsOnce "sups-once",
    /// The first end is one more.
    FirstEndMoved "first-end-moved",
    /// 42 comes after what else is refused of a text.
    LongTextLast "42-last",
    /// A text of 65,536 bytes is refused.
    BytesOneLess "42-one-less",
    /// A wrong key is 41.
    KeyAsLine "key-as-41",
    /// A line that is not there is 41.
    EndAsLine "end-as-41",
    /// A key may stand in capital letters.
    KeyInCapitals "key-in-capitals",
    /// A number may begin with a 0.
    ZeroInFront "zero-in-front",
    /// A number over 65,535 is taken in 16 bits.
    NumberWraps "number-wraps",
    /// A number over 65,535 is 65,535.
    NumberSaturates "number-saturates",
    /// A rank or a count that is not there is 0.
    NoNumber "no-number",
    /// Of several ranks or counts in a line the first is taken.
    MoreNumbers "more-numbers",
    /// A list may end with a comma.
    CommaAtEnd "comma-at-end",
    /// Blanks in a line are passed over.
    Blanks "blanks",
    /// A newline may be a carriage return and a newline.
    CarriageReturn "carriage-return",
    /// The last line may end with the text.
    NewlineFree "newline-free",
    /// A rank that is too high is 2 before its newline is looked for.
    RanksEarly "2-before-newline",
    /// The limits are looked at after the whole text.
    LimitsLast "limits-last",
    /// A text with 16 ranks is refused.
    TextRanksOneLess "2-one-less",
    /// A text with 4,096 elements is refused.
    TextElementsOneLess "3-one-less",
    /// 3 looks at each count alone.
    CountAlone "3-by-one-count",
    /// A text with 32,768 incidences is refused.
    TextIncidencesOneLess "5-one-less",
    /// 5 does not count sups.
    SupsNotCounted "5-without-sups",
    /// 5 counts sups for subs that do not exist.
    MissingCounted "5-with-missing",
    /// 5 is looked at after the last line of a rank.
    IncidencesLate "5-after-rank",
    /// Bytes after the last line are passed over.
    LeftTaken "43-not-asked",
    /// 36 before 43.
    ShortBeforeLeft "36-before-43",
    /// 43 leaves what was read in the slices.
    LeftWrites "43-writes",
    /// The last element gets the sups of subs that do not exist.
    MissingToLast "missing-to-last",
    /// The subs of the elements of rank 0 are passed over.
    LowestSubsDropped "lowest-subs-dropped",
    /// A text is tested by is_valid.
    CheckByValid "check-by-is-valid",
    /// A text that can be read is closed.
    CheckReadsOnly "check-reads-only",
    /// A text is written if is_valid accepts the listing.
    WritingByValid "writing-by-is-valid",
    /// Writing drops the fields of what closed refuses.
    WritingNoFields "writing-without-fields",
    /// Where there is no room at all, 44 comes before what closed refuses.
    ShortFirst "44-before-closed",
    /// 42 comes before 44.
    LongBeforeShort "42-before-44",
    /// 44 is not asked: what fits is written.
    ShortFree "44-not-asked",
    /// Bytes that the text just fits into are too few.
    ExactRefused "44-at-exact-room",
    /// 42 is not asked of a text that is written.
    LongWritten "42-not-asked",
    /// A text of 65,536 bytes is not written.
    WrittenOneLess "written-one-less",
    /// A refusal of a text writes a byte.
    RefusedWrites "refused-writes",
    /// Beside 44 stands how many bytes there are.
    RefusedLength "refused-length",
    /// Numbers from 10 are written with a 0 in front.
    ZeroWritten "zero-written",
    /// A blank is written after each comma.
    BlankWritten "blank-written",
    /// The last newline is not written.
    NewlineNotWritten "newline-not-written",
    /// Sups are written in place of subs.
    SupsWritten "sups-written",
    /// The length of what was written is one less.
    LengthOneLess "length-one-less",
    /// The byte behind a text is changed.
    WritesBehind "writes-behind",
    /// The dual is taken if is_valid accepts the listing.
    DualByValid "dual-by-is-valid",
    /// The dual drops the fields of what closed refuses.
    DualNoFields "dual-without-fields",
    /// The dual of what is not one body is refused as 25.
    DualAsksBody "dual-asks-one-body",
    /// 36 comes before what closed refuses of the dual.
    DualShortFirst "dual-36-before-closed",
    /// 36 is not asked of the dual: what fits is written.
    DualShortFree "dual-36-not-asked",
    /// 36 does not look at the second slice for the dual.
    DualShortEnds "dual-36-without-ends",
    /// Slices that the dual just fits into are too short.
    DualExactRefused "dual-36-at-exact-room",
    /// The dual wants room for any listing.
    DualRoomOfAll "dual-36-by-limits",
    /// 36 of the dual writes.
    DualShortWrites "dual-36-writes",
    /// What closed refuses of the dual writes.
    DualRefusedWrites "dual-refused-writes",
    /// Beside 36 of the dual stand its lengths.
    DualRefusedLengths "dual-36-keeps-lengths",
    /// The number behind each slice of the dual is changed.
    DualWritesBehind "dual-writes-behind",
    /// The length of the dual's inc is one less.
    DualLengthOneLess "dual-length-one-less",
    /// The dual is the listing itself.
    DualItself "dual-is-itself",
    /// The lists of the dual's elements are not exchanged.
    DualListsKept "dual-lists-kept",
    /// Those of the rank in the middle are not exchanged.
    DualMiddleKept "dual-middle-kept",
    /// The dual's ranks are not reversed.
    DualRanksKept "dual-ranks-kept",
    /// The indices in each rank of the dual are reversed too.
    DualIndicesReversed "dual-indices-reversed",
    /// Each list of the dual is in the opposite order.
    DualListsReversed "dual-lists-reversed",
    /// The dual's counts are those of the listing as they stand.
    DualCountsKept "dual-counts-kept",
    /// The dual's ends are those of the listing.
    DualEndsKept "dual-ends-kept",
    /// In the dual's ends the first of an element goes by the length of its other list.
    DualEndsInside "dual-ends-inside",
}

/// The model, right or with one fault.
#[derive(Clone, Copy, Debug, Default)]
pub struct Model {
    pub fault: Option<Break>,
}

/// What tests, changes and searches within other answers: faults of these are seen where they themselves are asked.
const RIGHT: Model = Model { fault: None };

/// A refusal, if there is one.
type Refused = Option<Answer>;

/// An element's subs and sups.
#[derive(Clone, Copy)]
struct Element<'a> {
    subs: &'a [u16],
    sups: &'a [u16],
}

/// The elements of each rank.
type Layers<'a> = Vec<Vec<Element<'a>>>;

fn refuse(no: u16, fields: [usize; 4]) -> Refused {
    let [a, b, c, d] = fields.map(|x| x as u16);
    Some(Answer { no, a, b, c, d })
}

/// The elements of slices that have the right shape.
fn layers(l: Slices<'_>) -> Layers<'_> {
    let mut start = 0;
    let mut ends = l.ends.iter();
    let mut list = || {
        let end = *ends.next().expect("two ends for each element") as usize;
        let list = &l.inc[start..end];
        start = end;
        list
    };
    l.counts.iter().map(|&count| (0..count).map(|_| Element { subs: list(), sups: list() }).collect()).collect()
}

impl Model {
    /// The model with a fault.
    pub fn broken(fault: Break) -> Self {
        Self { fault: Some(fault) }
    }

    fn has(&self, fault: Break) -> bool {
        self.fault == Some(fault)
    }

    fn number(&self, counts: &[u16], value: impl Fn(usize) -> usize) -> Number {
        match counts.len() {
            0 => Number { no: 1, value: 0 },
            n => Number { no: 0, value: value(n - 1) },
        }
    }
}

impl Library for Model {
    fn rank(&self, counts: &[u16]) -> Number {
        self.number(counts, |rank| rank)
    }

    fn el_count(&self, counts: &[u16], rank: usize) -> Number {
        self.number(counts, |_| counts.get(rank).map_or(0, |&count| count as usize))
    }

    fn vertex_count(&self, counts: &[u16]) -> Number {
        self.el_count(counts, 1)
    }

    fn facet_count(&self, counts: &[u16]) -> Number {
        let facets = |rank: usize| match self.has(Break::NullitopeFacet) {
            true => rank.saturating_sub(1),
            false => rank.wrapping_sub(1),
        };
        self.number(counts, |rank| self.el_count(counts, facets(rank)).value)
    }

    fn class(&self, no: u16) -> u16 {
        match no {
            9 if self.has(Break::BandShort) => 0,
            1..=9 => 1,
            10..=19 => 2,
            20..=29 => 3,
            30..=39 => 4,
            _ => 0,
        }
    }

    fn test(&self, test: Test, l: Slices<'_>) -> Answer {
        match self.fault {
            Some(Break::AcceptsAll) => Answer::default(),
            Some(Break::RefusesAll) => Answer { no: 1, ..Answer::default() },
            _ => self.tested(test, l).unwrap_or_default(),
        }
    }

    fn change(&self, l: Slices<'_>, flag: &[u16], r: u16) -> Changed {
        self.answer_change(l, flag, r)
    }

    fn search(&self, l: Slices<'_>, first: &[u16], mask: u16, table: &mut [u16], orientations: &mut [u8]) -> Searched {
        self.answer_search(l, first, mask, table, orientations)
    }

    fn one_body(&self, l: Slices<'_>, table: &mut [u16], orientations: &mut [u8]) -> Searched {
        self.answer_body(l, table, orientations)
    }

    fn six_volume(
        &self,
        l: Slices<'_>,
        first: &[u16],
        coordinates: &[f64],
        table: &mut [u16],
        orientations: &mut [u8],
    ) -> Volume {
        self.answer_volume(l, first, coordinates, table, orientations)
    }

    fn sign(&self, orientation: u8) -> f64 {
        match orientation {
            0 => 1.0,
            2.. if self.has(Break::SignOfTwo) => 1.0,
            _ => -1.0,
        }
    }

    fn next_event(&self, cursor: &mut Cursor, count: u16, place: u16) -> Event {
        self.answer_event(cursor, count, place)
    }

    fn product(&self, kind: Kind, p: Slices<'_>, q: Slices<'_>, outputs: Outputs<'_>) -> Built {
        self.answer_product(kind, p, q, outputs)
    }

    fn dual(&self, l: Slices<'_>, outputs: Outputs<'_>) -> Built {
        self.answer_dual(l, outputs)
    }

    fn read_text(&self, text: &[u8], outputs: Outputs<'_>) -> Built {
        self.answer_reading(text, outputs)
    }

    fn check_text(&self, text: &[u8]) -> u16 {
        self.answer_check(text)
    }

    fn write_text(&self, l: Slices<'_>, text: &mut [u8]) -> Written {
        self.answer_writing(l, text)
    }
}
