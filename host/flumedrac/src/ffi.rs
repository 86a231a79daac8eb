//! The C boundary as `include/flumedrac.h` declares it. What the numbers mean stands there.
//!
//! The structures are also the answers of the module [`raw`](crate::raw), which calls these functions safely. Here a
//! slice's pointer must not be null, not even that of an empty slice: the header sees to this for callers in C.

use crate::MAX_RANKS;

/// A refusal's number, 0 for none, and its fields. `fd_answer` in C.
#[repr(C)]
#[derive(Clone, Copy, Debug, Default, PartialEq, Eq, Hash)]
pub struct Answer {
    /// The refusal's number; 0 where nothing is refused.
    pub no: u16,
    /// The first field: most often a rank.
    pub a: u16,
    /// The second field: most often the index of an element of that rank.
    pub b: u16,
    /// The third field: the entry that is listed, the side of a list, or the rank of the higher element.
    pub c: u16,
    /// The fourth field: the index of the higher element.
    pub d: u16,
}

/// A count, or the refusal 1. `fd_number` in C.
#[repr(C)]
#[derive(Clone, Copy, Debug, Default, PartialEq, Eq)]
pub struct Number {
    /// 0, or 1 where there are no ranks.
    pub no: u16,
    /// What was counted; 0 on the refusal.
    pub value: usize,
}

/// A changed flag, and what was replaced in it; all 0 on a refusal. `fd_changed` in C.
#[repr(C)]
#[derive(Clone, Copy, Debug, Default, PartialEq, Eq)]
pub struct Changed {
    /// Whether the change was refused.
    pub answer: Answer,
    /// The new flag, one index for each rank, then 0s.
    pub flag: [u16; MAX_RANKS],
    /// The index that the change took out: the old flag's at its rank.
    pub taken: u16,
    /// The index that it put in: the new flag's there.
    pub put: u16,
}

/// What a search found, or the test for one body; all 0 on a refusal. `fd_searched` in C.
#[repr(C)]
#[derive(Clone, Copy, Debug, Default, PartialEq, Eq)]
pub struct Searched {
    /// Whether the search was refused.
    pub answer: Answer,
    /// How many flags were found.
    pub count: u16,
    /// How many of them came before the event that says "not orientable"; 0 if it never came.
    pub place: u16,
    /// 1 if every change flips the orientation, else 0.
    pub orientable: u8,
}

/// The lengths that a product, a dual or a reading has written; all 0 on a refusal. `fd_built` in C.
#[repr(C)]
#[derive(Clone, Copy, Debug, Default, PartialEq, Eq)]
pub struct Built {
    /// Whether the product, the dual or the reading was refused.
    pub answer: Answer,
    /// How many numbers of counts were written.
    pub counts: u16,
    /// How many numbers of ends were written.
    pub ends: u16,
    /// How many numbers of inc were written.
    pub inc: u16,
}

/// How long a text is that was written; 0 on a refusal. `fd_written` in C.
#[repr(C)]
#[derive(Clone, Copy, Debug, Default, PartialEq, Eq)]
pub struct Written {
    /// Whether the writing was refused.
    pub answer: Answer,
    /// How many bytes were written.
    pub length: usize,
}

/// Six times the volume of a cell, or a refusal's number. `fd_volume` in C.
#[repr(C)]
#[derive(Clone, Copy, Debug, Default, PartialEq)]
pub struct Volume {
    /// The refusal's number; 0 where nothing is refused.
    pub no: u16,
    /// Six times the volume, a whole number; 0.0 on a refusal.
    pub six: f64,
}

/// Where an iteration over events stands. `fd_cursor` in C.
#[repr(C)]
#[derive(Clone, Copy, Debug, Default, PartialEq, Eq)]
pub struct Cursor {
    /// How many events were given; begin with 0.
    pub at: u32,
}

/// An event of a search. `fd_event` in C.
#[repr(C)]
#[derive(Clone, Copy, Debug, Default, PartialEq, Eq)]
pub struct Event {
    /// 0: no more events. 1: a flag. 2: not orientable.
    pub kind: u16,
    /// The flag's number in the table, for kind 1; else 0.
    pub flag: u16,
}

/// Declares all functions. Those that take a listing, or two and the three slices of a product, differ by name alone.
macro_rules! functions {
    (counts: $($count:ident)*; tests: $($test:ident)*; products: $($product:ident)*;) => {
        extern "C" {
            $(#[doc = concat!("`", stringify!($count), "` in C: looks at counts alone.")]
            pub fn $count(counts: *const u16, counts_len: usize) -> Number;)*

            /// `fd_el_count` in C: looks at counts alone.
            pub fn fd_el_count(counts: *const u16, counts_len: usize, rank: usize) -> Number;

            /// `fd_class` in C: the class of a refusal's number.
            pub fn fd_class(no: u16) -> u16;

            $(#[doc = concat!("`", stringify!($test), "` in C: a test of a listing.")]
            pub fn $test(
                counts: *const u16, counts_len: usize, ends: *const u16, ends_len: usize,
                inc: *const u16, inc_len: usize,
            ) -> Answer;)*

            /// `fd_change` in C: the flag with the other element at rank r, and what was replaced.
            pub fn fd_change(
                counts: *const u16, counts_len: usize, ends: *const u16, ends_len: usize,
                inc: *const u16, inc_len: usize, flag: *const u16, flag_len: usize, r: u16,
            ) -> Changed;

            /// `fd_search` in C: all flags that the changes in the mask reach from the first.
            pub fn fd_search(
                counts: *const u16, counts_len: usize, ends: *const u16, ends_len: usize,
                inc: *const u16, inc_len: usize, first: *const u16, first_len: usize, mask: u16,
                table: *mut u16, table_len: usize, orientations: *mut u8, orientations_len: usize,
            ) -> Searched;

            /// `fd_one_body` in C: whether a closed listing is one body, by a search with every change.
            pub fn fd_one_body(
                counts: *const u16, counts_len: usize, ends: *const u16, ends_len: usize,
                inc: *const u16, inc_len: usize,
                table: *mut u16, table_len: usize, orientations: *mut u8, orientations_len: usize,
            ) -> Searched;

            /// `fd_six_volume` in C: six times the volume of a cell, by a search with every change.
            pub fn fd_six_volume(
                counts: *const u16, counts_len: usize, ends: *const u16, ends_len: usize,
                inc: *const u16, inc_len: usize, first: *const u16, first_len: usize,
                coordinates: *const f64, coordinates_len: usize,
                table: *mut u16, table_len: usize, orientations: *mut u8, orientations_len: usize,
            ) -> Volume;

            /// `fd_sign` in C: the sign of an orientation byte.
            pub fn fd_sign(orientation: u8) -> f64;

            /// `fd_next_event` in C: the next event of a search, by its cursor, which is not null.
            pub fn fd_next_event(cursor: *mut Cursor, count: u16, place: u16) -> Event;

            $(#[doc = concat!("`", stringify!($product), "` in C: a product of two listings.")]
            pub fn $product(
                p_counts: *const u16, p_counts_len: usize, p_ends: *const u16, p_ends_len: usize,
                p_inc: *const u16, p_inc_len: usize,
                q_counts: *const u16, q_counts_len: usize, q_ends: *const u16, q_ends_len: usize,
                q_inc: *const u16, q_inc_len: usize,
                counts: *mut u16, counts_len: usize, ends: *mut u16, ends_len: usize,
                inc: *mut u16, inc_len: usize,
            ) -> Built;)*

            /// `fd_dual` in C: the dual of a closed listing.
            pub fn fd_dual(
                p_counts: *const u16, p_counts_len: usize, p_ends: *const u16, p_ends_len: usize,
                p_inc: *const u16, p_inc_len: usize,
                counts: *mut u16, counts_len: usize, ends: *mut u16, ends_len: usize,
                inc: *mut u16, inc_len: usize,
            ) -> Built;

            /// `fd_read_text` in C: the listing in a text.
            pub fn fd_read_text(
                text: *const u8, text_len: usize,
                counts: *mut u16, counts_len: usize, ends: *mut u16, ends_len: usize,
                inc: *mut u16, inc_len: usize,
            ) -> Built;

            /// `fd_check_text` in C: the number of what refuses a text, or the listing in it as closed.
            pub fn fd_check_text(text: *const u8, text_len: usize) -> u16;

            /// `fd_write_text` in C: the text of a closed listing.
            pub fn fd_write_text(
                counts: *const u16, counts_len: usize, ends: *const u16, ends_len: usize,
                inc: *const u16, inc_len: usize, text: *mut u8, text_len: usize,
            ) -> Written;
        }
    };
}

functions! {
    counts: fd_rank fd_vertex_count fd_facet_count;
    tests: fd_bounded fd_check_incidences fd_is_dyadic fd_is_valid fd_closed;
    products: fd_duopyramid fd_duoprism fd_duotegum fd_duocomb;
}
