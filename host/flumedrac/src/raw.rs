//! The library's functions on lent slices: numbers in, numbers out, no memory taken.
//!
//! Any slices of any length may be given. Each function is called as in `include/flumedrac.h`, where its numbers are
//! explained; the rest of this package says the same in Rust's words.

use crate::ffi::{self, Answer, Built, Changed, Cursor, Event, Number, Searched, Volume, Written};
use crate::Slices;

/// The functions that look at counts alone.
macro_rules! counts {
    ($($name:ident $function:ident;)*) => {
        $(#[doc = concat!("What `", stringify!($function), "` answers.")]
        pub fn $name(counts: &[u16]) -> Number {
            // Safety: a slice is its pointer and its length.
            unsafe { ffi::$function(counts.as_ptr(), counts.len()) }
        })*
    };
}

/// The tests.
macro_rules! tests {
    ($($name:ident $function:ident;)*) => {
        $(#[doc = concat!("What `", stringify!($function), "` answers.")]
        pub fn $name(l: Slices<'_>) -> Answer {
            // Safety: each slice is its pointer and its length.
            unsafe {
                ffi::$function(
                    l.counts.as_ptr(), l.counts.len(), l.ends.as_ptr(), l.ends.len(), l.inc.as_ptr(), l.inc.len(),
                )
            }
        })*
    };
}

/// The products.
macro_rules! products {
    ($($name:ident $function:ident;)*) => {
        $(#[doc = concat!("What `", stringify!($function), "` answers, with the product in the last three slices.")]
        pub fn $name(
            p: Slices<'_>, q: Slices<'_>, counts: &mut [u16], ends: &mut [u16], inc: &mut [u16],
        ) -> Built {
            // Safety: each slice is its pointer and its length; those lent to be written overlap no other.
            unsafe {
                ffi::$function(
                    p.counts.as_ptr(), p.counts.len(), p.ends.as_ptr(), p.ends.len(), p.inc.as_ptr(), p.inc.len(),
                    q.counts.as_ptr(), q.counts.len(), q.ends.as_ptr(), q.ends.len(), q.inc.as_ptr(), q.inc.len(),
                    counts.as_mut_ptr(), counts.len(), ends.as_mut_ptr(), ends.len(), inc.as_mut_ptr(), inc.len(),
                )
            }
        })*
    };
}

counts! {
    rank fd_rank;
    vertex_count fd_vertex_count;
    facet_count fd_facet_count;
}

/// What `fd_el_count` answers.
pub fn el_count(counts: &[u16], rank: usize) -> Number {
    // Safety: a slice is its pointer and its length.
    unsafe { ffi::fd_el_count(counts.as_ptr(), counts.len(), rank) }
}

/// What `fd_class` answers.
pub fn class(no: u16) -> u16 {
    // Safety: numbers only.
    unsafe { ffi::fd_class(no) }
}

tests! {
    bounded fd_bounded;
    check_incidences fd_check_incidences;
    is_dyadic fd_is_dyadic;
    is_valid fd_is_valid;
    closed fd_closed;
}

/// What `fd_change` answers.
#[rustfmt::skip]
pub fn change(l: Slices<'_>, flag: &[u16], r: u16) -> Changed {
    // Safety: each slice is its pointer and its length.
    unsafe {
        ffi::fd_change(
            l.counts.as_ptr(), l.counts.len(), l.ends.as_ptr(), l.ends.len(), l.inc.as_ptr(), l.inc.len(),
            flag.as_ptr(), flag.len(), r,
        )
    }
}

/// What `fd_search` answers, with the flags found in `table` and their orientations in `orientations`.
#[rustfmt::skip]
pub fn search(l: Slices<'_>, first: &[u16], mask: u16, table: &mut [u16], orientations: &mut [u8]) -> Searched {
    // Safety: each slice is its pointer and its length; those lent to be written overlap no other.
    unsafe {
        ffi::fd_search(
            l.counts.as_ptr(), l.counts.len(), l.ends.as_ptr(), l.ends.len(), l.inc.as_ptr(), l.inc.len(),
            first.as_ptr(), first.len(), mask,
            table.as_mut_ptr(), table.len(), orientations.as_mut_ptr(), orientations.len(),
        )
    }
}

/// What `fd_one_body` answers, with the flags of one part in `table` and their orientations in `orientations`.
#[rustfmt::skip]
pub fn one_body(l: Slices<'_>, table: &mut [u16], orientations: &mut [u8]) -> Searched {
    // Safety: each slice is its pointer and its length; those lent to be written overlap no other.
    unsafe {
        ffi::fd_one_body(
            l.counts.as_ptr(), l.counts.len(), l.ends.as_ptr(), l.ends.len(), l.inc.as_ptr(), l.inc.len(),
            table.as_mut_ptr(), table.len(), orientations.as_mut_ptr(), orientations.len(),
        )
    }
}

/// What `fd_six_volume` answers, with the flags found in `table` and their orientations in `orientations`. The
/// coordinates are three for each vertex, one vertex after another.
#[rustfmt::skip]
pub fn six_volume(
    l: Slices<'_>, first: &[u16], coordinates: &[f64], table: &mut [u16], orientations: &mut [u8],
) -> Volume {
    // Safety: each slice is its pointer and its length; those lent to be written overlap no other.
    unsafe {
        ffi::fd_six_volume(
            l.counts.as_ptr(), l.counts.len(), l.ends.as_ptr(), l.ends.len(), l.inc.as_ptr(), l.inc.len(),
            first.as_ptr(), first.len(), coordinates.as_ptr(), coordinates.len(),
            table.as_mut_ptr(), table.len(), orientations.as_mut_ptr(), orientations.len(),
        )
    }
}

/// What `fd_sign` answers.
pub fn sign(orientation: u8) -> f64 {
    // Safety: numbers only.
    unsafe { ffi::fd_sign(orientation) }
}

/// What `fd_next_event` answers; moves the cursor by one event.
pub fn next_event(cursor: &mut Cursor, count: u16, place: u16) -> Event {
    // Safety: the cursor is lent for this call alone.
    unsafe { ffi::fd_next_event(cursor, count, place) }
}

products! {
    duopyramid fd_duopyramid;
    duoprism fd_duoprism;
    duotegum fd_duotegum;
    duocomb fd_duocomb;
}

/// What `fd_dual` answers, with the dual in the last three slices.
#[rustfmt::skip]
pub fn dual(p: Slices<'_>, counts: &mut [u16], ends: &mut [u16], inc: &mut [u16]) -> Built {
    // Safety: each slice is its pointer and its length; those lent to be written overlap no other.
    unsafe {
        ffi::fd_dual(
            p.counts.as_ptr(), p.counts.len(), p.ends.as_ptr(), p.ends.len(), p.inc.as_ptr(), p.inc.len(),
            counts.as_mut_ptr(), counts.len(), ends.as_mut_ptr(), ends.len(), inc.as_mut_ptr(), inc.len(),
        )
    }
}

/// What `fd_read_text` answers, with the listing in the last three slices.
#[rustfmt::skip]
pub fn read_text(text: &[u8], counts: &mut [u16], ends: &mut [u16], inc: &mut [u16]) -> Built {
    // Safety: each slice is its pointer and its length; those lent to be written overlap no other.
    unsafe {
        ffi::fd_read_text(
            text.as_ptr(), text.len(),
            counts.as_mut_ptr(), counts.len(), ends.as_mut_ptr(), ends.len(), inc.as_mut_ptr(), inc.len(),
        )
    }
}

/// What `fd_check_text` answers: a number alone, which [`check_text`](crate::check_text) gives with its place.
pub fn check_text(text: &[u8]) -> u16 {
    // Safety: a slice is its pointer and its length.
    unsafe { ffi::fd_check_text(text.as_ptr(), text.len()) }
}

/// What `fd_write_text` answers, with the text in front of the bytes lent; those behind it stay as they were.
#[rustfmt::skip]
pub fn write_text(l: Slices<'_>, text: &mut [u8]) -> Written {
    // Safety: each slice is its pointer and its length; the one lent to be written overlaps no other.
    unsafe {
        ffi::fd_write_text(
            l.counts.as_ptr(), l.counts.len(), l.ends.as_ptr(), l.ends.len(), l.inc.as_ptr(), l.inc.len(),
            text.as_mut_ptr(), text.len(),
        )
    }
}
