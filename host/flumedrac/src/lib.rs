//! Flumedrac from Rust: tests of cells, the four products, duals, flag changes and the oriented flag search; cells read
//! from a text and written as one; the volume of a cell.
//!
//! The work is done by the archive `libflumedrac.a`, whose functions are proved; this package wraps them. A cell is a
//! [`Listing`]. What is refused is a [`Refusal`], with the place where the fault was seen first.
//!
//! The archive is made by `host/archive.sh`. Where it is not found the package does not build: `build.rs` says
//! where it looks.
//!
//! ```
//! use flumedrac::{duoprism, Listing};
//!
//! // A prism is the duoprism of a dyad and a triangle.
//! let prism = duoprism(&Listing::dyad(), &Listing::polygon(3)?)?;
//! assert_eq!(prism.slices().counts, [1, 6, 9, 5, 1]);
//! prism.closed()?;
//!
//! // It has six flags for each vertex, and can be oriented.
//! let first = prism.first_flag().expect("a closed cell has flags");
//! let search = prism.search(&first, prism.all_changes(), 1000)?;
//! assert_eq!(search.len(), 36);
//! assert!(search.is_orientable());
//! # Ok::<(), flumedrac::Refusal>(())
//! ```
#![deny(missing_docs)]

pub mod ffi;
pub mod raw;

mod cell;
mod flags;
mod listing;
mod refusal;
mod text;
mod volume;

pub use cell::{duocomb, duoprism, duopyramid, duotegum};
pub use flags::{Change, Event, Events, Flag, Orientation, Search};
pub use listing::{Listing, Slices, MAX_ELEMENTS, MAX_FLAGS, MAX_INCIDENCES, MAX_METRES, MAX_RANKS, MAX_TEXT};
pub use refusal::{Class, Refusal, Section, Side};
pub use text::check_text;
