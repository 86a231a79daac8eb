//! The means of trying Flumedrac: what it is asked, an unproved model of it, and cells to ask about.

pub mod cell_texts;
pub mod cells;
pub mod duals;
pub mod guarded;
pub mod library;
pub mod model;
pub mod question;
pub mod random;
pub mod start;
pub mod text;

pub use guarded::Guarded;
pub use library::{build, with_lengths, with_room, Archive, Kind, Library, Outputs, Test, ALL_ROOM};
pub use model::{Break, Model};
pub use question::{reply_to, Question, Reply};
pub use random::Random;
pub use start::{limit_memory, misused};

use flumedrac::{Listing, Slices};

/// Three owned slices, whether or not they are a listing.
#[derive(Clone, Debug, Default, PartialEq, Eq, Hash)]
pub struct Raw {
    pub counts: Vec<u16>,
    pub ends: Vec<u16>,
    pub inc: Vec<u16>,
}

impl Raw {
    pub fn slices(&self) -> Slices<'_> {
        Slices { counts: &self.counts, ends: &self.ends, inc: &self.inc }
    }
}

impl From<Listing> for Raw {
    fn from(listing: Listing) -> Self {
        let (counts, ends, inc) = listing.into_slices();
        Self { counts, ends, inc }
    }
}
