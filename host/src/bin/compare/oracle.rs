//! The Rust files, if `oracle/build.sh` has built them.

#[cfg(oracle)]
extern crate oracle_checked;

#[cfg(not(oracle))]
pub use absent::{sign, Answer, Cell, Event, Product};
#[cfg(oracle)]
pub use oracle_checked::{sign, Answer, Cell, Event, Product};

/// Whether they are there.
pub const PRESENT: bool = cfg!(oracle);

/// What stands in for them where they are not: nothing is answered.
#[cfg(not(oracle))]
mod absent {
    pub type Answer = [usize; 5];

    #[derive(Clone)]
    pub struct Cell;

    #[allow(dead_code)]
    pub enum Event {
        Flag(Vec<usize>, bool),
        NonOrientable,
    }

    pub enum Product {
        Duopyramid,
        Duoprism,
        Duotegum,
        Duocomb,
    }

    macro_rules! unanswered {
        ($($name:ident($($argument:ty),*) -> $answer:ty;)*) => {
            impl Cell {
                $(pub fn $name(&self, $(_: $argument),*) -> Option<$answer> {
                    None
                })*
            }
        };
    }

    unanswered! {
        rank() -> usize;
        el_count(usize) -> usize;
        vertex_count() -> usize;
        facet_count() -> usize;
        bounded() -> Answer;
        check_incidences() -> Answer;
        is_dyadic() -> Answer;
        is_valid() -> Answer;
        dual() -> Cell;
        change(&[usize], usize) -> Vec<usize>;
        events(&[usize], &[usize], usize) -> Vec<Event>;
    }

    impl Cell {
        pub fn new(_counts: &[u16], _ends: &[u16], _inc: &[u16]) -> Self {
            Self
        }

        pub fn bare(_counts: &[u16]) -> Self {
            Self
        }

        pub fn one_rank_more(&self) -> Self {
            Self
        }

        pub fn slices(&self) -> [Vec<u16>; 3] {
            Default::default()
        }

        pub fn product(_which: Product, _p: &Self, _q: &Self) -> Option<Self> {
            None
        }
    }

    pub fn sign(_odd: bool) -> f64 {
        0.0
    }
}
