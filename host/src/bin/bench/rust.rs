//! The Rust's side of each row, if `oracle/build.sh` has built its files: else there is none, and nothing is measured.

#[cfg(oracle)]
pub use present::{change, dual, product, search, valid};

#[cfg(not(oracle))]
pub use absent::{change, dual, product, search, valid};

/// Whether there is one.
pub const PRESENT: bool = cfg!(oracle);

#[cfg(oracle)]
mod present {
    extern crate oracle_optimised as oracle;

    use std::hint::black_box;

    use flumedrac::Listing;
    use flumedrac_trial::Kind;

    use crate::times::Work;

    /// The listing as the Rust files hold it.
    fn cell(listing: &Listing) -> oracle::Cell {
        let l = listing.slices();
        oracle::Cell::new(l.counts, l.ends, l.inc)
    }

    pub fn product(kind: Kind, p: &Listing, q: &Listing) -> Option<Work<'static>> {
        let which = match kind {
            Kind::Duopyramid => oracle::Product::Duopyramid,
            Kind::Duoprism => oracle::Product::Duoprism,
            Kind::Duotegum => oracle::Product::Duotegum,
            Kind::Duocomb => oracle::Product::Duocomb,
        };
        let (p, q) = (cell(p), cell(q));
        Some(Box::new(move |bin| {
            let built = oracle::Cell::product(which, black_box(&p), &q).expect("a product");
            bin.push(Box::new(built));
        }))
    }

    pub fn dual(listing: &Listing) -> Option<Work<'static>> {
        let cell = cell(listing);
        Some(Box::new(move |bin| bin.push(Box::new(black_box(&cell).dual().expect("a dual")))))
    }

    pub fn valid(listing: &Listing) -> Option<Work<'static>> {
        let cell = cell(listing);
        Some(Box::new(move |_| assert_eq!(black_box(&cell).is_valid(), Some([0; 5]))))
    }

    fn wide(flag: &[u16]) -> Vec<usize> {
        flag.iter().map(|&x| x.into()).collect()
    }

    pub fn change(listing: &Listing, flag: &[u16], r: u16, new: &[u16]) -> Option<Work<'static>> {
        let (cell, flag, new) = (cell(listing), wide(flag), wide(&new[..flag.len()]));
        Some(Box::new(move |_| assert_eq!(black_box(&cell).change(&flag, r.into()).as_ref(), Some(&new))))
    }

    pub fn search(listing: &Listing, first: &[u16], mask: u16, flags: usize) -> Option<Work<'static>> {
        let (cell, first) = (cell(listing), wide(first));
        let changes: Vec<usize> = (1..16).filter(|r| mask >> r & 1 == 1).collect();
        Some(Box::new(move |_| assert_eq!(black_box(&cell).event_count(&first, &changes), Some(flags))))
    }
}

#[cfg(not(oracle))]
mod absent {
    use flumedrac::Listing;
    use flumedrac_trial::Kind;

    use crate::times::Work;

    pub fn product(_: Kind, _: &Listing, _: &Listing) -> Option<Work<'static>> {
        None
    }

    pub fn dual(_: &Listing) -> Option<Work<'static>> {
        None
    }

    pub fn valid(_: &Listing) -> Option<Work<'static>> {
        None
    }

    pub fn change(_: &Listing, _: &[u16], _: u16, _: &[u16]) -> Option<Work<'static>> {
        None
    }

    pub fn search(_: &Listing, _: &[u16], _: u16, _: usize) -> Option<Work<'static>> {
        None
    }
}
