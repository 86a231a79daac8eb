//! Duals of products beside products of the duals: which element of one is which of the other.

use std::collections::HashMap;

use flumedrac::ffi::Answer;
use flumedrac::Listing;

use crate::library::{build, with_room, Kind, Library};
use crate::Raw;

/// A pair: rank and index in the left factor, rank and index in the right one.
type Pair = [usize; 4];

/// The subs and the sups of each element of each rank.
pub type Lists = Vec<Vec<[Vec<u16>; 2]>>;

/// A listing that was answered.
fn answered((answer, Raw { counts, ends, inc }): (Answer, Raw)) -> Option<Listing> {
    (answer.no == 0).then(|| Listing::new(counts, ends, inc).expect("what is written has the right shape"))
}

/// The dual of a listing, if a library answers it.
pub fn dual(library: &dyn Library, cell: &Listing) -> Option<Listing> {
    answered(with_room(|outputs| library.dual(cell.slices(), outputs)))
}

/// A product, if a library answers it.
fn product(library: &dyn Library, kind: Kind, p: &Listing, q: &Listing) -> Option<Listing> {
    answered(build(library, kind, p, q))
}

/// The pair of each element of a product, rank by rank in their order; an end that was added has none.
fn elements(kind: Kind, p: &Listing, q: &Listing) -> Vec<Vec<Option<Pair>>> {
    if kind != Kind::Duopyramid && [p.rank(), q.rank()].contains(&0) {
        return vec![vec![None]];
    }
    let (low, high) = (usize::from(kind.adds_minimal()), usize::from(kind.adds_maximal()));
    let second_first = kind.takes_second_first();
    let (first, second) = if second_first { (q, p) } else { (p, q) };
    let mut ranks: Vec<Vec<Option<Pair>>> = vec![vec![]; p.rank() + q.rank() + 1 - low - high];
    ranks[0].extend(vec![None; low]);
    for r in low..=first.rank() - high {
        for s in low..=second.rank() - high {
            for i in 0..first.el_count(r) {
                let pair = |j: usize| if second_first { [s, j, r, i] } else { [r, i, s, j] };
                ranks[r + s - low].extend((0..second.el_count(s)).map(|j| Some(pair(j))));
            }
        }
    }
    ranks.last_mut().expect("a product has ranks").extend(vec![None; high]);
    ranks
}

/// The lists of a listing, its elements at other places: for each rank, where each goes. Lists are taken as sets, so
/// each is put in order.
fn renumbered(cell: &Listing, places: &[Vec<u16>]) -> Lists {
    let mut lists: Lists = (0..=cell.rank()).map(|r| vec![Default::default(); cell.el_count(r)]).collect();
    let placed = |list: &mut dyn Iterator<Item = u16>, rank: usize| {
        let mut list: Vec<u16> = list.map(|x| places[rank][usize::from(x)]).collect();
        list.sort_unstable();
        list
    };
    for r in 0..=cell.rank() {
        for (i, &place) in places[r].iter().enumerate() {
            let (subs, sups) = (&mut cell.subs(r, i), &mut cell.sups(r, i));
            lists[r][usize::from(place)] = [placed(subs, r.wrapping_sub(1)), placed(sups, r + 1)];
        }
    }
    lists
}

/// Both sides of the law for two closed listings: the dual of their product, each pair at the place that the pair of
/// the duals has and ends at those of ends; and the product of their duals, of the kind turned over. The two must be the
/// same. `None` where a side is not answered.
pub fn sides(library: &dyn Library, kind: Kind, p: &Listing, q: &Listing) -> Option<[Lists; 2]> {
    let dual_of_product = dual(library, &product(library, kind, p, q)?)?;
    let (dual_p, dual_q) = (dual(library, p)?, dual(library, q)?);
    let product_of_duals = product(library, kind.turned_over(), &dual_p, &dual_q)?;
    let turned = |[r, i, s, j]: Pair| [p.rank() - r, i, q.rank() - s, j];
    let new = elements(kind.turned_over(), &dual_p, &dual_q);
    let places = |(old, new): (Vec<Option<Pair>>, &Vec<Option<Pair>>)| -> Vec<u16> {
        let place: HashMap<&Option<Pair>, u16> = new.iter().zip(0..).collect();
        old.into_iter().map(|pair| place[&pair.map(turned)]).collect()
    };
    let moved: Vec<Vec<u16>> = elements(kind, p, q).into_iter().rev().zip(&new).map(places).collect();
    let as_they_are: Vec<Vec<u16>> = new.iter().map(|rank| (0..rank.len() as u16).collect()).collect();
    Some([renumbered(&dual_of_product, &moved), renumbered(&product_of_duals, &as_they_are)])
}
