//! Duals: those whose answers were given with the request, refusals and rooms, duals of duals, and duals of products
//! beside products of the duals; asked of the model and of the archive.

use flumedrac::ffi::{Answer, Built};
use flumedrac::{Listing, Slices, MAX_INCIDENCES};
use flumedrac_trial::duals::{dual, sides};
use flumedrac_trial::{build, cells, Archive, Break, Kind, Library, Model, Random, Raw, Test};

fn each(check: impl Fn(&dyn Library)) {
    check(&Model::default());
    check(&Archive);
}

/// What stands in slices before a dual is written there.
const BEFORE: u16 = 7;

/// The dual of a listing in slices of these lengths: what is answered, and all numbers afterwards.
fn dual_in(library: &dyn Library, cell: Slices<'_>, room: [usize; 3]) -> (Built, [Vec<u16>; 3]) {
    let mut slices = room.map(|length| vec![BEFORE; length]);
    let built = library.dual(cell, slices.each_mut().map(Vec::as_mut_slice));
    (built, slices)
}

fn own_room(cell: Slices<'_>) -> [usize; 3] {
    [cell.counts, cell.ends, cell.inc].map(<[u16]>::len)
}

/// Nothing is written into slices of these lengths, but this is answered.
fn is_refused(library: &dyn Library, cell: Slices<'_>, room: [usize; 3], answer: Answer) {
    let untouched = room.map(|length| vec![BEFORE; length]);
    assert_eq!(dual_in(library, cell, room), (Built { answer, ..Built::default() }, untouched));
}

/// The dual is written in front of slices of these lengths, and the numbers behind it are as they were.
fn is_written(library: &dyn Library, cell: &Listing, room: [usize; 3]) {
    let dual: [Vec<u16>; 3] = by_hand(cell).into_slices().into();
    let lengths = own_room(cell.slices());
    let expected = [0, 1, 2].map(|i| [dual[i].clone(), vec![BEFORE; room[i] - lengths[i]]].concat());
    let [counts, ends, inc] = lengths.map(|length| length as u16);
    let built = Built { answer: Answer::default(), counts, ends, inc };
    assert_eq!(dual_in(library, cell.slices(), room), (built, expected));
}

/// The dual by the listing's own sups, the highest rank first: in a closed listing its sups follow from them.
fn by_hand(cell: &Listing) -> Listing {
    let rank = |r: usize| (0..cell.el_count(r)).map(|i| cell.sups(r, i).collect()).collect();
    cells::listing((0..=cell.rank()).rev().map(rank).collect())
}

fn answered(library: &dyn Library, cell: &Listing) -> Listing {
    dual(library, cell).expect("a closed listing has a dual")
}

fn made(library: &dyn Library, kind: Kind, p: &Listing, q: &Listing) -> Listing {
    let (answer, Raw { counts, ends, inc }) = build(library, kind, p, q);
    assert_eq!(answer.no, 0);
    Listing::new(counts, ends, inc).expect("a product has the right shape")
}

fn number(no: u16) -> Answer {
    Answer { no, ..Answer::default() }
}

/// The answers that came with the request.
#[test]
fn known_answers() {
    let (dyad, triangle) = (&Listing::dyad(), &cells::polygon(3));
    each(|library| {
        for cell in [&Listing::nullitope(), &Listing::point(), dyad, triangle] {
            assert_eq!(answered(library, cell), *cell);
        }
        let counts =
            |kind, p: &Listing, q: &Listing| answered(library, &made(library, kind, p, q)).slices().counts.to_vec();
        let square = made(library, Kind::Duoprism, dyad, dyad);
        assert_eq!(counts(Kind::Duoprism, &square, dyad), [1, 6, 12, 8, 1]);
        assert_eq!(counts(Kind::Duoprism, dyad, triangle), [1, 5, 9, 6, 1]);
        // Other numbers than those of the duotegum, and the same cell.
        let tegum = made(library, Kind::Duotegum, dyad, dyad);
        assert_ne!(answered(library, &square), tegum);
        let [of_product, of_duals] = sides(library, Kind::Duoprism, dyad, dyad).expect("both are answered");
        assert_eq!(of_product, of_duals);
        let comb = made(library, Kind::Duocomb, dyad, dyad);
        is_refused(library, comb.slices(), [16, 100, 100], Answer { no: 17, a: 0, b: 0, c: 2, d: 0 });
        is_refused(library, triangle.slices(), [4, 16, 23], number(36));
    });
}

/// Closed cells, small ones and as large as the limits allow, in one part and in two.
fn closed_cells() -> Vec<Listing> {
    let (dyad, random) = (Listing::dyad(), &mut Random::new(7));
    let of_polygons = |kind, n, m| cells::product(kind, &cells::polygon(n), &cells::polygon(m));
    let full = cells::stacked(&[94, 166]);
    assert_eq!(full.slices().inc.len(), MAX_INCIDENCES);
    let mut list = vec![Listing::nullitope(), Listing::point(), dyad.clone()];
    list.extend((2..=7).map(cells::polygon));
    list.extend([cells::simplex(5), cells::cuboid(3), cells::cross(4), cells::hemicube(), cells::merged_cube()]);
    list.extend([cells::grid(2, 3, true), cells::stacked(&[3, 4]), cells::digonal(15), cells::polygon(2047), full]);
    list.extend([of_polygons(Kind::Duoprism, 31, 32), of_polygons(Kind::Duopyramid, 31, 31)]);
    list.push(cells::product(Kind::Duocomb, &dyad, &cells::polygon(3)));
    list.push(cells::side_by_side(&cells::cuboid(3), &cells::simplex(4), true));
    let reordered: Vec<Listing> = list.iter().map(|cell| cells::reordered(cell, random)).collect();
    [list, reordered].concat()
}

/// A dual takes as much room as its listing: with that, and with more, it is written; with one number less it is not.
#[test]
fn rooms() {
    let cells = closed_cells();
    each(|library| {
        for cell in &cells {
            let own = own_room(cell.slices());
            for more in [[0, 0, 0], [1, 0, 0], [0, 1, 0], [0, 0, 1], [3, 5, 70_000]] {
                is_written(library, cell, [0, 1, 2].map(|i| own[i] + more[i]));
            }
            for at in 0..3 {
                for less in [own[at].saturating_sub(1), 0] {
                    let mut room = own;
                    room[at] = less;
                    if less < own[at] {
                        is_refused(library, cell.slices(), room, number(36));
                    }
                }
            }
        }
    });
}

/// A dual is closed, and its dual is the listing begun with.
#[test]
fn duals_of_duals() {
    let cells = closed_cells();
    each(|library| {
        for cell in &cells {
            let turned = answered(library, cell);
            assert_eq!(library.test(Test::Closed, turned.slices()), Answer::default());
            assert_eq!(answered(library, &turned), *cell);
        }
    });
}

/// What is not closed is refused as such, with its place, whatever the room; and no number is written.
#[test]
fn not_closed() {
    each(|library| {
        for (cell, answer) in cells::not_closed() {
            for room in [[0, 0, 0], [1, 1, 1], [4, 16, 24], [16, 100, 100]] {
                is_refused(library, cell.slices(), room, answer);
            }
        }
    });
}

/// The dual of a product is the product of the duals, of the kind turned over, once the pairs are renumbered: for all
/// pairs of these, a factor of rank 0 among them, wherever both are answered. Only duocombs are not, those with a point
/// and no nullitope and that of two dyads.
#[test]
fn duals_of_products() {
    let random = &mut Random::new(3);
    let (nullitope, point, dyad) = (Listing::nullitope(), Listing::point(), Listing::dyad());
    let mut factors = vec![nullitope, point, dyad, cells::digonal(4), cells::simplex(4), cells::hemicube()];
    factors.extend((2..=5).map(cells::polygon));
    factors.push(cells::side_by_side(&cells::polygon(2), &cells::polygon(3), false));
    factors.extend([cells::cuboid(3), cells::grid(2, 3, true)].map(|cell| cells::reordered(&cell, random)));
    let without = |p: &Listing, q: &Listing| {
        let ranks = [p.rank(), q.rank()];
        (ranks.contains(&1) && !ranks.contains(&0)) || ranks == [2, 2]
    };
    each(|library| {
        for (p, q) in factors.iter().flat_map(|p| factors.iter().map(move |q| (p, q))) {
            for kind in Kind::ALL {
                match sides(library, kind, p, q) {
                    Some([of_product, of_duals]) => assert_eq!(of_product, of_duals, "{}", kind.name()),
                    None => assert!(kind == Kind::Duocomb && without(p, q), "{}", kind.name()),
                }
            }
        }
    });
}

/// A dual with its indices reversed is closed, and has the listing for its dual; that it is not the right one is seen
/// where duals of products are held against products of duals. So are pairs that are numbered otherwise.
#[test]
fn faults_are_seen() {
    let (p, q) = (cells::polygon(4), cells::hemicube());
    let differs = |library: &dyn Library, kind| sides(library, kind, &p, &q).is_some_and(|[one, other]| one != other);
    let reversed = Model::broken(Break::DualIndicesReversed);
    let turned = answered(&reversed, &q);
    assert_eq!(reversed.test(Test::Closed, turned.slices()), Answer::default());
    assert_eq!(answered(&reversed, &turned), q);
    assert!(Kind::ALL.iter().all(|&kind| differs(&reversed, kind)));
    assert!(differs(&Model::broken(Break::PairsSwapped), Kind::Duopyramid));
    assert!(Kind::ALL.iter().all(|&kind| !differs(&Model::default(), kind)));
}

/// The wrapper gives the same, and sees to the room.
#[test]
fn wrapper_gives_duals() {
    for cell in closed_cells() {
        assert_eq!(cell.dual(), Ok(by_hand(&cell)));
    }
}
