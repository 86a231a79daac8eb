//! The listings whose answers were given with the request, asked of the model and of the archive.

use flumedrac::ffi::Answer;
use flumedrac::Listing;
use flumedrac_trial::{build, cells, Archive, Kind, Library, Model, Raw, Test};

fn each(check: impl Fn(&dyn Library)) {
    check(&Model::default());
    check(&Archive);
}

fn raw(listing: Listing) -> Raw {
    listing.into()
}

fn answer(no: u16, fields: [u16; 4]) -> Answer {
    let [a, b, c, d] = fields;
    Answer { no, a, b, c, d }
}

fn triangle() -> Listing {
    cells::polygon(3)
}

/// The subs of the elements of a rank.
fn subs(built: &Raw, rank: usize) -> Vec<Vec<u16>> {
    let before: u16 = built.counts[..rank].iter().sum();
    let list = |i: u16| {
        let at = 2 * usize::from(before + i);
        let start = if at == 0 { 0 } else { built.ends[at - 1] };
        built.inc[start.into()..built.ends[at].into()].to_vec()
    };
    (0..built.counts[rank]).map(list).collect()
}

#[test]
fn closed_cells() {
    each(|library| {
        for cell in [Listing::nullitope(), Listing::point(), Listing::dyad(), triangle()] {
            assert_eq!(library.test(Test::Closed, cell.slices()), answer(0, [0; 4]));
        }
    });
}

#[test]
fn refused_cells() {
    each(|library| {
        let empty = Raw::default();
        assert_eq!(library.test(Test::IsValid, empty.slices()), answer(1, [0; 4]));
        let two = Raw { counts: vec![2, 1], ends: vec![0; 6], inc: vec![] };
        assert_eq!(library.test(Test::IsValid, two.slices()), answer(10, [2, 1, 0, 0]));
        for (vertices, no) in [(3, 17), (1, 18)] {
            let top = (0..vertices).collect();
            let cell = cells::listing(vec![vec![vec![]], vec![vec![0]; vertices.into()], vec![top]]);
            assert_eq!(library.test(Test::IsValid, cell.slices()), answer(0, [0; 4]));
            assert_eq!(library.test(Test::Closed, cell.slices()), answer(no, [0, 0, 2, 0]));
        }
        // The triangle with edge 1 struck from vertex 0's sups: these are the sixth number of inc.
        let mut struck = raw(triangle());
        assert_eq!(struck.inc[3..6], [0, 0, 1]);
        struck.inc.remove(5);
        struck.ends[3..].iter_mut().for_each(|end| *end -= 1);
        assert_eq!(library.test(Test::IsValid, struck.slices()), answer(13, [2, 1, 0, 0]));
    });
}

#[test]
fn products() {
    let (nullitope, point, dyad) = (Listing::nullitope(), Listing::point(), Listing::dyad());
    each(|library| {
        let (said, square) = build(library, Kind::Duoprism, &dyad, &dyad);
        assert_eq!(said, answer(0, [0; 4]));
        assert_eq!(square.counts, [1, 4, 4, 1]);
        assert_eq!(subs(&square, 2), [[0, 1], [2, 3], [0, 2], [1, 3]]);
        assert_eq!(build(library, Kind::Duopyramid, &dyad, &point).1, raw(triangle()));
        assert_eq!(build(library, Kind::Duoprism, &nullitope, &triangle()).1, raw(nullitope.clone()));
        assert_eq!(build(library, Kind::Duotegum, &dyad, &dyad).1.counts, [1, 4, 4, 1]);
        let (_, comb) = build(library, Kind::Duocomb, &dyad, &dyad);
        assert_eq!(comb.counts, [1, 4, 1]);
        assert_eq!(library.test(Test::IsValid, comb.slices()).no, 0);
        assert_eq!(library.test(Test::Closed, comb.slices()).no, 17);
        assert_eq!(build(library, Kind::Duocomb, &point, &point).0, answer(32, [0; 4]));
        assert_eq!(build(library, Kind::Duocomb, &triangle(), &triangle()).1.counts, [1, 9, 18, 9, 1]);
        let digonal = cells::digonal;
        assert_eq!(build(library, Kind::Duopyramid, &digonal(8), &digonal(7)).0.no, 0);
        assert_eq!(build(library, Kind::Duopyramid, &digonal(8), &digonal(8)).0.no, 33);
    });
}

#[test]
fn flags() {
    each(|library| {
        let cell = triangle();
        let change = |r| library.change(cell.slices(), &[0; 4], r).flag[..4].to_vec();
        assert_eq!(change(1), [0, 1, 0, 0]);
        assert_eq!(change(2), [0, 0, 1, 0]);
        let search = |cell: &Listing, mask, room| {
            let (mut table, mut orientations) = (vec![0; room * (cell.rank() + 1)], vec![0; room]);
            let first = cell.first_flag().expect("a closed cell");
            library.search(cell.slices(), &first, mask, &mut table, &mut orientations)
        };
        let six = search(&cell, 6, 6);
        assert_eq!((six.answer.no, six.count, six.orientable), (0, 6, 1));
        assert_eq!(search(&cell, 6, 5).answer.no, 22);
        let half = search(&cells::hemicube(), 0b1110, 100);
        assert_eq!((half.count, half.orientable), (24, 0));
    });
}
