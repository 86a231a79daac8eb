//! Whether cells are one body: those whose answers were given with the request, and some more, asked of the model and
//! of the archive.

use flumedrac::ffi::{Answer, Searched};
use flumedrac::{Listing, MAX_FLAGS};
use flumedrac_trial::{cells, Archive, Kind, Library, Model};

fn each(check: impl Fn(&dyn Library)) {
    check(&Model::default());
    check(&Archive);
}

/// What is answered with room for so many flags, and what the table and the orientations hold afterwards.
type Left = (Searched, Vec<u16>, Vec<u8>);

fn lend(cell: &Listing, room: usize, search: impl FnOnce(&mut [u16], &mut [u8]) -> Searched) -> Left {
    let (mut table, mut orientations) = (vec![65535; room * (cell.rank() + 1)], vec![255; room]);
    let searched = search(&mut table, &mut orientations);
    (searched, table, orientations)
}

/// The flag of first sups.
fn first(cell: &Listing) -> Vec<u16> {
    let mut flag: Vec<u16> = vec![0];
    for r in 0..cell.rank() {
        flag.extend(cell.sups(r, flag[r].into()).next());
    }
    flag
}

/// The number that is answered and how many flags are written, with room for so many. The slices are those of the
/// search, and where nothing is refused the numbers too; where something is, they are 0.
fn asked(library: &dyn Library, cell: &Listing, room: usize) -> (u16, usize) {
    let (body, table, orientations) = lend(cell, room, |table, odd| library.one_body(cell.slices(), table, odd));
    let search =
        |table: &mut [u16], odd: &mut [u8]| library.search(cell.slices(), &first(cell), cell.all_changes(), table, odd);
    let (searched, searched_table, searched_orientations) = lend(cell, room, search);
    assert!((&table, &orientations) == (&searched_table, &searched_orientations), "other slices than the search's");
    let no = body.answer.no;
    let refused = Searched { answer: Answer { no, ..Answer::default() }, ..Searched::default() };
    assert_eq!(body, if no == 0 { searched } else { refused });
    (no, orientations.iter().filter(|&&byte| byte != 255).count())
}

#[test]
fn one_body_or_several() {
    let (digon, cube) = (cells::polygon(2), cells::cuboid(3));
    let two_triangles = cells::product(Kind::Duocomb, &Listing::dyad(), &cells::polygon(3));
    let two_digons = cells::side_by_side(&digon, &digon, false);
    let two_cubes = cells::side_by_side(&cube, &cube, false);
    let at_a_vertex = cells::side_by_side(&cube, &cube, true);
    assert_eq!(two_triangles.slices().counts, [1, 6, 6, 1]);
    assert_eq!(cells::merged_cube().slices().counts, [1, 8, 12, 5, 1]);
    assert_eq!(at_a_vertex.slices().counts, [1, 15, 24, 12, 1]);
    each(|library| {
        for (cell, room, no, written) in [
            (&Listing::nullitope(), 0, 22, 0),
            (&Listing::nullitope(), 1, 0, 1),
            (&Listing::point(), 1, 0, 1),
            (&Listing::dyad(), 1, 22, 1),
            (&Listing::dyad(), 2, 0, 2),
            (&two_triangles, 5, 22, 5),
            (&two_triangles, 6, 22, 6),
            (&two_triangles, 11, 22, 6),
            (&two_triangles, 12, 25, 6),
            (&two_digons, 3, 22, 3),
            (&two_digons, 7, 22, 4),
            (&two_digons, 8, 25, 4),
            (&two_cubes, 95, 22, 48),
            (&two_cubes, 96, 25, 48),
            (&at_a_vertex, 95, 22, 48),
            (&at_a_vertex, 96, 25, 48),
            (&cells::hemicube(), 23, 22, 23),
            (&cells::hemicube(), 24, 0, 24),
            // The face that was made of two is in two pieces; the cell is not.
            (&cells::merged_cube(), 47, 22, 47),
            (&cells::merged_cube(), 48, 0, 48),
        ] {
            assert_eq!(asked(library, cell, room), (no, written), "{:?}, room {room}", cell.slices().counts);
        }
    });
}

/// The search goes out from the flag of first sups, which is not that of first subs.
#[test]
fn first_flags() {
    let hemicube = cells::hemicube();
    assert_eq!(first(&hemicube), [0, 0, 0, 1, 0]);
    assert_ne!(hemicube.first_flag().map(Vec::from), Some(first(&hemicube)));
    each(|library| {
        let (_, table, _) = lend(&hemicube, 24, |table, odd| library.one_body(hemicube.slices(), table, odd));
        assert_eq!(table[..5], [0, 0, 0, 1, 0]);
    });
}

/// What is not closed is refused with its place, also where there is no room, and nothing is written.
#[test]
fn closed_first() {
    let tripod = cells::listing(vec![vec![vec![]], vec![vec![0]; 3], vec![vec![0, 1, 2]]]);
    let refused = Searched { answer: Answer { no: 17, a: 0, b: 0, c: 2, d: 0 }, ..Searched::default() };
    each(|library| {
        for room in [0, 1, 3, 100] {
            let left = lend(&tripod, room, |table, odd| library.one_body(tripod.slices(), table, odd));
            assert_eq!(left, (refused, vec![65535; 3 * room], vec![255; room]));
        }
    });
}

/// As many flags as a search can find, in one part and in two, and more, also than 32 bits can count. The limit stays
/// where the slices are longer.
#[test]
fn many_flags() {
    let digonal = cells::digonal;
    let pyramid = |p: &Listing, q: &Listing| cells::product(Kind::Duopyramid, p, q);
    let far_more = pyramid(&pyramid(&digonal(5), &digonal(5)), &pyramid(&digonal(3), &Listing::dyad()));
    let two = |rank| cells::side_by_side(&digonal(rank), &digonal(rank), false);
    each(|library| {
        for (cell, room, no, written) in [
            (&digonal(15), MAX_FLAGS, 0, MAX_FLAGS),
            (&digonal(15), MAX_FLAGS - 1, 22, MAX_FLAGS - 1),
            (&two(14), MAX_FLAGS, 25, MAX_FLAGS / 2),
            (&two(14), MAX_FLAGS - 1, 22, MAX_FLAGS / 2),
            (&two(15), 40_000, 22, MAX_FLAGS),
            (&far_more, 40_000, 22, MAX_FLAGS),
        ] {
            assert_eq!(asked(library, cell, room), (no, written), "{:?}, room {room}", cell.slices().counts);
        }
    });
}
