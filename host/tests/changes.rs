//! Changes of flags: those whose answers were given with the request, and what has to hold of every flag of many cells,
//! asked of the model and of the archive.

use flumedrac::ffi::{Answer, Changed};
use flumedrac::Listing;
use flumedrac_trial::{cells, Archive, Kind, Library, Model, Random};

fn each(check: impl Fn(&dyn Library)) {
    check(&Model::default());
    check(&Archive);
}

/// The answer of a change that is made.
fn made(flag: &[u16], taken: u16, put: u16) -> Changed {
    let mut changed = Changed { taken, put, ..Changed::default() };
    changed.flag[..flag.len()].copy_from_slice(flag);
    changed
}

/// The answer of a change that is refused: a number, and else nothing but 0s.
fn refused(no: u16) -> Changed {
    Changed { answer: Answer { no, ..Answer::default() }, ..Changed::default() }
}

/// Two squares that are the duoprism of two dyads, one over the other.
fn cube() -> Listing {
    let dyad = Listing::dyad();
    let square = cells::product(Kind::Duoprism, &dyad, &dyad);
    cells::product(Kind::Duoprism, &square, &dyad)
}

/// An edge with six tetrahedra round it, and the two pyramids over the hexagon that close them off.
fn mast() -> Listing {
    cells::product(Kind::Duopyramid, &Listing::dyad(), &cells::polygon(6))
}

#[test]
fn known_answers() {
    let (triangle, cube) = (cells::polygon(3), cube());
    each(|library| {
        for (cell, flag, r, answer) in [
            (&triangle, vec![0, 0, 0, 0], 1, made(&[0, 1, 0, 0], 0, 1)),
            (&triangle, vec![0, 1, 0, 0], 1, made(&[0, 0, 0, 0], 1, 0)),
            (&triangle, vec![0, 0, 0, 0], 2, made(&[0, 0, 1, 0], 0, 1)),
            (&triangle, vec![0, 0, 0, 0], 0, refused(21)),
            (&triangle, vec![0, 0, 0, 0], 3, refused(21)),
            (&triangle, vec![0, 0, 0], 1, refused(20)),
            (&cube, vec![0, 0, 0, 0, 0], 3, made(&[0, 0, 0, 2, 0], 0, 2)),
        ] {
            assert_eq!(library.change(cell.slices(), &flag, r), answer, "{:?}, {flag:?} at {r}", cell.slices().counts);
        }
    });
}

/// Refusals come in their order, and beside each of them all numbers are 0, also where the flag's own are not.
#[test]
fn refusals() {
    let triangle = cells::polygon(3);
    let tripod = cells::listing(vec![vec![vec![]], vec![vec![0]; 3], vec![vec![0, 1, 2]]]);
    let third = Changed { answer: Answer { no: 17, a: 0, b: 0, c: 2, d: 0 }, ..Changed::default() };
    each(|library| {
        assert_eq!(library.change(tripod.slices(), &[9, 9], 9), third);
        assert_eq!(library.change(tripod.slices(), &[0, 2, 0], 1), third);
        for flag in [&[0, 2, 0, 0][..], &[0, 3, 1, 0], &[0, 1, 0, 1], &[0, 1, 2, 0, 0], &[]] {
            for r in [0, 1, 2, 3, 9, 65535] {
                assert_eq!(library.change(triangle.slices(), flag, r), refused(20), "{flag:?} at {r}");
            }
        }
        for r in [0, 3, 4, 16, 65535] {
            assert_eq!(library.change(triangle.slices(), &[0, 2, 2, 0], r), refused(21), "at {r}");
        }
    });
}

/// Closed cells, in one part and in several, and some with their elements in another order.
fn closed_cells() -> Vec<Listing> {
    let (dyad, cube) = (Listing::dyad(), cube());
    let mut list = vec![Listing::nullitope(), Listing::point(), dyad.clone(), cells::simplex(5), cells::cross(4)];
    list.extend((2..=7).map(cells::polygon));
    list.extend((3..=7).map(cells::digonal));
    list.extend([cells::cuboid(4), cells::merged_cube(), cells::hemicube(), cells::joined(4), mast(), cube.clone()]);
    list.extend([cells::grid(3, 4, false), cells::grid(2, 2, true), cells::stacked(&[3, 4]), cells::stacked(&[2, 5])]);
    list.push(cells::product(Kind::Duocomb, &dyad, &cells::polygon(3)));
    list.push(cells::product(Kind::Duotegum, &cells::hemicube(), &dyad));
    list.push(cells::side_by_side(&cube, &cells::simplex(4), true));
    let random = &mut Random::new(5);
    let reordered: Vec<Listing> = list.iter().map(|cell| cells::reordered(cell, random)).collect();
    [list, reordered].concat()
}

/// All flags of a closed listing: the ways up from the minimal element.
fn flags(cell: &Listing) -> Vec<Vec<u16>> {
    let mut ways: Vec<Vec<u16>> = vec![vec![0]];
    for r in 0..cell.rank() {
        let on = |way: &Vec<u16>| cell.sups(r, way[r].into()).map(|sup| [way.as_slice(), &[sup]].concat()).collect();
        ways = ways.iter().flat_map(|way| -> Vec<Vec<u16>> { on(way) }).collect();
    }
    ways
}

/// The elements between those that a flag has at the ranks below and above, ascending: by the listing alone.
fn between(cell: &Listing, flag: &[u16], r: usize) -> Vec<u16> {
    let is_sub = |rank: usize, sub: u16, of: u16| cell.subs(rank, of.into()).any(|x| x == sub);
    let lies_between = |x: &u16| is_sub(r, flag[r - 1], *x) && is_sub(r + 1, *x, flag[r + 1]);
    (0..cell.el_count(r) as u16).filter(lies_between).collect()
}

/// Every change of every flag: the index taken out is the flag's, the one put in the new flag's; these two are all that
/// lies between; nothing else of the flag is changed; and the change back exchanges them.
#[test]
fn two_are_between() {
    let cells = closed_cells();
    each(|library| {
        let mut changes = 0;
        for cell in &cells {
            for flag in flags(cell) {
                for r in 1..cell.rank() {
                    let changed = library.change(cell.slices(), &flag, r as u16);
                    let Changed { taken, put, .. } = changed;
                    assert_eq!(between(cell, &flag, r), [taken.min(put), taken.max(put)]);
                    assert_eq!((taken, put), (flag[r], changed.flag[r]));
                    let mut new = flag.clone();
                    new[r] = put;
                    assert_eq!(changed, made(&new, taken, put));
                    assert_eq!(library.change(cell.slices(), &new, r as u16), made(&flag, put, taken));
                    changes += 1;
                }
            }
        }
        assert!(changes > 10_000, "{changes}");
    });
}

/// Across a face lies exactly one other cell, whichever of the face's flags is asked.
#[test]
fn across_each_face() {
    let grid = mast();
    assert_eq!(grid.slices().counts, [1, 8, 19, 19, 8, 1]);
    each(|library| {
        for flag in flags(&grid) {
            let cells: Vec<u16> = grid.sups(3, flag[3].into()).collect();
            let across = library.change(grid.slices(), &flag, 4);
            assert!(cells == [across.taken, across.put] || cells == [across.put, across.taken], "{flag:?}");
            assert_eq!(across.taken, flag[4]);
        }
    });
}

/// Round the mast: the changes at ranks 3 and 4 in turn meet each of its six faces and six cells once, and then the
/// first flag again; the mast itself stays.
#[test]
fn round_the_mast() {
    let grid = mast();
    let edge = (0..19).find(|&edge| grid.sups(2, edge).len() == 6).expect("an edge with six faces") as u16;
    let around: Vec<u16> = grid.sups(2, edge.into()).collect();
    let first = flags(&grid).into_iter().find(|flag| flag[2] == edge).expect("a flag of this edge");
    each(|library| {
        let (mut flag, mut faces, mut cells) = (first.clone(), vec![], vec![]);
        for _ in 0..6 {
            let turned = library.change(grid.slices(), &flag, 3);
            assert_eq!(turned.taken, flag[3]);
            faces.push(turned.put);
            let crossed = library.change(grid.slices(), &turned.flag[..6], 4);
            assert_eq!(crossed.taken, flag[4]);
            cells.push(crossed.put);
            assert_eq!(crossed.flag[..3], flag[..3]);
            assert_eq!(flag == first, faces.len() == 1, "back too early");
            flag = crossed.flag[..6].to_vec();
        }
        assert_eq!(flag, first);
        faces.sort_unstable();
        cells.sort_unstable();
        assert_eq!(faces, around);
        cells.dedup();
        assert_eq!(cells.len(), 6);
        assert!(cells.iter().all(|&cell| grid.subs(4, cell.into()).len() == 4), "tetrahedra");
    });
}
