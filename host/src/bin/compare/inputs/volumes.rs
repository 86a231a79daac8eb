//! Volumes: the cells to try, cells of all kinds with their vertices at any places, damaged cells, and cells at the
//! limits.

use std::collections::BTreeSet;

use flumedrac::{Listing, MAX_FLAGS};
use flumedrac_trial::{cells, Kind, Library, Model, Question, Random, Raw};

use crate::damage::damaged;
use crate::plain;
use crate::run::{Go, Run};
use crate::subject::Subject;
use crate::supply::{catalogue, first_flag, special};

use super::bodies::side_by_side;
use super::{little_room, reached};

/// Numbers that are no whole metres within the limits, most of them by little.
const NO_METRES: [f64; 16] = [
    0.5,
    -0.5,
    999.5,
    1000.5,
    -1000.5,
    1001.0,
    -1001.0,
    f64::NAN,
    f64::INFINITY,
    f64::NEG_INFINITY,
    5e-324,
    0.999_999_999_999_999_9,
    1_000.000_000_000_1,
    65_536.0,
    4_294_967_296.0,
    1e300,
];

/// The volume of a cell from a flag, with room for so many flags.
fn ask(run: &mut Run<'_>, cell: &Subject, first: &[u16], coordinates: &[f64], flags: usize) -> Go {
    ask_in(run, cell, first, coordinates, (flags * cell.as_ref().counts.len(), flags))
}

/// The same with a table and orientations of these lengths.
fn ask_in(run: &mut Run<'_>, cell: &Subject, first: &[u16], coordinates: &[f64], lengths: (usize, usize)) -> Go {
    let ((table, orientations), first, coordinates) = (lengths, first.to_vec(), coordinates.to_vec());
    run.ask(Question::SixVolume { cell, first, coordinates, table, orientations })
}

/// The same with room around the flags that the search reaches.
fn ask_with_rooms(run: &mut Run<'_>, cell: &Subject, first: &[u16], coordinates: &[f64]) -> Go {
    let width = cell.rank() + 1;
    let found = reached(cell, first, plain::every_change(cell.as_ref()));
    let whole = found * width;
    let rooms: BTreeSet<usize> = [0, 1, found / 2, found - 1, found, found + 1, 2 * found].into();
    let cut = [(whole - 1, found), (whole + 3, found + 2), (whole, found - 1)];
    let lengths = rooms.iter().map(|&flags| (flags * width, flags)).chain(cut);
    lengths.into_iter().try_for_each(|lengths| ask_in(run, cell, first, coordinates, lengths))
}

fn vertices(cell: &Subject) -> usize {
    cell.as_ref().counts.get(1).map_or(0, |&count| count.into())
}

/// Whole metres, as many as asked, up to so many either way from 0; of the zeros some are -0.0.
fn metres(random: &mut Random, length: usize, most: usize) -> Vec<f64> {
    let mut number = || match random.below(2 * most + 1) as f64 - most as f64 {
        0.0 if random.once_in(2) => -0.0,
        x => x,
    };
    (0..length).map(|_| number()).collect()
}

/// Places of vertices: anywhere, near the middle, far out, in a plane, or all the same.
fn places(random: &mut Random, vertices: usize) -> Vec<f64> {
    match random.below(6) {
        0 => metres(random, 3 * vertices, 2),
        1 => metres(random, 3 * vertices, 1).iter().map(|x| 1000.0 * x).collect(),
        2 => metres(random, 3, 9).repeat(vertices),
        3 => metres(random, vertices, 1000).iter().flat_map(|&x| [x, 7.0, -x]).collect(),
        _ => metres(random, 3 * vertices, 1000),
    }
}

/// Places as far out as they may be: the corners of a tetrahedron in turn, so that of a grid with an even number of
/// squares in a row and of rows nearly all determinants have one sign.
fn far_out(vertices: usize) -> Vec<f64> {
    let corners = [[1.0, 1.0, 1.0], [1.0, -1.0, -1.0], [-1.0, 1.0, -1.0], [-1.0, -1.0, 1.0]];
    let corner = |v: usize| corners[2 * (v / 34 % 2) + (v / 34 + v % 34) % 2].map(|x: f64| 1000.0 * x);
    (0..vertices).flat_map(corner).collect()
}

/// The flag changed once, at each rank.
fn changed(listing: &Listing, flag: &[u16]) -> Vec<Vec<u16>> {
    let change = |r: u16| Model::default().change(listing.slices(), flag, r).flag[..flag.len()].to_vec();
    (1..listing.rank() as u16).map(change).collect()
}

/// Coordinates that are refused, or nearly: one of them changed, some dropped or more of them.
fn spoilt(random: &mut Random, coordinates: &[f64]) -> Vec<f64> {
    let mut spoilt = coordinates.to_vec();
    match random.below(8) {
        0 => spoilt.truncate(random.below(coordinates.len() + 1)),
        1 => spoilt.extend(metres(random, 3, 10)),
        2 => spoilt.push(*random.pick(&NO_METRES)),
        3 => spoilt = vec![f64::NAN; random.below(10)],
        _ if spoilt.is_empty() => {}
        _ => {
            let at = random.below(spoilt.len());
            spoilt[at] = *random.pick(&NO_METRES);
        }
    }
    spoilt
}

/// All that is asked of a closed cell from one flag, and from that flag changed once: with its vertices at some places,
/// moved and mirrored; with little room, and with coordinates that are refused; from what is nearly a flag.
fn ask_from(run: &mut Run<'_>, listing: &Listing, cell: &Subject, first: &[u16], random: &mut Random) -> Go {
    let coordinates = places(random, vertices(cell));
    let by = metres(random, 3, 40);
    let moved: Vec<f64> = coordinates.iter().zip(by.iter().cycle()).map(|(x, by)| x + by).collect();
    let mirrored: Vec<f64> = coordinates.iter().enumerate().map(|(i, &x)| if i % 3 == 0 { -x } else { x }).collect();
    ask_with_rooms(run, cell, first, &coordinates)?;
    for coordinates in [moved, mirrored] {
        ask(run, cell, first, &coordinates, MAX_FLAGS)?;
    }
    for first in changed(listing, first) {
        ask(run, cell, &first, &coordinates, MAX_FLAGS)?;
    }
    for _ in 0..6 {
        ask(run, cell, first, &spoilt(random, &coordinates), MAX_FLAGS)?;
    }
    let mut no_flag = first.to_vec();
    no_flag[random.below(first.len())] += 1;
    ask(run, cell, &no_flag, &coordinates, MAX_FLAGS)?;
    ask(run, cell, &first[1..], &coordinates, 3)
}

/// All that is asked of a cell, if it is closed, from some of its flags.
fn ask_all(run: &mut Run<'_>, listing: &Listing, random: &mut Random) -> Go {
    let cell = &Subject::from(listing.clone());
    if !cell.is_closed().is_ok_and(|(closed, _)| closed) {
        return little_room(run, cell);
    }
    let flags = cells::flags(listing, 400);
    for _ in 0..3 {
        let first = random.pick(&flags);
        ask_from(run, listing, cell, first, random)?;
    }
    Ok(())
}

/// A closed cell that is small, from each of its flags.
pub(super) fn small_volumes(run: &mut Run<'_>, cell: &Subject, flags: &[Vec<u16>]) -> Go {
    let place = |v: usize| [37 * v % 11, 5 * v % 7, 3 * v + v / 2].map(|x| x as f64 - 3.0);
    let coordinates: Vec<f64> = (0..vertices(cell)).flat_map(place).collect();
    flags.iter().try_for_each(|first| ask_with_rooms(run, cell, first, &coordinates))
}

/// The cube of the request and the places of its vertices.
fn cube() -> (Listing, Vec<f64>) {
    let dyad = Listing::dyad();
    let cube = cells::product(Kind::Duoprism, &dyad, &cells::product(Kind::Duoprism, &dyad, &dyad));
    let corner = |v: i32| [v / 4, v / 2 % 2, v % 2].map(|side| 10.0 * f64::from(side));
    (cube, (0..8).flat_map(corner).collect())
}

/// Cubes: one, two under one top, and one with two faces written as one; each coordinate spoilt in turn.
fn cubes_to_try(run: &mut Run<'_>) -> Go {
    let (listing, corners) = cube();
    let (one, first) = (&Subject::from(listing.clone()), [0; 5]);
    let two = &Subject::from(cells::side_by_side(&listing, &listing, false));
    let merged = &Subject::from(cells::merged_cube());
    ask_with_rooms(run, one, &first, &corners)?;
    ask_with_rooms(run, two, &first, &corners.repeat(2))?;
    ask_with_rooms(run, merged, &first_flag(merged.as_ref()), &corners)?;
    for first in changed(&listing, &first) {
        ask_with_rooms(run, one, &first, &corners)?;
    }
    ask(run, one, &first, &[f64::NAN; 3], 48)?;
    for (at, x) in (0..24).flat_map(|at| NO_METRES.map(|x| (at, x))) {
        let mut spoilt = corners.clone();
        spoilt[at] = x;
        ask(run, one, &first, &spoilt, 48)?;
        ask(run, two, &first, &[spoilt.as_slice(), &corners].concat(), 96)?;
        ask(run, two, &first, &[corners.as_slice(), &spoilt].concat(), 96)?;
    }
    // Where all vertices are at one place each determinant is a zero: at the last two always -0.0.
    for place in [[0.0; 3], [-0.0; 3], [3.0, 4.0, 5.0], [-7.0, 3.0, -5.0], [-1.0, 0.0, -0.0]] {
        ask(run, one, &first, &place.repeat(8), 48)?;
    }
    // In another order, and with faces that are in no plane.
    let random = &mut Random::new(1);
    (0..10).try_for_each(|_| ask_all(run, &cells::reordered(&listing, random), random))
}

pub(super) fn volumes_to_try(run: &mut Run<'_>) -> Go {
    cubes_to_try(run)?;
    ask_with_rooms(run, &cells::polygon(3).into(), &[0; 4], &[])?;
    let hemicube = &Subject::from(cells::hemicube());
    for (first, coordinates) in [([0, 0, 0, 1, 0], vec![1.0; 12]), ([0, 0, 0, 1, 0], vec![]), ([0; 5], vec![1.0; 12])] {
        ask(run, hemicube, &first, &coordinates, 24)?;
    }
    // Neither of rank 4 nor orientable, with coordinates that would be refused too.
    let higher = &Subject::from(cells::product(Kind::Duopyramid, &cells::hemicube(), &Listing::point()));
    for coordinates in [vec![], vec![f64::NAN; 3 * vertices(higher)], vec![1.0; 3 * vertices(higher)]] {
        ask(run, higher, &first_flag(higher.as_ref()), &coordinates, MAX_FLAGS)?;
    }
    for cell in special().into_iter().map(Subject::from) {
        ask(run, &cell, &vec![0; cell.as_ref().counts.len()], &vec![1.0; 3 * vertices(&cell)], 100)?;
    }
    Ok(())
}

pub(super) fn volumes_of_cells(run: &mut Run<'_>, random: &mut Random, rounds: usize) -> Go {
    let prism = |n| cells::product(Kind::Duoprism, &Listing::dyad(), &cells::polygon(n));
    let grids = (2..6).flat_map(|n| (2..6).flat_map(move |m| [false, true].map(|klein| cells::grid(n, m, klein))));
    let made = (2..=12).map(prism).chain(grids).chain((2..=8).map(cells::joined));
    let all: Vec<Listing> = catalogue().into_iter().filter(|cell| cell.rank() < 6).chain(made).collect();
    for listing in &all {
        ask_all(run, listing, random)?;
        ask_all(run, &cells::reordered(listing, random), random)?;
    }
    for _ in 0..rounds {
        let drawn = match side_by_side(&all, random) {
            Some(both) => both,
            None => cells::reordered(random.pick(&all), random),
        };
        ask_all(run, &drawn, random)?;
    }
    Ok(())
}

pub(super) fn damaged_volumes(run: &mut Run<'_>, random: &mut Random, rounds: usize) -> Go {
    let bases: Vec<Listing> = catalogue().into_iter().filter(|cell| cell.slices().inc.len() < 300).collect();
    for _ in 0..rounds {
        let base = random.pick(&bases).clone();
        let first = random.pick(&cells::flags(&base, 30)).clone();
        let mut raw = Raw::from(base);
        for _ in 0..random.below(3) {
            raw = damaged(&raw, random);
        }
        let cell = &Subject::from(raw);
        let coordinates = places(random, vertices(cell).min(100));
        let coordinates = if random.once_in(4) { spoilt(random, &coordinates) } else { coordinates };
        let (table, orientations) = (random.below(1000), random.below(200));
        run.ask(Question::SixVolume { cell, first, coordinates, table, orientations })?;
    }
    Ok(())
}

/// Cells with as many flags as a cell of rank 4 can have, or nearly, and cells of other ranks with more.
pub(super) fn volumes_at_limits(run: &mut Run<'_>, random: &mut Random) -> Go {
    let prism = |p: Listing, q: Listing| cells::product(Kind::Duoprism, &p, &q);
    let large = [
        prism(Listing::dyad(), cells::polygon(682)),
        prism(cells::polygon(682), Listing::dyad()),
        cells::grid(30, 34, false),
        cells::grid(31, 33, true),
        cells::joined(61),
        cells::joined(62),
        prism(cells::polygon(22), cells::polygon(31)),
        prism(cells::polygon(22), cells::polygon(32)),
        cells::polygon(2047),
        cells::digonal(15),
    ];
    for cell in large.map(Subject::from) {
        let first = first_flag(cell.as_ref());
        let found = reached(&cell, &first, plain::every_change(cell.as_ref()));
        let anywhere = metres(random, 3 * vertices(&cell), 1000);
        for coordinates in [&far_out(vertices(&cell)), &anywhere] {
            for flags in [found - 1, found, MAX_FLAGS] {
                ask(run, &cell, &first, coordinates, flags)?;
            }
            ask(run, &cell, &first, &spoilt(random, coordinates), MAX_FLAGS)?;
        }
    }
    Ok(())
}
