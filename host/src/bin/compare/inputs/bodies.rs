//! Whether cells are one body: those to try, cells side by side, products, damaged cells, and cells at the limits.

use flumedrac::{Listing, MAX_FLAGS};
use flumedrac_trial::{cells, Kind, Question, Random};

use crate::run::{Go, Run};
use crate::subject::Subject;
use crate::supply::{catalogue, special};

use super::{each_damaged, little_room, rooms_for_body};

/// Cells with more flags are asked about at the limits alone.
const FEW_FLAGS: usize = 600;

/// All that is asked about a cell, if it is closed and has not too many flags.
fn ask(run: &mut Run<'_>, cell: &Subject) -> Go {
    let closed = cell.is_closed().is_ok_and(|(closed, _)| closed);
    match closed && cell.flags(FEW_FLAGS) <= FEW_FLAGS {
        true => rooms_for_body(run, cell),
        false => little_room(run, cell),
    }
}

pub(super) fn bodies_to_try(run: &mut Run<'_>) -> Go {
    let (dyad, triangle, cube) = (Listing::dyad(), cells::polygon(3), cells::cuboid(3));
    let digon = cells::polygon(2);
    let closed = [
        Listing::nullitope(),
        Listing::point(),
        dyad.clone(),
        cells::hemicube(),
        cells::merged_cube(),
        cells::grid(2, 3, true),
        // Two triangles, two digons and two cubes; the cubes also with a vertex in common, where a change leads from
        // neither to the other all the same.
        cells::product(Kind::Duocomb, &dyad, &triangle),
        cells::side_by_side(&digon, &digon, false),
        cells::side_by_side(&cube, &cube, false),
        cells::side_by_side(&cube, &cube, true),
    ];
    for listing in closed {
        rooms_for_body(run, &listing.into())?;
    }
    for raw in special() {
        room_for_flags(run, &raw.into(), &[0, 100])?;
    }
    // As many flags as 16 or 32 bits can tell apart, beside 256 or 1024 more.
    let beside = |rank, sides: &[u16]| cells::side_by_side(&cells::digonal(rank), &cells::stacked(sides), false);
    room_for_flags(run, &beside(9, &[8, 8, 8, 8]).into(), &[255, 256, 257])?;
    room_for_flags(run, &beside(11, &[64, 64, 64, 64, 8]).into(), &[1023, 1024, 1025])
}

/// Whether slices are one body, with room for so many flags.
fn room_for_flags(run: &mut Run<'_>, cell: &Subject, flags: &[usize]) -> Go {
    let width = cell.as_ref().counts.len();
    flags.iter().try_for_each(|&n| run.ask(Question::OneBody { cell, table: n * width, orientations: n }))
}

/// Two of these that have the same rank, side by side: with a vertex in common or without, in order or not. None where
/// those that are drawn do not go together.
pub(super) fn side_by_side(from: &[Listing], random: &mut Random) -> Option<Listing> {
    let (p, q) = (random.pick(from), random.pick(from));
    if p.rank() != q.rank() || p.rank() < 2 {
        return None;
    }
    let both = cells::side_by_side(p, q, random.once_in(3));
    Some(if random.once_in(3) { both } else { cells::reordered(&both, random) })
}

pub(super) fn bodies_of_cells(run: &mut Run<'_>, random: &mut Random) -> Go {
    let catalogue = catalogue();
    for listing in &catalogue {
        ask(run, &listing.clone().into())?;
        ask(run, &cells::reordered(listing, random).into())?;
    }
    for _ in 0..600 {
        if let Some(both) = side_by_side(&catalogue, random) {
            ask(run, &both.into())?;
        }
    }
    let small = &catalogue[..14];
    for (p, q) in small.iter().flat_map(|p| small.iter().map(move |q| (p, q))) {
        for built in Kind::ALL.iter().filter_map(|&kind| cells::try_product(kind, p, q)) {
            ask(run, &built.into())?;
        }
    }
    Ok(())
}

pub(super) fn damaged_bodies(run: &mut Run<'_>, random: &mut Random, rounds: usize) -> Go {
    each_damaged(run, random, rounds, |run, cell, random| {
        let (table, orientations) = (random.below(1000), random.below(200));
        run.ask(Question::OneBody { cell, table, orientations })
    })
}

/// Cells with about as many flags as a search can find, in one part or in two, and cells with far more.
pub(super) fn bodies_at_limits(run: &mut Run<'_>) -> Go {
    let digonal = cells::digonal;
    let both = |p: &Listing, q: &Listing| cells::side_by_side(p, q, false);
    let prism = |n, m| cells::product(Kind::Duoprism, &cells::polygon(n), &cells::polygon(m));
    let pyramid = |p: &Listing, q: &Listing| cells::product(Kind::Duopyramid, p, q);
    let large = [
        digonal(15),
        prism(22, 31),
        prism(22, 32),
        cells::polygon(2047),
        both(&digonal(14), &digonal(14)),
        both(&digonal(15), &digonal(15)),
        both(&cells::polygon(1023), &cells::polygon(1023)),
        both(&digonal(15), &cells::stacked(&[4, 4, 2, 2, 2, 2, 2])),
        both(&digonal(15), &cells::stacked(&[16, 16, 16, 16, 16, 16, 2])),
        pyramid(&pyramid(&digonal(5), &digonal(5)), &pyramid(&digonal(3), &Listing::dyad())),
    ];
    for cell in large.map(Subject::from) {
        let all = cell.flags(MAX_FLAGS);
        room_for_flags(run, &cell, &[all - 1, all, MAX_FLAGS - 1, MAX_FLAGS, 40_000])?;
    }
    Ok(())
}
