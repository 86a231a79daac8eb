//! Duals: of the cells to try, of cells of all kinds, of damaged ones, and at the limits; and duals of products.

use flumedrac::{Listing, MAX_INCIDENCES};
use flumedrac_trial::{cells, duals, Kind, Model, Question, Random, ALL_ROOM};

use crate::run::{Go, Run};
use crate::subject::Subject;
use crate::supply::{catalogue, special};

use super::bodies::side_by_side;
use super::writing::each_of_cells;
use super::{each_damaged, rooms};

/// The lengths of a listing's slices: the room that its dual takes.
pub(super) fn own_room(cell: &Subject) -> [usize; 3] {
    let slices = cell.as_ref().slices();
    [slices.counts, slices.ends, slices.inc].map(<[u16]>::len)
}

/// The dual with exactly its room, one number more, none, and one number less or none in each slice; and of the dual
/// the dual.
fn ask(run: &mut Run<'_>, cell: &Subject) -> Go {
    rooms(own_room(cell)).into_iter().try_for_each(|room| run.ask(Question::Dual { cell, room }))?;
    run.dual_round(cell.as_ref())
}

fn dual(cell: &Listing) -> Listing {
    duals::dual(&Model::default(), cell).expect("a closed listing has a dual")
}

/// The cells to try of the request.
pub(super) fn duals_to_try(run: &mut Run<'_>) -> Go {
    let (dyad, triangle) = (&Listing::dyad(), &cells::polygon(3));
    let closed = [
        Listing::nullitope(),
        Listing::point(),
        dyad.clone(),
        triangle.clone(),
        cells::product(Kind::Duoprism, dyad, dyad),
        cells::product(Kind::Duotegum, dyad, dyad),
        cells::product(Kind::Duoprism, dyad, triangle),
        cells::product(Kind::Duotegum, dyad, triangle),
        cells::product(Kind::Duoprism, &cells::polygon(4), dyad),
        cells::product(Kind::Duocomb, dyad, triangle),
        cells::hemicube(),
    ];
    for cell in closed {
        let turned = dual(&cell);
        ask(run, &cell.into())?;
        ask(run, &turned.into())?;
    }
    special().into_iter().try_for_each(|raw| ask(run, &raw.into()))
}

pub(super) fn duals_of_cells(run: &mut Run<'_>, random: &mut Random) -> Go {
    each_of_cells(run, random, |run, cell, _| ask(run, cell))
}

pub(super) fn damaged_duals(run: &mut Run<'_>, random: &mut Random, rounds: usize) -> Go {
    each_damaged(run, random, rounds, |run, cell, random| {
        // Room by lot, which most often is enough, or nearly.
        let room = own_room(cell).map(|length| (length + random.below(6)).saturating_sub(2));
        run.ask(Question::Dual { cell, room })
    })
}

/// Cells as large as the limits allow, in their order and in another.
pub(super) fn duals_at_limits(run: &mut Run<'_>, random: &mut Random) -> Go {
    let of_polygons = |kind, n, m| cells::product(kind, &cells::polygon(n), &cells::polygon(m));
    // As many ranks as there may be; as many elements; as many incidences, and nearly.
    let full = cells::stacked(&[94, 166]);
    assert_eq!(full.slices().inc.len(), MAX_INCIDENCES);
    let large = [
        cells::digonal(15),
        cells::polygon(2047),
        of_polygons(Kind::Duoprism, 31, 32),
        of_polygons(Kind::Duotegum, 31, 32),
        of_polygons(Kind::Duocomb, 31, 33),
        of_polygons(Kind::Duopyramid, 31, 31),
        full,
    ];
    for listing in large {
        for cell in [cells::reordered(&listing, random), dual(&listing), listing].map(Subject::from) {
            run.ask(Question::Dual { cell: &cell, room: ALL_ROOM })?;
            ask(run, &cell)?;
        }
    }
    Ok(())
}

/// Products of closed cells, their duals, and the products of the cells' duals: all pairs of small cells, pairs of
/// cells of all kinds by lot, and some whose products are as large as the limits allow.
pub(super) fn duals_of_products(run: &mut Run<'_>, random: &mut Random, rounds: usize) -> Go {
    let catalogue = catalogue();
    let small = &catalogue[..22];
    for (p, q) in small.iter().flat_map(|p| small.iter().map(move |q| (p, q))) {
        run.laws(p, q)?;
    }
    let few: Vec<Listing> = catalogue.iter().filter(|cell| cell.slices().inc.len() < 300).cloned().collect();
    let drawn = |random: &mut Random| match random.below(3) {
        0 => random.pick(&few).clone(),
        1 => cells::reordered(random.pick(&few), random),
        _ => side_by_side(&few, random).unwrap_or_else(|| dual(random.pick(&few))),
    };
    for _ in 0..rounds {
        let (p, q) = (drawn(random), drawn(random));
        run.laws(&p, &q)?;
    }
    let large = [(31, 31), (31, 32), (31, 33), (32, 32)].map(|(n, m)| (cells::polygon(n), cells::polygon(m)));
    let deep = [(cells::digonal(8), cells::digonal(7)), (cells::digonal(9), cells::digonal(8))];
    large.iter().chain(&deep).try_for_each(|(p, q)| run.laws(p, q).and_then(|()| run.laws(q, p)))
}
