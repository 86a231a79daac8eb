//! Texts written: of cells of all kinds, of damaged ones, and at the limits; and texts edited, to be sent round.

use std::collections::BTreeSet;

use flumedrac::{Listing, MAX_TEXT};
use flumedrac_trial::{cell_texts, cells, Kind, Question, Random};

use crate::run::{Go, Run};
use crate::subject::Subject;
use crate::supply::{catalogue, special};
use crate::text_damage;

use super::bodies::side_by_side;
use super::each_damaged;
use super::texts::{listings, random_parts, random_text};

/// The length of the text, if the listing is closed.
fn length(cell: &Subject) -> Option<usize> {
    let closed = cell.is_closed().is_ok_and(|(closed, _)| closed);
    closed.then(|| cell_texts::text(cell.as_ref().slices()).len())
}

/// A listing written into so many bytes, and so many, and so on; and sent round.
fn ask_in(run: &mut Run<'_>, cell: &Subject, rooms: impl IntoIterator<Item = usize>) -> Go {
    let rooms: BTreeSet<usize> = rooms.into_iter().collect();
    rooms.into_iter().try_for_each(|room| run.ask(Question::WriteText { cell, room }))?;
    run.listing_rounds(cell.as_ref())
}

/// The same with no bytes and one, just as many as the text has, one less, one more and many more, and some by lot.
fn ask(run: &mut Run<'_>, cell: &Subject, random: &mut Random) -> Go {
    let length = length(cell).unwrap_or(30);
    let drawn = [random.below(length), random.below(2 * length)];
    ask_in(run, cell, [0, 1, length - 1, length, length + 1, length + 40].into_iter().chain(drawn))
}

/// The same with lengths around the text's and around the limit.
fn ask_at_limit(run: &mut Run<'_>, cell: &Subject) -> Go {
    let near = |bytes: usize| bytes - 1..=bytes + 1;
    let length = length(cell).unwrap_or(30);
    ask_in(run, cell, [0, 10, 131_072].into_iter().chain(near(length)).chain(near(MAX_TEXT)))
}

fn of_polygons(kind: Kind, n: u16, m: u16) -> Listing {
    cells::product(kind, &cells::polygon(n), &cells::polygon(m))
}

/// The cells of the request, and those whose texts are just as long as a text may be, or a byte longer.
pub(super) fn writings_to_try(run: &mut Run<'_>) -> Go {
    for raw in special() {
        ask_in(run, &raw.into(), [0, 1, 29, 100])?;
    }
    let (prism, pyramid) = (Kind::Duoprism, Kind::Duopyramid);
    let large = [of_polygons(pyramid, 31, 31), of_polygons(pyramid, 25, 31), of_polygons(prism, 28, 32)];
    let cells = [Listing::point(), cells::polygon(11)].into_iter().chain(large).chain(cells::at_text_limit());
    cells.map(Subject::from).try_for_each(|cell| ask_at_limit(run, &cell))
}

pub(super) fn writings_of_cells(run: &mut Run<'_>, random: &mut Random) -> Go {
    each_of_cells(run, random, ask)
}

/// Listings that have one thing about them, closed cells in their order and in another, two cells under one top, and
/// products.
pub(super) fn each_of_cells(
    run: &mut Run<'_>,
    random: &mut Random,
    ask: impl Fn(&mut Run<'_>, &Subject, &mut Random) -> Go,
) -> Go {
    let catalogue = catalogue();
    for raw in special() {
        ask(run, &raw.into(), random)?;
    }
    for listing in &catalogue {
        ask(run, &listing.clone().into(), random)?;
        ask(run, &cells::reordered(listing, random).into(), random)?;
    }
    for _ in 0..600 {
        if let Some(both) = side_by_side(&catalogue, random) {
            ask(run, &both.into(), random)?;
        }
    }
    listings().into_iter().try_for_each(|raw| ask(run, &raw.into(), random))
}

pub(super) fn damaged_writings(run: &mut Run<'_>, random: &mut Random, rounds: usize) -> Go {
    each_damaged(run, random, rounds, |run, cell, random| {
        run.ask(Question::WriteText { cell, room: random.below(3000) })
    })
}

/// Cells as large as the limits allow, in their order and in another.
pub(super) fn writings_at_limits(run: &mut Run<'_>, random: &mut Random) -> Go {
    let prisms = [(29, 29), (29, 30), (31, 32)].map(|(n, m)| of_polygons(Kind::Duoprism, n, m));
    let others = [cells::polygon(2047), cells::digonal(15), cells::joined(62), cells::grid(31, 33, true)];
    for cell in prisms.into_iter().chain(others) {
        ask_at_limit(run, &cells::reordered(&cell, random).into())?;
        ask_at_limit(run, &cell.into())?;
    }
    Ok(())
}

/// Texts of closed cells, in their order or in another, as they are or with small edits; and damaged and random texts.
pub(super) fn edited_texts(run: &mut Run<'_>, random: &mut Random, rounds: usize) -> Go {
    let bases: Vec<Listing> = catalogue().into_iter().filter(|cell| cell.slices().inc.len() < 500).collect();
    for _ in 0..rounds {
        let text = match random.below(8) {
            0 => random_text(random),
            1 => random_parts(random),
            2 => text_damage::damaged(&random_text(random), random),
            drawn => {
                let base = random.pick(&bases);
                let cell = if random.once_in(2) { base.clone() } else { cells::reordered(base, random) };
                let edit = if drawn == 3 { text_damage::damaged } else { text_damage::edited };
                (0..random.below(3)).fold(cell_texts::text(cell.slices()), |text, _| edit(&text, random))
            }
        };
        run.text_round(&text)?;
    }
    Ok(())
}
