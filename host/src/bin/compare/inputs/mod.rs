//! The questions that are asked: how much, in which order, and what several parts share.

mod bodies;
mod closed;
mod damaged;
mod duals;
mod fixed;
mod small;
mod texts;
mod volumes;
mod writing;

use std::collections::BTreeSet;

use flumedrac::{Listing, MAX_FLAGS};
use flumedrac_trial::{Kind, Question, Random, Raw, Reply, Test, ALL_ROOM};

use crate::damage::damaged;
use crate::judge::judge;
use crate::plain;
use crate::run::{Caught, Go, Run};
use crate::subject::Subject;
use crate::supply::catalogue;

use bodies::{bodies_at_limits, bodies_of_cells, bodies_to_try, damaged_bodies, side_by_side};
use closed::{closed_cells, products};
use damaged::{damaged_cells, random_limits, random_products, random_slices};
use duals::{damaged_duals, duals_at_limits, duals_of_cells, duals_of_products, duals_to_try, own_room};
use fixed::{limits, listings_to_try, shapes};
use small::{counts, numbers, small_listings, small_relations, small_slices};
use texts::{cell_texts, damaged_texts, text_limits, texts_to_try};
use volumes::{damaged_volumes, volumes_at_limits, volumes_of_cells, volumes_to_try};
use writing::{damaged_writings, edited_texts, writings_at_limits, writings_of_cells, writings_to_try};

/// How much is asked.
#[derive(Clone, Copy)]
pub struct Scale {
    /// Incidences of the small listings that are tried exhaustively.
    pub incidences: usize,
    /// Elements in each rank of the small relations that are tried exhaustively.
    pub elements: usize,
    /// Damaged cells and texts, and random slices and texts.
    pub rounds: usize,
}

impl Scale {
    pub const FULL: Scale = Scale { incidences: 6, elements: 3, rounds: 200_000 };
    pub const SMALL: Scale = Scale { incidences: 4, elements: 2, rounds: 2_000 };
}

/// Everything, one part after another.
pub fn all(run: &mut Run<'_>, scale: Scale, seed: u64) -> Go {
    let random = &mut Random::new(seed);
    run.choose(true);
    run.part("listings to try", listings_to_try)?;
    run.part("duals: cells to try", duals_to_try)?;
    run.choose(false);
    run.part("one body: cells to try", bodies_to_try)?;
    run.part("volumes: cells to try", volumes_to_try)?;
    run.part("writing: cells to try", writings_to_try)?;
    run.part("numbers, classes, events", numbers)?;
    run.part("counts", |run| counts(run, random))?;
    run.part("slices of every length around the limits", shapes)?;
    run.part("random slices around the limits", |run| random_limits(run, random, scale.rounds / 200))?;
    run.part("all small slices", small_slices)?;
    run.part("all small listings", |run| small_listings(run, scale.incidences))?;
    run.part("all small relations", |run| small_relations(run, scale.elements))?;
    run.part("damaged cells", |run| damaged_cells(run, random, scale.rounds))?;
    run.part("random slices", |run| random_slices(run, random, scale.rounds))?;
    // Texts are drawn by numbers of their own, so that the listings are those that they were without them.
    let drawn = &mut Random::new(seed);
    run.part("texts to try, changed in every place", texts_to_try)?;
    run.part("texts of cells and of products", |run| cell_texts(run, drawn))?;
    run.part("texts at the limits", text_limits)?;
    run.part("damaged and random texts", |run| damaged_texts(run, drawn, scale.rounds / 4))?;
    run.part("closed cells: tests, changes, searches", |run| closed_cells(run, random))?;
    run.part("products of cells", |run| products(run, random))?;
    run.part("products of random valid listings", |run| random_products(run, random, scale.rounds / 4))?;
    run.part("products and searches at the limits", limits)?;
    // Drawn by numbers of their own, as texts are.
    let drawn = &mut Random::new(seed);
    run.part("one body: cells, side by side, and products", |run| bodies_of_cells(run, drawn))?;
    run.part("one body: damaged cells", |run| damaged_bodies(run, drawn, scale.rounds / 10))?;
    run.part("one body: at the limits", bodies_at_limits)?;
    let drawn = &mut Random::new(seed);
    run.part("volumes: cells, moved, mirrored, side by side", |run| volumes_of_cells(run, drawn, scale.rounds / 200))?;
    run.part("volumes: damaged cells", |run| damaged_volumes(run, drawn, scale.rounds / 10))?;
    run.part("volumes: at the limits", |run| volumes_at_limits(run, drawn))?;
    let drawn = &mut Random::new(seed);
    run.part("writing: cells, side by side, and products", |run| writings_of_cells(run, drawn))?;
    run.part("writing: damaged cells", |run| damaged_writings(run, drawn, scale.rounds / 10))?;
    run.part("writing: at the limits", |run| writings_at_limits(run, drawn))?;
    run.part("writing: texts of cells, edited, and random texts", |run| edited_texts(run, drawn, scale.rounds / 2))?;
    let drawn = &mut Random::new(seed);
    run.part("duals: cells, side by side, and products", |run| duals_of_cells(run, drawn))?;
    run.part("duals: damaged cells", |run| damaged_duals(run, drawn, scale.rounds / 10))?;
    run.part("duals: at the limits", |run| duals_at_limits(run, drawn))?;
    run.part("duals of products, products of duals", |run| duals_of_products(run, drawn, scale.rounds / 20))
}

/// The tests of any slices, and the dual of a closed listing; and these are sent round.
fn tests(run: &mut Run<'_>, cell: &Subject) -> Go {
    Test::ALL.iter().try_for_each(|&test| run.ask(Question::Test(test, cell)))?;
    closed_dual(run, cell)?;
    run.listing_rounds(cell.as_ref())
}

/// The dual of a closed listing, with just enough room.
fn closed_dual(run: &mut Run<'_>, cell: &Subject) -> Go {
    match cell.is_closed().is_ok_and(|(closed, _)| closed) {
        true => run.ask(Question::Dual { cell, room: own_room(cell) }),
        false => Ok(()),
    }
}

/// Cells, and two cells under one top, each with up to two things changed.
fn each_damaged(
    run: &mut Run<'_>,
    random: &mut Random,
    rounds: usize,
    ask: impl Fn(&mut Run<'_>, &Subject, &mut Random) -> Go,
) -> Go {
    let catalogue: Vec<Listing> = catalogue().into_iter().filter(|cell| cell.slices().inc.len() < 300).collect();
    for _ in 0..rounds {
        let base = side_by_side(&catalogue, random).unwrap_or_else(|| random.pick(&catalogue).clone());
        let mut raw = Raw::from(base);
        for _ in 0..random.below(3) {
            raw = damaged(&raw, random);
        }
        ask(run, &raw.into(), random)?;
    }
    Ok(())
}

/// Whether any slices are one body, what their volume is, and what their text and their dual are, with a little room.
fn little_room(run: &mut Run<'_>, cell: &Subject) -> Go {
    run.ask(Question::OneBody { cell, table: 40, orientations: 9 })?;
    let first = vec![0; cell.as_ref().counts.len()];
    run.ask(Question::SixVolume { cell, first, coordinates: vec![1.0; 6], table: 40, orientations: 9 })?;
    run.ask(Question::WriteText { cell, room: 90 })?;
    run.ask(Question::Dual { cell, room: [5, 24, 40] })
}

/// Whether a closed cell is one body, with room around the flags that a search reaches, and around all.
fn rooms_for_body(run: &mut Run<'_>, cell: &Subject) -> Go {
    let width = cell.rank() + 1;
    let (first, mask) = (plain::first_sups(cell.as_ref()), plain::every_change(cell.as_ref()));
    let (reached, all) = (reached(cell, &first, mask), cell.flags(MAX_FLAGS));
    let near = |flags: usize| flags.saturating_sub(1)..=flags + 1;
    let flags: BTreeSet<usize> = [0, 1, reached / 2].into_iter().chain(near(reached)).chain(near(all)).collect();
    for flags in flags {
        let whole = flags * width;
        let rooms = [(whole, flags), (whole + width - 1, flags), (whole + width, flags), (whole, flags + 1)];
        for (table, orientations) in rooms {
            run.ask(Question::OneBody { cell, table, orientations })?;
        }
    }
    Ok(())
}

/// How many flags a search finds, if nothing refuses it; else 1.
fn reached(cell: &Subject, first: &[u16], mask: u16) -> usize {
    let question = Question::Events { cell, first: first.to_vec(), mask };
    let flags = |reply: Reply| reply.slices.iter().filter(|event| !event.is_empty()).count();
    judge(&question).map_or(0, |(reply, _)| flags(reply)).max(1)
}

/// Room for slices of these lengths: exactly, one number more, none, and one number less or none in each of them.
fn rooms(size: [usize; 3]) -> Vec<[usize; 3]> {
    let mut rooms = vec![size, size.map(|length| length + 1), [0, 0, 0]];
    for at in 0..3 {
        for less in [size[at].saturating_sub(1), 0] {
            let mut room = size;
            room[at] = less;
            rooms.push(room);
        }
    }
    rooms
}

/// A product with all room, and if it is answered with exactly its room, one number less of each, none, and one more;
/// what is built is sent round.
fn room_for_product(run: &mut Run<'_>, kind: Kind, p: &Subject, q: &Subject) -> Result<Option<Raw>, Caught> {
    let ask = |room| Question::Product { kind, p, q, room };
    run.ask(ask(ALL_ROOM))?;
    let Ok((reply, _)) = judge(&ask(ALL_ROOM)) else {
        return Ok(None);
    };
    if reply.numbers[0] != 0 {
        run.ask(ask([0, 0, 0]))?;
        return Ok(None);
    }
    let size = [5, 6, 7].map(|at| reply.numbers[at] as usize);
    rooms(size).into_iter().try_for_each(|room| run.ask(ask(room)))?;
    let [counts, ends, inc] = [0, 1, 2].map(|at| reply.slices[at][..size[at]].to_vec());
    let built = Raw { counts, ends, inc };
    run.listing_rounds(&built)?;
    closed_dual(run, &built.clone().into())?;
    Ok(Some(built))
}
