//! Listings chosen by hand: those to try of the request, and those at the limits or past them.

use flumedrac::{Listing, MAX_FLAGS};
use flumedrac_trial::duals::Lists;
use flumedrac_trial::{cells, Kind, Question, Raw, ALL_ROOM};

use crate::damage::written;
use crate::run::{Go, Run};
use crate::subject::Subject;
use crate::supply::{first_flag, padded, special};

use super::{little_room, reached, room_for_product, tests};

/// The listings to try of the request.
pub(super) fn listings_to_try(run: &mut Run<'_>) -> Go {
    let [nullitope, point, dyad] = &[Listing::nullitope(), Listing::point(), Listing::dyad()].map(Subject::from);
    let triangle = &Subject::from(cells::polygon(3));
    let hemicube = &Subject::from(cells::hemicube());
    for cell in [nullitope, point, dyad, triangle, hemicube] {
        tests(run, cell)?;
    }
    for cell in special() {
        tests(run, &cell.into())?;
    }
    for (kind, p, q) in [
        (Kind::Duoprism, dyad, dyad),
        (Kind::Duopyramid, dyad, point),
        (Kind::Duoprism, nullitope, triangle),
        (Kind::Duotegum, dyad, dyad),
        (Kind::Duocomb, dyad, dyad),
        (Kind::Duocomb, point, point),
        (Kind::Duocomb, triangle, triangle),
        (Kind::Duopyramid, point, triangle),
        (Kind::Duoprism, dyad, triangle),
        (Kind::Duotegum, triangle, dyad),
    ] {
        room_for_product(run, kind, p, q)?;
    }
    for r in [1, 2] {
        run.ask(Question::Change { cell: triangle, flag: vec![0; 4], r })?;
    }
    for (table, orientations) in [(24, 6), (20, 5), (25, 6)] {
        run.ask(Question::Search { cell: triangle, first: vec![0; 4], mask: 6, table, orientations })?;
    }
    // Not orientable; the event comes after all flags of the hemicube, and earlier on the Klein bottles.
    let kleins = &[cells::grid(2, 2, true), cells::grid(2, 3, true)].map(Subject::from);
    for cell in [hemicube, &kleins[0], &kleins[1]] {
        let first = first_flag(cell.as_ref());
        let orientations = reached(cell, &first, 14);
        run.ask(Question::Search { cell, first: first.clone(), mask: 14, table: 5 * orientations, orientations })?;
        run.ask(Question::Events { cell, first, mask: 14 })?;
    }
    Ok(())
}

/// A listing whose shape is at a limit, or past it: all that can be asked of it.
fn everything(run: &mut Run<'_>, raw: Raw) -> Go {
    let cell = &Subject::from(raw);
    let nullitope = &Subject::from(Listing::nullitope());
    tests(run, cell)?;
    run.ask(Question::Change { cell, flag: vec![0; cell.as_ref().counts.len()], r: 1 })?;
    run.ask(Question::Search {
        cell,
        first: vec![0; cell.as_ref().counts.len()],
        mask: 2,
        table: 40,
        orientations: 9,
    })?;
    little_room(run, cell)?;
    for kind in Kind::ALL {
        run.ask(Question::Product { kind, p: cell, q: nullitope, room: ALL_ROOM })?;
        run.ask(Question::Product { kind, p: nullitope, q: cell, room: ALL_ROOM })?;
    }
    Ok(())
}

pub(super) fn shapes(run: &mut Run<'_>) -> Go {
    // Ranks, then elements (in one rank, in two, in 16, and where 16 bits would wrap), then incidences.
    let ranks = [0, 1, 15, 16, 17, 18, 255, 256, 65_536, 70_000].map(|n| padded(vec![1; n], 0));
    let elements = [
        vec![4095],
        vec![4096],
        vec![4097],
        vec![1, 4094, 1],
        vec![1, 4095, 1],
        vec![256; 16],
        [vec![256; 15], vec![257]].concat(),
        vec![32768, 32768],
        vec![65535, 1],
        vec![65535, 2],
        vec![65535; 16],
        vec![1, 65535, 1],
    ];
    let elements = elements.map(|counts| match counts.iter().map(|&n| u32::from(n)).sum::<u32>() {
        ..=5000 => padded(counts, 0),
        wrapped => Raw { counts, ends: vec![0; 2 * (wrapped % 65536) as usize], inc: vec![] },
    });
    let incidences = [32_767, 32_768, 32_769, 40_000, 65_535, 65_536, 65_537, 70_000];
    let incidences = incidences.map(|n| padded(vec![1, 1], n));
    for raw in ranks.into_iter().chain(elements).chain(incidences) {
        for change in 0..8 {
            let mut raw = raw.clone();
            let last = raw.ends.len().wrapping_sub(1);
            match change {
                1 => raw.ends.push(raw.inc.len() as u16),
                2 => drop(raw.ends.pop()),
                3 => raw.inc.push(0),
                4 => drop(raw.inc.pop()),
                5 => raw.ends.iter_mut().take(1).for_each(|end| *end = 1),
                6 if last < raw.ends.len() => raw.ends[last] = raw.ends[last].wrapping_sub(1),
                7 if last < raw.ends.len() => raw.ends[last] = raw.ends[last].wrapping_add(1),
                _ => {}
            }
            everything(run, raw)?;
        }
    }
    // The last end and the length of inc apart from each other.
    everything(run, Raw { counts: vec![1], ends: vec![0, 40_000], inc: vec![0; 10] })?;
    everything(run, Raw { counts: vec![1], ends: vec![0, 10], inc: vec![0; 40_000] })
}

pub(super) fn limits(run: &mut Run<'_>) -> Go {
    // An edge that lists its only vertex k times: 1 + k subs in all.
    let star = |k: usize| {
        let lists: Lists = vec![vec![[vec![], vec![0]]], vec![[vec![0], vec![0]]], vec![[vec![0; k], vec![]]]];
        Subject::from(written(&lists))
    };
    let [nullitope, point, dyad] = [Listing::nullitope(), Listing::point(), Listing::dyad()].map(Subject::from);
    let polygon = |n| Subject::from(cells::polygon(n));
    let digonal = |rank| Subject::from(cells::digonal(rank));
    let pairs = [
        // Ranks.
        (digonal(8), digonal(7)),
        (digonal(8), digonal(8)),
        (digonal(9), digonal(8)),
        (digonal(9), digonal(9)),
        (digonal(15), nullitope),
        (digonal(15), point),
        (digonal(14), dyad),
        // Elements.
        (polygon(31), polygon(31)),
        (polygon(31), polygon(32)),
        (polygon(31), polygon(33)),
        (polygon(32), polygon(32)),
        (polygon(1023), Listing::point().into()),
        (polygon(1024), Listing::point().into()),
        (polygon(2047), Listing::nullitope().into()),
        (polygon(2047), polygon(2047)),
        // Incidences.
        (star(16_383), Listing::nullitope().into()),
        (star(16_384), Listing::nullitope().into()),
        (star(32_764), Listing::nullitope().into()),
        (star(8_000), Listing::dyad().into()),
        (star(5_000), Listing::point().into()),
        (star(5_461), Listing::point().into()),
        (star(5_460), Listing::point().into()),
        (star(8_190), Listing::point().into()),
        (star(16_383), Listing::point().into()),
        (star(16_384), Listing::point().into()),
        (star(3_000), star(100)),
        (cells::cuboid(3).into(), cells::grid(5, 7, false).into()),
        (cells::cross(3).into(), cells::grid(5, 7, false).into()),
        (digonal(8), cells::grid(4, 17, false).into()),
        (polygon(33), cells::simplex(6).into()),
        (cells::simplex(6).into(), cells::simplex(6).into()),
        (cells::simplex(5).into(), cells::simplex(7).into()),
    ];
    for (p, q) in &pairs {
        tests(run, p)?;
        tests(run, q)?;
        for kind in Kind::ALL {
            room_for_product(run, kind, p, q)?;
            room_for_product(run, kind, q, p)?;
        }
    }
    let prism = |n, m| cells::product(Kind::Duoprism, &cells::polygon(n), &cells::polygon(m));
    let large = [cells::digonal(15), prism(22, 31), prism(22, 32), cells::polygon(2047), cells::simplex(7)];
    for listing in large {
        let cell = &Subject::from(listing);
        let first = first_flag(cell.as_ref());
        let width = first.len();
        let all: u16 = (1..cell.rank()).map(|r| 1 << r).sum();
        tests(run, cell)?;
        for mask in [all, all & !2, all & 0x5555] {
            run.ask(Question::Events { cell, first: first.clone(), mask })?;
        }
        for flags in [MAX_FLAGS + 5, MAX_FLAGS, MAX_FLAGS - 1, 16_368, 16_367, 5039, 5040] {
            let (table, orientations) = (flags * width, flags);
            run.ask(Question::Search { cell, first: first.clone(), mask: all, table, orientations })?;
        }
    }
    Ok(())
}
