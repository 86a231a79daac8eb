//! Closed cells with their flags, changes and searches, and products of cells.

use flumedrac_trial::{cells, Kind, Question, Random};

use crate::run::{Go, Run};
use crate::subject::Subject;
use crate::supply::{catalogue, factors, first_flag, special};

use super::{reached, room_for_product, tests};

pub(super) fn closed_cells(run: &mut Run<'_>, random: &mut Random) -> Go {
    for raw in special() {
        let cell = &Subject::from(raw);
        tests(run, cell)?;
        let first = vec![0; cell.as_ref().counts.len()];
        run.ask(Question::Change { cell, flag: first.clone(), r: 1 })?;
        run.ask(Question::Search { cell, first, mask: 2, table: 40, orientations: 10 })?;
    }
    for listing in catalogue() {
        let flags = cells::flags(&listing, 400);
        let cell = &Subject::from(listing);
        tests(run, cell)?;
        for flag in &flags {
            for r in (0..=cell.rank() as u16 + 1).chain([15, 16, 65535]) {
                run.ask(Question::Change { cell, flag: flag.clone(), r })?;
            }
        }
        for _ in 0..12 {
            let flag = random.pick(&flags).clone();
            no_flags(run, cell, &flag, random)?;
            searches(run, cell, &flag, random)?;
        }
    }
    Ok(())
}

/// What is nearly a flag.
fn no_flags(run: &mut Run<'_>, cell: &Subject, flag: &[u16], random: &mut Random) -> Go {
    let at = random.below(flag.len());
    let mut other = flag.to_vec();
    other[at] = random.below(usize::from(cell.as_ref().counts[at]) + 1) as u16;
    let mut missing = flag.to_vec();
    missing[at] = *random.pick(&[cell.as_ref().counts[at], 65535]);
    let longer = |n: usize| [flag, &vec![0; n]].concat();
    for flag in [other, missing, flag[1..].to_vec(), flag[..at].to_vec(), longer(1), longer(17), longer(70_000)] {
        for r in [0, 1, 2, 16] {
            run.ask(Question::Change { cell, flag: flag.clone(), r })?;
        }
        for mask in [0, 1, 2, 6, 1 << 15] {
            run.ask(Question::Search { cell, first: flag.clone(), mask, table: 300, orientations: 30 })?;
        }
    }
    Ok(())
}

/// Searches from a flag: many masks, and room that is right, one less, none, or cut.
fn searches(run: &mut Run<'_>, cell: &Subject, first: &[u16], random: &mut Random) -> Go {
    let width = first.len();
    let all: u16 = (1..cell.rank()).map(|r| 1 << r).sum();
    let masks = if width <= 5 { 0..1 << width } else { 0..0 };
    let drawn: Vec<u16> = (0..12).map(|_| all & random.below(65536) as u16).collect();
    for mask in masks.chain(drawn).chain([all, all | 1, all | 1 << cell.rank(), 1 << 15, 65535]) {
        run.ask(Question::Events { cell, first: first.to_vec(), mask })?;
        let found = reached(cell, first, mask);
        let whole = found * width;
        let rooms = [
            (whole, found),
            (whole + 1, found + 1),
            (whole + 3 * width, found + 2),
            (whole.saturating_sub(1), found),
            (whole, found.saturating_sub(1)),
            (whole / 2, found),
            (whole, found / 2),
            (0, found),
            (whole, 0),
        ];
        for (table, orientations) in rooms {
            run.ask(Question::Search { cell, first: first.to_vec(), mask, table, orientations })?;
        }
    }
    Ok(())
}

pub(super) fn products(run: &mut Run<'_>, random: &mut Random) -> Go {
    let factors = factors();
    let mut results = vec![];
    for (p, q) in factors.iter().flat_map(|p| factors.iter().map(move |q| (p, q))) {
        for kind in Kind::ALL {
            if let Some(built) = room_for_product(run, kind, p, q)? {
                if built.inc.len() < 2000 && random.once_in(3) {
                    results.push(built);
                }
            }
        }
    }
    // The products are listings too; unsorted ones are not closed.
    for built in results {
        let cell = &Subject::from(built);
        tests(run, cell)?;
        if cell.is_closed().is_ok_and(|(closed, _)| closed) {
            let first = first_flag(cell.as_ref());
            let all = (1..cell.rank()).map(|r| 1 << r).sum();
            for mask in [all, all & random.below(65536) as u16] {
                run.ask(Question::Events { cell, first: first.clone(), mask })?;
            }
        }
    }
    Ok(())
}
