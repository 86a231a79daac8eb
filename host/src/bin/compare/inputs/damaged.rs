//! Damaged cells and random slices, and products of random valid listings.

use flumedrac::Listing;
use flumedrac_trial::{cells, Kind, Question, Random, Raw};

use crate::damage::damaged;
use crate::oracle;
use crate::run::{Go, Run};
use crate::subject::Subject;
use crate::supply::{catalogue, listed_back, special};

use super::{little_room, tests};

/// Slices whose ranks, elements, ends and incidences are each near a limit, or not, and hold any numbers.
pub(super) fn random_limits(run: &mut Run<'_>, random: &mut Random, rounds: usize) -> Go {
    for _ in 0..rounds {
        let ranks = *random.pick(&[1, 2, 3, 15, 16, 17]);
        let elements = *random.pick(&[0, 1, 5, 40, 4095, 4096, 4097]);
        let incidences = *random.pick(&[0, 1, 7, 100, 32_767, 32_768, 32_769]);
        // The elements fall into the ranks, and the incidences into the lists, as they come.
        let mut counts = vec![0; ranks];
        (0..elements).for_each(|_| counts[random.below(ranks)] += 1);
        let length = (2 * elements + random.below(3)).saturating_sub(usize::from(!random.once_in(3)));
        let length = if random.once_in(2) { 2 * elements } else { length };
        let mut ends: Vec<u16> = (0..length).map(|_| random.below(incidences + 1) as u16).collect();
        ends.sort_unstable();
        if let (Some(last), true) = (ends.last_mut(), !random.once_in(4)) {
            *last = incidences as u16;
        }
        let largest = *random.pick(&[1, 2, 5000, 65_536]);
        let inc = (0..incidences).map(|_| random.below(largest) as u16).collect();
        let cell = &Subject::from(Raw { counts, ends, inc });
        tests(run, cell)?;
        little_room(run, cell)?;
    }
    Ok(())
}

pub(super) fn damaged_cells(run: &mut Run<'_>, random: &mut Random, rounds: usize) -> Go {
    let mut bases: Vec<Raw> = catalogue().into_iter().map(Raw::from).chain(special()).collect();
    bases.retain(|base| base.inc.len() < 500);
    let partners = [Listing::nullitope(), Listing::point(), Listing::dyad(), cells::polygon(3)].map(Subject::from);
    for _ in 0..rounds {
        let base = random.pick(&bases);
        let mut raw = base.clone();
        for _ in 0..=random.below(3) {
            raw = damaged(&raw, random);
        }
        let cell = &Subject::from(raw);
        tests(run, cell)?;
        little_room(run, cell)?;
        let flag: Vec<u16> = base.counts.iter().map(|&count| random.below(count.into()) as u16).collect();
        if random.once_in(4) {
            let r = random.below(6) as u16;
            run.ask(Question::Change { cell, flag: flag.clone(), r })?;
            let (mask, table) = (random.below(16) as u16 * 2, random.below(200));
            run.ask(Question::Search { cell, first: flag, mask, table, orientations: random.below(40) })?;
        }
        if random.once_in(4) {
            let partner = random.pick(&partners);
            let (p, q) = if random.once_in(2) { (cell, partner) } else { (partner, cell) };
            let room = [random.below(8) + 1, 600, 3000];
            run.ask(Question::Product { kind: *random.pick(&Kind::ALL), p, q, room })?;
        }
    }
    Ok(())
}

pub(super) fn random_slices(run: &mut Run<'_>, random: &mut Random, rounds: usize) -> Go {
    for _ in 0..rounds {
        let ranks = random.below(5);
        let counts: Vec<u16> = (0..ranks).map(|_| random.below(4) as u16).collect();
        let elements: u16 = counts.iter().sum();
        let length = 2 * usize::from(elements);
        let mut ends: Vec<u16> = (0..length).map(|_| random.below(2 * length + 1) as u16).collect();
        ends.sort_unstable();
        let n = ends.last().map_or(0, |&end| end.into());
        let inc = (0..n).map(|_| random.below(4) as u16).collect();
        let mut raw = Raw { counts, ends, inc };
        if random.once_in(3) {
            raw = damaged(&raw, random);
        }
        tests(run, &raw.into())?;
        let cell = &Subject::from(listed_back(random));
        tests(run, cell)?;
        little_room(run, cell)?;
    }
    Ok(())
}

/// Valid listings of all sorts, most of them not closed, and their products.
pub(super) fn random_products(run: &mut Run<'_>, random: &mut Random, rounds: usize) -> Go {
    let bases = catalogue();
    let mut valid = vec![];
    while oracle::PRESENT && valid.len() < 400 {
        let base = random.pick(&bases[..18]).clone();
        let raw = if random.once_in(3) { listed_back(random) } else { damaged(&base.into(), random) };
        let cell = Subject::from(raw);
        if cell.is_valid().is_ok_and(|(valid, _)| valid) && cell.as_ref().inc.len() < 100 {
            valid.push(cell);
        }
    }
    for _ in 0..if valid.is_empty() { 0 } else { rounds } {
        let (p, q) = (random.pick(&valid), random.pick(&valid));
        let room = *random.pick(&[[8, 400, 2000], [12, 900, 8000], [4, 60, 300]]);
        run.ask(Question::Product { kind: *random.pick(&Kind::ALL), p, q, room })?;
    }
    Ok(())
}
