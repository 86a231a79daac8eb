//! Numbers and counts, and all slices, listings and relations that are small.

use std::iter;

use flumedrac::Listing;
use flumedrac_trial::{cells, Kind, Question, Random, Raw};

use crate::run::{Go, Run};
use crate::subject::Subject;
use crate::supply::{related, sequences};

use super::volumes::small_volumes;
use super::{little_room, rooms_for_body, tests};

pub(super) fn numbers(run: &mut Run<'_>) -> Go {
    for no in 0..=u16::MAX {
        run.ask(Question::Class(no))?;
    }
    for byte in 0..=u8::MAX {
        run.ask(Question::Sign(byte))?;
    }
    let edges = |n: u16| (0..=n).chain([65534, 65535]);
    for (count, place) in edges(20).flat_map(|count| edges(22).map(move |place| (count, place))) {
        let near = u32::from(count).saturating_sub(2)..=u32::from(count) + 3;
        let far = [65535, 65536, 65537, u32::MAX / 2, u32::MAX - 1, u32::MAX];
        for at in (0..=24).chain(near).chain(far) {
            run.ask(Question::NextEvent(at, count, place))?;
        }
    }
    Ok(())
}

pub(super) fn counts(run: &mut Run<'_>, random: &mut Random) -> Go {
    let long = [65_535, 65_536, 65_537, 70_000].map(|n| vec![0; n]);
    let small = (0..2000).map(|_| (0..random.below(19)).map(|_| random.below(5) as u16).collect());
    let large = [vec![65535; 3], vec![65535], vec![0, 65535], vec![65535, 0]];
    for counts in iter::once(vec![]).chain(small).chain(large).chain(long) {
        let n = counts.len();
        for rank in [0, 1, 2, 15, 16, n.wrapping_sub(2), n.wrapping_sub(1), n, n + 1, 65535, 65536, usize::MAX] {
            run.ask(Question::ElCount(counts.clone(), rank))?;
        }
        run.ask(Question::Rank(counts.clone()))?;
        run.ask(Question::VertexCount(counts.clone()))?;
        run.ask(Question::FacetCount(counts))?;
    }
    Ok(())
}

pub(super) fn small_slices(run: &mut Run<'_>) -> Go {
    for counts in sequences(2, 3) {
        for ends in sequences(5, 3) {
            for inc in sequences(2, 2) {
                tests(run, &Raw { counts: counts.clone(), ends: ends.clone(), inc }.into())?;
            }
        }
    }
    Ok(())
}

/// Every listing of the right shape with at most three elements in at most four ranks and so many incidences.
pub(super) fn small_listings(run: &mut Run<'_>, incidences: usize) -> Go {
    let counts = sequences(4, 4).into_iter().filter(|counts| !counts.is_empty() && counts.iter().sum::<u16>() <= 3);
    let ends = sequences(6, incidences as u16 + 1);
    let values = |n: usize| if n <= 4 { 3 } else { 2 };
    for counts in counts {
        let elements: u16 = counts.iter().sum();
        let fit = |ends: &&Vec<u16>| ends.len() == 2 * usize::from(elements) && ends.is_sorted();
        for ends in ends.iter().filter(fit) {
            let n = ends.last().map_or(0, |&end| end.into());
            if n > 4 && counts != [1, 1, 1] {
                continue;
            }
            for inc in sequences(n, values(n)).into_iter().filter(|inc| inc.len() == n) {
                tests(run, &Raw { counts: counts.clone(), ends: ends.clone(), inc }.into())?;
            }
        }
    }
    Ok(())
}

/// Every incidence of so many vertices, edges and faces, sups as they follow from subs; the ends have all there is.
pub(super) fn small_relations(run: &mut Run<'_>, most: usize) -> Go {
    let sizes = |depth: usize| sequences(depth, most as u16 + 1).into_iter().filter(|sizes| !sizes.contains(&0));
    let factors = [Listing::nullitope(), Listing::point(), Listing::dyad()].map(Subject::from);
    for sizes in sizes(3) {
        let bits: u16 = sizes.windows(2).map(|two| two[0] * two[1]).sum();
        if bits > 15 {
            continue;
        }
        for relation in 0..1u32 << bits {
            let cell = Subject::from(related(&sizes, relation));
            tests(run, &cell)?;
            little_room(run, &cell)?;
            if cell.is_valid().is_ok_and(|(valid, _)| valid) {
                for (kind, factor) in Kind::ALL.iter().flat_map(|&kind| factors.iter().map(move |q| (kind, q))) {
                    let room = [16, 200, 2000];
                    run.ask(Question::Product { kind, p: &cell, q: factor, room })?;
                    run.ask(Question::Product { kind, p: factor, q: &cell, room })?;
                }
            }
            if cell.is_closed().is_ok_and(|(closed, _)| closed) {
                rooms_for_body(run, &cell)?;
                let flags = cells::flags(&related(&sizes, relation), 20);
                small_volumes(run, &cell, &flags)?;
                for first in flags {
                    for mask in 0..1 << cell.rank() {
                        run.ask(Question::Events { cell: &cell, first: first.clone(), mask })?;
                    }
                }
            }
        }
    }
    Ok(())
}
