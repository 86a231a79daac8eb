//! Listings to ask about.

use flumedrac::Listing;
use flumedrac_trial::duals::Lists;
use flumedrac_trial::{cells, Kind, Random, Raw};

use crate::damage::written;
use crate::plain;
use crate::subject::Subject;

/// Listings that have one thing about them.
pub fn special() -> Vec<Raw> {
    let subs = |subs| Raw::from(cells::listing(subs));
    // The triangle's inc begins with the sups of the minimal element; vertex 0's follow as numbers 4 and 5.
    let triangle = || Raw::from(cells::polygon(3));
    let mut struck = triangle();
    struck.inc.remove(5);
    struck.ends[3..].iter_mut().for_each(|end| *end -= 1);
    let mut turned = triangle();
    turned.inc[..3].reverse();
    vec![
        // Three vertices, one vertex, no vertices under the top.
        subs(vec![vec![vec![]], vec![vec![0]; 3], vec![vec![0, 1, 2]]]),
        subs(vec![vec![vec![]], vec![vec![0]], vec![vec![0]]]),
        subs(vec![vec![vec![]], vec![], vec![vec![]]]),
        // An edge that lists its only vertex twice, listed back twice and once; a vertex that lists the minimal element
        // twice.
        subs(vec![vec![vec![]], vec![vec![0]], vec![vec![0, 0]]]),
        Raw { counts: vec![1, 1, 1], ends: vec![0, 1, 2, 3, 5, 5], inc: vec![0; 5] },
        subs(vec![vec![vec![]], vec![vec![0, 0]], vec![vec![0]]]),
        // The dyad and the triangle with a list not in order; the triangle with an edge struck from a vertex's sups.
        subs(vec![vec![vec![]], vec![vec![0]; 2], vec![vec![1, 0]]]),
        subs(vec![vec![vec![]], vec![vec![0]; 3], vec![vec![0, 1], vec![0, 2], vec![2, 1]], vec![vec![0, 1, 2]]]),
        turned,
        struck,
        // An edge listed twice by the one face.
        subs(vec![vec![vec![]], vec![vec![0]; 2], vec![vec![0, 1]], vec![vec![0, 0]]]),
        // Two minimal elements, with incidences and without; no maximal one; nothing at all.
        subs(vec![vec![vec![], vec![]], vec![vec![0, 1]]]),
        Raw { counts: vec![2, 1], ends: vec![0; 6], inc: vec![] },
        Raw { counts: vec![2], ends: vec![0; 4], inc: vec![] },
        subs(vec![vec![vec![]], vec![]]),
        subs(vec![vec![]]),
        subs(vec![vec![], vec![], vec![]]),
        Raw::default(),
        // Two triangles under one top; four vertices under one top.
        cells::product(Kind::Duocomb, &Listing::dyad(), &cells::polygon(3)).into(),
        cells::product(Kind::Duocomb, &Listing::dyad(), &Listing::dyad()).into(),
    ]
}

/// Closed cells, small ones first.
pub fn catalogue() -> Vec<Listing> {
    let (point, dyad) = (Listing::point(), Listing::dyad());
    let hemicube = cells::hemicube();
    let mut list = vec![Listing::nullitope(), point.clone(), dyad.clone()];
    list.extend((2..=8).map(cells::polygon));
    list.extend((3..=6).map(cells::digonal));
    list.extend([4, 5].map(cells::simplex));
    list.extend([cells::cuboid(3), cells::cuboid(4), cells::cross(3), cells::cross(4)]);
    list.extend([cells::merged_cube(), hemicube.clone()]);
    for (n, m) in [(2, 2), (2, 3), (3, 2), (3, 3), (2, 5)] {
        list.extend([cells::grid(n, m, false), cells::grid(n, m, true)]);
    }
    let kinds = Kind::ALL.iter();
    list.extend(kinds.clone().filter_map(|kind| cells::try_product(*kind, &hemicube, &point)));
    list.extend(kinds.filter_map(|kind| cells::try_product(*kind, &hemicube, &dyad)));
    list.push(cells::product(Kind::Duocomb, &cells::polygon(3), &cells::polygon(4)));
    list.push(cells::product(Kind::Duoprism, &cells::polygon(3), &cells::polygon(5)));
    list.push(cells::product(Kind::Duopyramid, &cells::polygon(4), &dyad));
    list.push(cells::product(Kind::Duotegum, &cells::grid(2, 3, true), &dyad));
    list
}

/// Factors: closed cells, valid ones that are not closed, and some that are not valid.
pub fn factors() -> Vec<Subject> {
    let closed = catalogue().into_iter().take(22).chain([cells::digonal(8), cells::digonal(15)]);
    closed.map(Subject::from).chain(special().into_iter().map(Subject::from)).collect()
}

/// Slices with these counts and so many zeros in inc, all of them in the last list.
pub fn padded(counts: Vec<u16>, incidences: usize) -> Raw {
    let elements: usize = counts.iter().map(|&count| usize::from(count)).sum();
    let mut ends = vec![0; 2 * elements];
    if let Some(last) = ends.last_mut() {
        *last = incidences as u16;
    }
    Raw { counts, ends, inc: vec![0; incidences] }
}

/// All sequences of up to so many numbers below `values`, the shortest first.
pub fn sequences(longest: usize, values: u16) -> Vec<Vec<u16>> {
    let mut all = vec![vec![]];
    let mut last: Vec<Vec<u16>> = all.clone();
    for _ in 0..longest {
        last = last.iter().flat_map(|start| (0..values).map(|x| [start.as_slice(), &[x]].concat())).collect();
        all.extend_from_slice(&last);
    }
    all
}

/// Ranks of these sizes between the ends; each bit of the relation is an incidence.
pub fn related(sizes: &[u16], mut relation: u32) -> Listing {
    let mut bit = || {
        relation = relation.rotate_right(1);
        relation >> 31 == 1
    };
    let mut subs = vec![vec![vec![]]];
    for (r, &size) in sizes.iter().enumerate() {
        let under = if r == 0 { 1 } else { sizes[r - 1] };
        let mut element = || (0..under).filter(|_| r == 0 || bit()).collect();
        subs.push((0..size).map(|_| element()).collect());
    }
    subs.push(vec![(0..sizes.last().map_or(1, |&size| size)).collect()]);
    cells::listing(subs)
}

/// Random lists that are listed back, with repeats and in any order.
pub fn listed_back(random: &mut Random) -> Raw {
    let counts: Vec<usize> = (0..=random.below(4)).map(|_| random.below(3) + 1).collect();
    let mut lists: Lists = counts.iter().map(|&count| vec![[vec![], vec![]]; count]).collect();
    for _ in 0..random.below(30) {
        let r = random.below(counts.len());
        if r > 0 {
            let (i, x) = (random.below(counts[r]), random.below(counts[r - 1]));
            lists[r][i][0].push(x as u16);
            lists[r - 1][x][1].push(i as u16);
        }
    }
    written(&lists)
}

/// The flag of first subs of a closed listing.
pub fn first_flag(cell: &Raw) -> Vec<u16> {
    let mut flag = vec![0; cell.counts.len()];
    for r in (1..flag.len()).rev() {
        flag[r - 1] = plain::list(cell, r, flag[r].into(), 0)[0];
    }
    flag
}
