//! Cells to ask about.

use flumedrac::ffi::Answer;
use flumedrac::Listing;

use crate::{build, Kind, Library, Model, Random, Raw};

/// The listing with these subs: for each rank, for each element.
pub fn listing(subs: Vec<Vec<Vec<u16>>>) -> Listing {
    Listing::from_subs(&subs).expect("a cell within the limits")
}

/// The subs of each element of a rank.
fn elements(cell: &Listing, r: usize) -> Vec<Vec<u16>> {
    (0..cell.el_count(r)).map(|i| cell.subs(r, i).collect()).collect()
}

pub fn polygon(n: u16) -> Listing {
    Listing::polygon(n).expect("a polygon within the limits")
}

/// Two elements in every rank but the ends, each over all of the rank below.
pub fn digonal(rank: usize) -> Listing {
    let count = |r| if r == 0 || r == rank { 1 } else { 2 };
    let element = |r: usize| if r == 0 { vec![] } else { (0..count(r - 1)).collect() };
    listing((0..=rank).map(|r| vec![element(r); count(r) as usize]).collect())
}

/// The simplex with `n` vertices: an element for every set of them.
pub fn simplex(n: u32) -> Listing {
    let sets = |k: u32| (0..1u32 << n).filter(move |set| set.count_ones() == k);
    let subs = |set: u32, k: u32| {
        let under = sets(k.wrapping_sub(1)).zip(0..);
        under.filter(|(sub, _)| sub & !set == 0).map(|(_, index)| index).collect()
    };
    listing((0..=n).map(|k| sets(k).map(|set| subs(set, k)).collect()).collect())
}

/// The box of dimension `n`: dyads multiplied.
pub fn cuboid(n: usize) -> Listing {
    (0..n).fold(Listing::point(), |cell, _| product(Kind::Duoprism, &cell, &Listing::dyad()))
}

/// The cross polytope of dimension `n`.
pub fn cross(n: usize) -> Listing {
    (0..n).fold(Listing::point(), |cell, _| product(Kind::Duotegum, &cell, &Listing::dyad()))
}

/// Half a cube: 4 vertices, 6 edges, 3 faces. It is not orientable.
pub fn hemicube() -> Listing {
    listing(vec![
        vec![vec![]],
        vec![vec![0]; 4],
        vec![vec![0, 1], vec![0, 2], vec![0, 3], vec![1, 2], vec![1, 3], vec![2, 3]],
        vec![vec![1, 2, 3, 4], vec![0, 2, 3, 5], vec![0, 1, 4, 5]],
        vec![vec![0, 1, 2]],
    ])
}

/// A cube with two opposite faces merged into one.
pub fn merged_cube() -> Listing {
    let cube = cuboid(3);
    let faces = elements(&cube, 3);
    let opposite = (1..6).find(|&i| faces[i].iter().all(|edge| !shares_vertex(&cube, &faces[0], *edge)));
    let opposite = opposite.expect("a cube has opposite faces");
    let mut merged = faces.clone();
    let other = merged.remove(opposite);
    merged[0].extend(other);
    merged[0].sort_unstable();
    let kept = |r: usize| elements(&cube, r);
    listing(vec![kept(0), kept(1), kept(2), merged, vec![(0..5).collect()]])
}

fn shares_vertex(cube: &Listing, face: &[u16], edge: u16) -> bool {
    let has = |e: u16, v: u16| cube.subs(2, e as usize).any(|x| x == v);
    cube.subs(2, edge as usize).any(|v| face.iter().any(|&e| has(e, v)))
}

/// A ring of `n` columns of `m` squares, closed to a torus or, turned over at the seam, to a Klein bottle.
pub fn grid(n: u16, m: u16, klein: bool) -> Listing {
    // Vertex (i, j), the edge from it along i, the edge from it along j, and the square between these.
    let seam = |i: u16, j: u16, turned: u16| match i == n {
        true if klein => turned,
        true => j,
        false => i * m + j,
    };
    let vertex = |i: u16, j: u16| seam(i, j % m, (m - j % m) % m);
    let along = |i: u16, j: u16| i * m + j % m;
    let across = |i: u16, j: u16| n * m + seam(i, j, (2 * m - j - 1) % m);
    let places = || (0..n).flat_map(|i| (0..m).map(move |j| (i, j)));
    let sorted = |mut list: Vec<u16>| {
        list.sort_unstable();
        list
    };
    let mut edges: Vec<Vec<u16>> = places().map(|(i, j)| sorted(vec![vertex(i, j), vertex(i + 1, j)])).collect();
    edges.extend(places().map(|(i, j)| sorted(vec![vertex(i, j), vertex(i, j + 1)])));
    let square = |(i, j)| sorted(vec![along(i, j), along(i, j + 1), across(i, j), across(i + 1, j)]);
    listing(vec![
        vec![vec![]],
        vec![vec![0]; (n * m) as usize],
        edges,
        places().map(square).collect(),
        vec![(0..n * m).collect()],
    ])
}

/// Two groups of `n` vertices, from 2, each joined to each of the other group, and `n` faces that have all vertices: of
/// all orientable cells of rank 4 with so few elements it has about the most flags, four for each edge. Vertex i of the
/// first group and vertex j of the second are joined by edge n i + j, which lies in faces i + j and i + j - 1 around.
pub fn joined(n: u16) -> Listing {
    let pairs = || (0..n).flat_map(|i| (0..n).map(move |j| (i, j)));
    let edges = pairs().map(|(i, j)| vec![i, n + j]).collect();
    let lies_in = |k: u16, i: u16, j: u16| [k, (k + 1) % n].contains(&((i + j) % n));
    let face = |k: u16| pairs().filter(|&(i, j)| lies_in(k, i, j)).map(|(i, j)| n * i + j).collect();
    let faces = (0..n).map(face).collect();
    listing(vec![vec![vec![]], vec![vec![0]; 2 * usize::from(n)], edges, faces, vec![(0..n).collect()]])
}

/// Polygons one upon another: each vertex of one lies over all edges of the one before. There are as many flags as the
/// polygons' numbers multiplied, and each polygon has two for each side.
pub fn stacked(sides: &[u16]) -> Listing {
    let mut subs = vec![vec![vec![]]];
    for &n in sides {
        let all: Vec<u16> = (0..subs[subs.len() - 1].len() as u16).collect();
        let edges = polygon(n);
        subs.push(vec![all; n.into()]);
        subs.push((0..n.into()).map(|i| edges.subs(2, i).collect()).collect());
    }
    subs.push(vec![(0..subs[subs.len() - 1].len() as u16).collect()]);
    listing(subs)
}

/// Two cells of the same rank under one top, as one listing: the second one's elements come after the first one's. They
/// share the ends and, if asked, vertex 0 of both.
pub fn side_by_side(p: &Listing, q: &Listing, share_vertex: bool) -> Listing {
    let rank = p.rank();
    assert!(rank > 1 && rank == q.rank(), "cells of the same rank that have vertices");
    // How many elements of a rank are shared: the first ones of both cells.
    let shared = |r: usize| if r == 0 { 1 } else { usize::from(r == 1 && share_vertex) };
    // The number that an element of the second cell has in both together.
    let number = |r: usize, i: u16| match usize::from(i) {
        i if i < shared(r) => i as u16,
        i => (p.el_count(r) + i - shared(r)) as u16,
    };
    let mut subs = vec![elements(p, 0)];
    for r in 1..rank {
        let moved = |list: Vec<u16>| list.into_iter().map(|sub| number(r - 1, sub)).collect();
        let second = elements(q, r).into_iter().skip(shared(r)).map(moved).collect();
        subs.push([elements(p, r), second].concat());
    }
    subs.push(vec![(0..subs[rank - 1].len() as u16).collect()]);
    listing(subs)
}

/// A cell with its elements in another order in each rank, by lot.
pub fn reordered(cell: &Listing, random: &mut Random) -> Listing {
    let mut place: Vec<u16> = vec![0];
    let mut subs = vec![];
    for r in 0..=cell.rank() {
        let mut order: Vec<usize> = (0..cell.el_count(r)).collect();
        (1..order.len()).for_each(|i| order.swap(i, random.below(i + 1)));
        let moved = |i: &usize| {
            let mut list: Vec<u16> = cell.subs(r, *i).map(|sub| place[usize::from(sub)]).collect();
            list.sort_unstable();
            list
        };
        subs.push(order.iter().map(moved).collect());
        place = vec![0; order.len()];
        (0..).zip(&order).for_each(|(new, &old)| place[old] = new);
    }
    listing(subs)
}

/// A product as the model builds it.
pub fn product(kind: Kind, p: &Listing, q: &Listing) -> Listing {
    try_product(kind, p, q).expect("a product within the limits")
}

/// A product as the model builds it, if it does.
pub fn try_product(kind: Kind, p: &Listing, q: &Listing) -> Option<Listing> {
    let (answer, Raw { counts, ends, inc }) = build(&Model::default(), kind, p, q);
    (answer.no == 0).then(|| Listing::new(counts, ends, inc).expect("a product has the right shape"))
}

/// The flags of a closed listing that are reached from its first flag, as many as the limit allows.
pub fn flags(cell: &Listing, limit: usize) -> Vec<Vec<u16>> {
    let first = cell.first_flag().expect("a closed listing has flags");
    let width = cell.rank() + 1;
    let mut table = vec![0; limit * width];
    let searched = Model::default().search(cell.slices(), &first, cell.all_changes(), &mut table, &mut vec![0; limit]);
    let count = if searched.answer.no == 0 { searched.count as usize } else { limit };
    table.chunks(width).take(count).map(<[u16]>::to_vec).collect()
}

/// Listings that are not closed, each with what the closed test answers.
pub fn not_closed() -> [(Raw, Answer); 4] {
    let tripod = listing(vec![vec![vec![]], vec![vec![0]; 3], vec![vec![0, 1, 2]]]);
    // The minimal element's sups, which come first, in the other order.
    let mut turned = Raw::from(polygon(3));
    turned.inc[..3].reverse();
    let two = Raw { counts: vec![2, 1], ends: vec![0; 6], inc: vec![] };
    [
        (tripod.into(), Answer { no: 17, a: 0, b: 0, c: 2, d: 0 }),
        (turned, Answer { no: 19, a: 0, b: 0, c: 1, d: 0 }),
        (two, Answer { no: 10, a: 2, b: 1, c: 0, d: 0 }),
        (Raw::default(), Answer { no: 1, ..Answer::default() }),
    ]
}

/// Two closed cells with long texts, each made of two with a vertex in common. The text of the first has just as many
/// bytes as a text may have, that of the second one more.
pub fn at_text_limit() -> [Listing; 2] {
    let of_polygons = |kind, n, m| product(kind, &polygon(n), &polygon(m));
    let prism = |n, m| of_polygons(Kind::Duoprism, n, m);
    let both = |p: Listing, q: Listing| side_by_side(&p, &q, true);
    [both(prism(28, 30), prism(6, 9)), both(prism(29, 30), of_polygons(Kind::Duotegum, 5, 5))]
}
