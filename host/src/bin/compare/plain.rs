//! The conditions that the Rust files do not decide, each said once and plainly.

use flumedrac::{MAX_ELEMENTS, MAX_FLAGS, MAX_INCIDENCES, MAX_RANKS};
use flumedrac_trial::{Kind, Raw};

/// The number of the shape's refusal, 0 for none.
pub fn shape(cell: &Raw) -> u16 {
    let elements: u64 = cell.counts.iter().map(|&count| u64::from(count)).sum();
    if cell.counts.is_empty() {
        1
    } else if cell.counts.len() > MAX_RANKS {
        2
    } else if elements > MAX_ELEMENTS as u64 {
        3
    } else if cell.ends.len() as u64 != 2 * elements {
        4
    } else if cell.inc.len() > MAX_INCIDENCES {
        5
    } else if !cell.ends.is_sorted() || cell.ends.last().map_or(0, |&end| end.into()) != cell.inc.len() {
        6
    } else {
        0
    }
}

/// The subs (side 0) or sups (side 1) of an element that exists, in slices of the right shape.
pub fn list(cell: &Raw, rank: usize, index: usize, side: usize) -> &[u16] {
    let before: usize = cell.counts[..rank].iter().map(|&count| usize::from(count)).sum();
    let at = 2 * (before + index) + side;
    let start = if at == 0 { 0 } else { cell.ends[at - 1] };
    &cell.inc[start.into()..cell.ends[at].into()]
}

/// The first list that does not strictly ascend: rank, index, side.
pub fn descent(cell: &Raw) -> Option<[usize; 3]> {
    for (r, &count) in cell.counts.iter().enumerate() {
        for i in 0..count.into() {
            for side in [0, 1] {
                if !list(cell, r, i, side).is_sorted_by(|x, y| x < y) {
                    return Some([r, i, side]);
                }
            }
        }
    }
    None
}

/// The indices that the diamond's walk down from an element meets exactly once.
pub fn met_once(cell: &Raw, rank: usize, index: usize) -> Vec<u16> {
    let mut met: Vec<u16> = vec![];
    for &sub in list(cell, rank, index, 0) {
        met.extend(list(cell, rank - 1, sub.into(), 0));
    }
    let once = |x: u16| met.iter().filter(|&&y| y == x).count() == 1;
    met.iter().copied().filter(|&x| once(x)).collect()
}

/// Whether it is one existing index for each rank, each a sub of the next.
pub fn is_flag(cell: &Raw, flag: &[u16]) -> bool {
    flag.len() == cell.counts.len()
        && flag.iter().zip(&cell.counts).all(|(index, count)| index < count)
        && (1..flag.len()).all(|r| list(cell, r, flag[r].into(), 0).contains(&flag[r - 1]))
}

/// The elements at a rank of a flag, its own left out, that the one above lists and that list the one below.
pub fn others_between(cell: &Raw, flag: &[u16], r: usize) -> Vec<u16> {
    let over = |x: u16| list(cell, r, x.into(), 0).contains(&flag[r - 1]);
    list(cell, r + 1, flag[r + 1].into(), 0).iter().copied().filter(|&x| x != flag[r] && over(x)).collect()
}

/// The flag of first sups of a closed listing: index 0 at rank 0, and then the first sup each time.
pub fn first_sups(cell: &Raw) -> Vec<u16> {
    let mut flag = vec![0];
    for r in 1..cell.counts.len() {
        flag.push(list(cell, r - 1, flag[r - 1].into(), 1)[0]);
    }
    flag
}

/// The mask that asks for every change.
pub fn every_change(cell: &Raw) -> u16 {
    (1..cell.counts.len() as u16 - 1).map(|r| 1 << r).sum()
}

/// For how many flags there is room in slices of these lengths.
pub fn room(cell: &Raw, table: usize, orientations: usize) -> usize {
    (table / cell.counts.len()).min(orientations).min(MAX_FLAGS)
}

/// The ranks that a mask asks for, ascending.
pub fn ranks(mask: u16) -> Vec<usize> {
    (0..16).filter(|&r| mask & (1 << r) != 0).collect()
}

/// The rank of a product that has pairs.
pub fn product_rank(kind: Kind, p: &Raw, q: &Raw) -> usize {
    let less = usize::from(kind.adds_minimal()) + usize::from(kind.adds_maximal());
    (p.counts.len() - 1) + (q.counts.len() - 1) - less
}

/// How many elements and incidences a product with pairs has. An incidence is a sub or a sup.
pub fn product_size(kind: Kind, p: &Raw, q: &Raw) -> (usize, usize) {
    // Ranks in use, with their elements and their subs that are in use.
    let in_use = |cell: &Raw| -> Vec<(usize, usize)> {
        let low = usize::from(kind.adds_minimal());
        let high = cell.counts.len() - usize::from(kind.adds_maximal());
        let subs = |r: usize, i: usize| if r == low { 0 } else { list(cell, r, i, 0).len() };
        let rank = |r: usize| (0..usize::from(cell.counts[r])).map(|i| subs(r, i)).sum();
        (low..high).map(|r| (cell.counts[r].into(), rank(r))).collect()
    };
    let (p, q) = (in_use(p), in_use(q));
    let total = |ranks: &[(usize, usize)]| ranks.iter().fold((0, 0), |sum, rank| (sum.0 + rank.0, sum.1 + rank.1));
    let ((p_elements, p_subs), (q_elements, q_subs)) = (total(&p), total(&q));
    let mut elements = p_elements * q_elements;
    let mut subs = p_subs * q_elements + p_elements * q_subs;
    if kind.adds_minimal() {
        elements += 1;
        subs += p[0].0 * q[0].0;
    }
    if kind.adds_maximal() {
        elements += 1;
        subs += p[p.len() - 1].0 * q[q.len() - 1].0;
    }
    (elements, 2 * subs)
}
