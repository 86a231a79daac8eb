//! Six times the volume of a cell, said plainly and apart from the model.

use flumedrac_trial::Raw;

use crate::plain;

/// The whole number from -1,000 to 1,000 that a coordinate is, if it is one.
fn metres(x: f64) -> Option<i128> {
    let n = x as i32;
    ((-1000..=1000).contains(&n) && f64::from(n) == x).then_some(n.into())
}

/// The determinant of three points, by the rule of Sarrus: three products downward less three upward.
fn determinant([a, b, c]: [&[i128]; 3]) -> i128 {
    let along = |step: usize| -> i128 { (0..3).map(|i| a[i] * b[(i + step) % 3] * c[(i + 2 * step) % 3]).sum() };
    along(1) - along(2)
}

/// The sum for a closed listing of rank 4, whose even flags these are.
fn sum<'a>(cell: &Raw, even: impl Iterator<Item = &'a [u16]>, points: &[i128]) -> i128 {
    let point = |vertex: u16| &points[3 * usize::from(vertex)..][..3];
    let ends = |edge: u16| plain::list(cell, 2, edge.into(), 0);
    let lowest = |face: u16| plain::list(cell, 3, face.into(), 0).iter().flat_map(|&edge| ends(edge)).min();
    let lowest: Vec<u16> = (0..cell.counts[3]).map(|face| *lowest(face).expect("a face has vertices")).collect();
    let term = |flag: &[u16]| {
        let (vertex, edge, face) = (flag[1], flag[2], flag[3]);
        let other = ends(edge).iter().find(|&&end| end != vertex).expect("an edge has two vertices");
        determinant([lowest[usize::from(face)], vertex, *other].map(point))
    };
    even.map(term).sum()
}

/// What is answered of a closed listing that was searched by every change: the number of a refusal, or the sum. Beside
/// each flag stands whether it is odd.
pub fn answered(cell: &Raw, flags: &[(&[u16], bool)], orientable: bool, coordinates: &[f64]) -> Result<i128, i64> {
    if cell.counts.len() != 5 {
        return Err(50);
    }
    if !orientable {
        return Err(51);
    }
    if coordinates.len() != 3 * usize::from(cell.counts[1]) {
        return Err(52);
    }
    let points: Option<Vec<i128>> = coordinates.iter().map(|&x| metres(x)).collect();
    let even = flags.iter().filter(|(_, odd)| !odd).map(|(flag, _)| *flag);
    points.map(|points| sum(cell, even, &points)).ok_or(53)
}

#[cfg(test)]
mod tests {
    use super::*;

    #[test]
    fn determinants() {
        assert_eq!(determinant([&[1, 0, 0], &[0, 1, 0], &[0, 0, 1]]), 1);
        assert_eq!(determinant([&[0, 1, 0], &[1, 0, 0], &[0, 0, 1]]), -1);
        // 1 * (5 * 10 - 6 * 8) - 2 * (4 * 10 - 6 * 7) + 3 * (4 * 8 - 5 * 7)
        assert_eq!(determinant([&[1, 2, 3], &[4, 5, 6], &[7, 8, 10]]), -3);
    }

    #[test]
    fn whole_metres() {
        assert_eq!([-1000.0, -0.0, 1000.0].map(metres), [Some(-1000), Some(0), Some(1000)]);
        let others = [0.5, 999.5, 1001.0, 5e-324, 1e300, f64::NAN, f64::INFINITY];
        assert!(others.iter().all(|&x| metres(x).is_none() && metres(-x).is_none()));
    }
}
