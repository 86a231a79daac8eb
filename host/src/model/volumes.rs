//! Six times the volume of a cell: the even flags of a search, each with a determinant in whole numbers of 128 bits.

use std::ops::{Add, Mul, Sub};

use flumedrac::ffi::{Searched, Volume};
use flumedrac::{Slices, MAX_METRES};

use super::{layers, Break, Layers, Model, RIGHT};

/// A flag that was found, and whether it is odd.
type Found<'a> = (&'a [u16], bool);

/// The places of three vertices.
type Corners = [[f64; 3]; 3];

/// The determinant of three points; with a fault, its second product is added.
fn determinant<T: Copy + Add<Output = T> + Sub<Output = T> + Mul<Output = T>>([a, b, c]: [[T; 3]; 3], add: bool) -> T {
    let minor = |i: usize, j: usize| b[i] * c[j] - b[j] * c[i];
    let (first, second, third) = (a[0] * minor(1, 2), a[1] * minor(0, 2), a[2] * minor(0, 1));
    match add {
        true => first + second + third,
        false => first - second + third,
    }
}

/// The place of a vertex.
fn place(coordinates: &[f64], vertex: u16) -> [f64; 3] {
    [0, 1, 2].map(|i| coordinates[3 * vertex as usize + i])
}

/// What a search found: its flags with their orientations.
fn found<'a>(searched: &Searched, width: usize, table: &'a [u16], odd: &'a [u8]) -> Vec<Found<'a>> {
    table.chunks(width).zip(odd.iter().map(|&byte| byte != 0)).take(searched.count.into()).collect()
}

impl Model {
    /// The mask of every change, for a listing with so many ranks.
    fn volume_mask(&self, ranks: usize) -> u16 {
        let highest = ranks.saturating_sub(2).min(15);
        let last = if self.has(Break::VolumeMaskShort) { highest.saturating_sub(1) } else { highest };
        (1..=last).map(|r| 1 << r).sum()
    }

    /// Whether a number is a whole number of metres within the limit.
    fn in_metres(&self, x: f64) -> bool {
        let most = (MAX_METRES - usize::from(self.has(Break::MetresOneLess))) as f64;
        let least = if self.has(Break::UnderMetres) { -most - 1.0 } else { -most };
        let most = if self.has(Break::OverMetres) { most + 1.0 } else { most };
        match self.fault {
            Some(Break::NanTaken) if x.is_nan() => true,
            Some(Break::InfinityTaken) if x.is_infinite() => true,
            Some(Break::MinusZeroRefused) if x.to_bits() == (-0f64).to_bits() => false,
            _ => least <= x && x <= most && (x.fract() == 0.0 || self.has(Break::FractionTaken)),
        }
    }

    /// Whether a coordinate is refused as 53.
    fn out_of_metres(&self, coordinates: &[f64], flags: &[Found<'_>]) -> bool {
        let met = |i: usize| flags.iter().any(|(flag, _)| usize::from(flag[1]) == i / 3);
        let looked_at = |i: &usize| match self.fault {
            Some(Break::LastFree) => i + 1 < coordinates.len(),
            Some(Break::MetresOfMet) => met(*i),
            _ => true,
        };
        (0..coordinates.len()).filter(looked_at).any(|i| !self.in_metres(coordinates[i]))
    }

    /// Whether the number of coordinates is refused as 52.
    fn wrong_length(&self, vertices: usize, length: usize) -> bool {
        match self.fault {
            Some(Break::MoreCoordinates) => length < 3 * vertices,
            Some(Break::LengthByVertices) => length != vertices,
            _ => length != 3 * vertices,
        }
    }

    /// The number of what is refused where the search is not, 0 for nothing.
    fn volume_refusal(&self, l: Slices<'_>, coordinates: &[f64], flags: &[Found<'_>], orientable: bool) -> u16 {
        let rank = l.counts.len() - 1;
        let wrong_rank = match self.fault {
            Some(Break::RankOverFour) => rank < 4,
            Some(Break::RankUnderFour) => rank > 4,
            _ => rank != 4,
        };
        let length = self.wrong_length(l.counts.get(1).map_or(0, |&count| count.into()), coordinates.len());
        let metres = self.out_of_metres(coordinates, flags);
        let mut tests = [
            (50, wrong_rank),
            (51, !orientable && !self.has(Break::OrientableFree)),
            (52, length),
            (53, metres),
            (25, self.has(Break::VolumeAsksBody) && RIGHT.in_parts(&layers(l))),
        ];
        match self.fault {
            Some(Break::OrientableFirst) => tests.swap(0, 1),
            Some(Break::LengthFirst) => tests[..3].rotate_right(1),
            Some(Break::MetresBeforeOrientable) => tests[1..4].rotate_right(1),
            Some(Break::MetresBeforeLength) => tests.swap(2, 3),
            Some(Break::LengthForMetres) => (tests[2].1, tests[3].1) = (metres && !length, length),
            _ => {}
        }
        tests.iter().find(|(_, refused)| *refused).map_or(0, |(no, _)| *no)
    }

    /// The vertex that six_volume takes beside those of the flag's edge: the lowest of the flag's face.
    fn apex(&self, cell: &Layers<'_>, flag: &[u16]) -> u16 {
        let edges = cell[3][flag[3] as usize].subs;
        let vertices = edges.iter().flat_map(|&edge| cell[2][edge as usize].subs).copied();
        let apex = match self.fault {
            Some(Break::LowestOfEdge) => cell[2][flag[2] as usize].subs.iter().copied().min(),
            Some(Break::LowestOfCell) => Some(0),
            Some(Break::HighestOfFace) => vertices.max(),
            Some(Break::FirstOfFace) => vertices.take(1).last(),
            _ => vertices.min(),
        };
        apex.expect("a face of a closed listing has vertices")
    }

    /// The places of the three vertices of a flag.
    fn corners(&self, cell: &Layers<'_>, flag: &[u16], coordinates: &[f64]) -> Corners {
        let other = RIGHT.changed(cell, flag, 1)[1];
        let [second, third] = if self.has(Break::VolumeTurned) { [other, flag[1]] } else { [flag[1], other] };
        [self.apex(cell, flag), second, third].map(|vertex| place(coordinates, vertex))
    }

    /// The corners of all flags that count: the even ones.
    fn summed(&self, cell: &Layers<'_>, flags: &[Found<'_>], coordinates: &[f64]) -> Vec<Corners> {
        let counts = |at: usize, odd: bool| match self.fault {
            Some(Break::VolumeOfAll) => true,
            Some(Break::VolumeOfOdd) => odd,
            Some(Break::VolumeWithoutFirst) => !odd && at > 0,
            _ => !odd,
        };
        let corners = |(at, &(flag, odd)): (usize, &Found<'_>)| {
            let [a, b, c] = self.corners(cell, flag, coordinates);
            let turned = odd && self.has(Break::VolumeOfAll);
            counts(at, odd).then_some(if turned { [a, c, b] } else { [a, b, c] })
        };
        flags.iter().enumerate().filter_map(corners).collect()
    }

    /// The sum of their determinants.
    fn six(&self, summed: &[Corners]) -> f64 {
        let added = self.has(Break::MinorAdded);
        // Where a fault lets other coordinates in, they are made whole and small.
        let whole = |corners: &Corners| corners.map(|point| point.map(|x| i128::from(x as i16)));
        let terms = summed.iter().map(|corners| determinant(whole(corners), added));
        match self.fault {
            Some(Break::VolumeFromMinusZero) => {
                summed.iter().fold(-0.0, |sum, corners| sum + determinant(*corners, added))
            }
            Some(Break::VolumeInSingle) => terms.fold(0f32, |sum, term| sum + term as f32).into(),
            Some(Break::VolumeWraps32) => (terms.sum::<i128>() as i32).into(),
            Some(Break::VolumeUnsigned) => terms.sum::<i128>().abs() as f64,
            Some(Break::VolumeItself) => terms.sum::<i128>() as f64 / 6.0,
            _ => terms.sum::<i128>() as f64,
        }
    }

    /// Whether a refusal leaves the slices as they were, by a fault.
    fn is_silent(&self, no: u16) -> bool {
        let silent = [
            (22, Break::VolumeMoreWritesNothing),
            (50, Break::RankWritesNothing),
            (51, Break::OrientableWritesNothing),
            (52, Break::LengthWritesNothing),
            (53, Break::MetresWriteNothing),
        ];
        silent.iter().any(|&(refusal, fault)| no == refusal && self.has(fault))
    }

    /// What stands beside a refusal.
    fn six_of_refused(&self, no: u16, sum: impl FnOnce() -> f64) -> f64 {
        match self.fault {
            Some(Break::VolumeRefusedMinusZero) => -0.0,
            Some(Break::VolumeKeepsSum) if no == 51 => sum(),
            _ => 0.0,
        }
    }

    pub(super) fn answer_volume(
        &self,
        l: Slices<'_>,
        first: &[u16],
        coordinates: &[f64],
        table: &mut [u16],
        orientations: &mut [u8],
    ) -> Volume {
        let (old_table, old_orientations) = (table.to_vec(), orientations.to_vec());
        let searched = RIGHT.answer_search(l, first, self.volume_mask(l.counts.len()), table, orientations);
        let flags = found(&searched, l.counts.len().max(1), table, orientations);
        let no = match searched.answer.no {
            0 => self.volume_refusal(l, coordinates, &flags, searched.orientable == 1),
            no => no,
        };
        let sum = || self.six(&self.summed(&layers(l), &flags, coordinates));
        let six = if no == 0 { sum() } else { self.six_of_refused(no, sum) };
        if self.is_silent(no) {
            table.copy_from_slice(&old_table);
            orientations.copy_from_slice(&old_orientations);
        }
        if no == 20 && self.has(Break::VolumeFlagWrites) {
            table.iter_mut().zip(first).for_each(|(number, index)| *number = *index);
        }
        Volume { no, six }
    }
}

#[cfg(test)]
mod tests {
    use super::*;

    /// The determinant by hand: that of the axes is 1, two points exchanged change its sign, and of two that are the
    /// same point it is 0.
    #[test]
    fn determinants() {
        let (a, b, c) = ([2, -3, 5], [7, 11, -13], [17, 19, 23]);
        assert_eq!(determinant([[1, 0, 0], [0, 1, 0], [0, 0, 1]], false), 1);
        // 2 * (11 * 23 + 13 * 19) + 3 * (7 * 23 + 13 * 17) + 5 * (7 * 19 - 11 * 17)
        assert_eq!(determinant([a, b, c], false), 1_876);
        assert_eq!(determinant([b, a, c], false), -1_876);
        assert_eq!(determinant([a, c, b], false), -1_876);
        assert_eq!(determinant([a, b, a], false), 0);
        assert_eq!(determinant([a, b, c], true), -416);
    }

    /// -0.0 is a whole number; the limits are taken, and nothing beyond or between.
    #[test]
    fn whole_metres() {
        assert!([0.0, -0.0, 1.0, -1.0, 1000.0, -1000.0].iter().all(|&x| RIGHT.in_metres(x)));
        let others = [0.5, -0.5, 999.5, 1000.5, 1001.0, -1001.0, f64::MIN_POSITIVE, 1e300, f64::NAN, f64::INFINITY];
        assert!(others.iter().all(|&x| !RIGHT.in_metres(x) && !RIGHT.in_metres(-x)));
    }
}
