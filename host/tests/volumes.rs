//! Volumes of cells: those whose answers were given with the request, and what has to hold of many others, asked of the
//! model and of the archive.

use flumedrac::{Listing, MAX_FLAGS};
use flumedrac_trial::{cells, Archive, Kind, Library, Model, Random};

fn each(check: impl Fn(&dyn Library)) {
    check(&Model::default());
    check(&Archive);
}

type Place = [i32; 3];

/// The coordinates of vertices in whole metres.
fn metres(places: &[Place]) -> Vec<f64> {
    places.as_flattened().iter().map(|&x| x.into()).collect()
}

/// What is asked of a cell, and with room for how many flags.
#[derive(Clone)]
struct Asked {
    cell: Listing,
    first: Vec<u16>,
    coordinates: Vec<f64>,
    room: usize,
}

impl Asked {
    /// A cell with its vertices at these places, from a flag, with all room.
    fn new(cell: &Listing, first: &[u16], places: &[Place]) -> Self {
        Self { cell: cell.clone(), first: first.to_vec(), coordinates: metres(places), room: MAX_FLAGS }
    }

    fn with_room(self, room: usize) -> Self {
        Self { room, ..self }
    }

    fn with_coordinates(&self, coordinates: Vec<f64>) -> Self {
        Self { coordinates, ..self.clone() }
    }

    /// The number that is answered and the bits of the volume. The slices must be as a search with every change leaves
    /// them, and as they were where 20 or something less is refused.
    fn answer(&self, library: &dyn Library) -> (u16, u64) {
        let Self { cell, first, coordinates, room } = self;
        let (l, mask) = (cell.slices(), cell.all_changes());
        let lent = || (vec![65535; room * (cell.rank() + 1)], vec![255; *room]);
        let ((mut table, mut odd), (mut found, mut found_odd)) = (lent(), lent());
        let volume = library.six_volume(l, first, coordinates, &mut table, &mut odd);
        let searched = library.search(l, first, mask, &mut found, &mut found_odd);
        assert!((&table, &odd) == (&found, &found_odd), "other slices than the search's");
        assert_eq!(odd.first().is_none_or(|&byte| byte == 255), volume.no <= 20 && volume.no > 0 || *room == 0);
        assert!(searched.answer.no == volume.no || searched.answer.no == 0 && [0, 50, 51, 52, 53].contains(&volume.no));
        (volume.no, volume.six.to_bits())
    }

    fn is_refused(&self, library: &dyn Library, no: u16) {
        assert_eq!(self.answer(library), (no, 0), "{:?}, room {}", self.cell.slices().counts, self.room);
    }

    fn is(&self, library: &dyn Library, six: f64) {
        assert_eq!(self.answer(library), (0, six.to_bits()), "{:?}, first {:?}", self.cell.slices().counts, self.first);
    }

    /// The volume where nothing is refused.
    fn six(&self, library: &dyn Library) -> f64 {
        let (no, six) = self.answer(library);
        assert_eq!(no, 0);
        f64::from_bits(six)
    }
}

/// A cube of side 10, the duoprism of a dyad and a square that is the duoprism of two: its vertex 4a + 2b + c is at
/// 10a, 10b, 10c.
fn cube() -> Asked {
    let dyad = Listing::dyad();
    let square = cells::product(Kind::Duoprism, &dyad, &dyad);
    let cell = cells::product(Kind::Duoprism, &dyad, &square);
    Asked::new(&cell, &[0; 5], &[0, 1, 2, 3, 4, 5, 6, 7].map(|v| [v / 4, v / 2 % 2, v % 2].map(|side| 10 * side)))
}

/// The prism over a polygon with these corners, from its floor to its roof.
fn prism(corners: &[[i32; 2]], floor: i32, roof: i32) -> Asked {
    let cell = cells::product(Kind::Duoprism, &Listing::dyad(), &cells::polygon(corners.len() as u16));
    let level = |z: i32| corners.iter().map(move |&[x, y]| [x, y, z]);
    let places: Vec<Place> = level(floor).chain(level(roof)).collect();
    Asked::new(&cell, &[0; 5], &places)
}

#[test]
fn cubes() {
    let cube = cube();
    each(|library| {
        cube.is(library, 6000.0);
        cube.clone().with_room(48).is(library, 6000.0);
        cube.clone().with_room(47).is_refused(library, 22);
        cube.clone().with_room(0).is_refused(library, 22);
        for r in 1..=3 {
            let first = library.change(cube.cell.slices(), &cube.first, r).flag[..5].to_vec();
            Asked { first, ..cube.clone() }.is(library, -6000.0);
        }
    });
}

/// Triangles have no volume; the hemicube is not orientable, and its first flag is not all zeros.
#[test]
fn other_ranks_and_not_orientable() {
    let triangle = Asked::new(&cells::polygon(3), &[0; 4], &[]);
    let hemicube = Asked::new(&cells::hemicube(), &[0, 0, 0, 1, 0], &[]);
    let box_of_four = cells::cuboid(4);
    let first = box_of_four.first_flag().expect("a closed cell").to_vec();
    each(|library| {
        triangle.clone().with_room(5).is_refused(library, 22);
        triangle.clone().with_room(6).is_refused(library, 50);
        hemicube.is_refused(library, 51);
        hemicube.clone().with_room(24).is_refused(library, 51);
        hemicube.clone().with_room(23).is_refused(library, 22);
        Asked { first: vec![0; 5], ..hemicube.clone() }.is_refused(library, 20);
        Asked::new(&box_of_four, &first, &[]).is_refused(library, 50);
        for (cell, ranks) in [(Listing::nullitope(), 1), (Listing::point(), 2), (Listing::dyad(), 3)] {
            Asked::new(&cell, &vec![0; ranks], &[]).is_refused(library, 50);
            Asked::new(&cell, &[], &[]).is_refused(library, 20);
        }
    });
}

/// What is not closed is refused first, whatever else is wrong, and by the number of the closed test.
#[test]
fn closed_first() {
    let tripod = cells::listing(vec![vec![vec![]], vec![vec![0]; 3], vec![vec![0, 1, 2]]]);
    let cube = cube().cell;
    let subs = |r: usize| (0..cube.el_count(r)).map(|i| cube.subs(r, i).collect()).collect::<Vec<Vec<u16>>>();
    let open = cells::listing(vec![subs(0), subs(1), subs(2), subs(3)[..5].to_vec(), vec![(0..5).collect()]]);
    each(|library| {
        Asked::new(&tripod, &[9], &[[5000; 3]]).is_refused(library, 17);
        Asked::new(&open, &[0; 5], &[]).is_refused(library, 18);
        Asked::new(&open, &[0; 5], &[]).with_room(0).is_refused(library, 18);
    });
}

/// Coordinates: how many, and which.
#[test]
fn coordinates() {
    let cube = cube();
    let bad = [0.5, -0.5, 999.5, 1001.0, -1001.0, 1e300, 5e-324, f64::NAN, -f64::NAN, f64::INFINITY, f64::NEG_INFINITY];
    each(|library| {
        cube.with_coordinates(vec![f64::NAN; 3]).is_refused(library, 52);
        for length in [0, 8, 23, 25, 72] {
            cube.with_coordinates(vec![0.0; length]).is_refused(library, 52);
        }
        for (at, x) in (0..24).flat_map(|at| bad.map(|x| (at, x))) {
            let mut coordinates = cube.coordinates.clone();
            coordinates[at] = x;
            cube.with_coordinates(coordinates).is_refused(library, 53);
        }
        // The limits are taken; -0.0 is whole, and its sign changes nothing.
        let at_limits = cube.coordinates.iter().map(|&x| if x == 0.0 { -1000.0 } else { 1000.0 }).collect();
        cube.with_coordinates(at_limits).is(library, 6.0 * 2000.0 * 2000.0 * 2000.0);
        let minus_zeros = cube.coordinates.iter().map(|&x| if x == 0.0 { -0.0 } else { x }).collect();
        cube.with_coordinates(minus_zeros).is(library, 6000.0);
    });
}

/// A zero is the positive one, also where each determinant would be -0.0, as it is for the third of these places.
#[test]
fn zeros() {
    let cube = cube();
    each(|library| {
        for place in [[0.0, 0.0, 0.0], [3.0, -4.0, 5.0], [-7.0, 3.0, -5.0], [-0.0, -0.0, -0.0], [-1.0, 0.0, -0.0]] {
            let cube = cube.with_coordinates(place.repeat(8));
            cube.is(library, 0.0);
            Asked { first: vec![0, 1, 0, 0, 0], ..cube }.is(library, 0.0);
        }
    });
}

/// What is promised is a sum: where a face is two rings it is no volume.
#[test]
fn merged_faces() {
    let cell = cells::merged_cube();
    let places: Vec<Place> = (0..8).map(|v| [v / 4, v / 2 % 2, v % 2].map(|side| 10 * side)).collect();
    let first = cell.first_flag().expect("a closed cell");
    assert_eq!(cell.slices().counts, [1, 8, 12, 5, 1]);
    each(|library| assert_eq!(Asked::new(&cell, &first, &places).six(library).abs(), 4000.0));
    // The cube of the request, its faces 0 and 1 written as one.
    let cube = cube();
    let subs = |r: usize| (0..cube.cell.el_count(r)).map(|i| cube.cell.subs(r, i).collect()).collect::<Vec<Vec<u16>>>();
    let faces = subs(3);
    let both: Vec<u16> = faces[0].iter().chain(&faces[1]).copied().collect();
    assert!(both.is_sorted_by(|x, y| x < y), "opposite faces, the first one's edges first");
    let merged = [vec![both], faces[2..].to_vec()].concat();
    let cell = cells::listing(vec![subs(0), subs(1), subs(2), merged, vec![(0..5).collect()]]);
    each(|library| Asked { cell: cell.clone(), ..cube.clone() }.is(library, 4000.0));
}

/// Of two cubes under one top the one that the first flag belongs to counts; both have coordinates.
#[test]
fn two_cubes() {
    let cube = cube();
    let cell = cells::side_by_side(&cube.cell, &cube.cell, false);
    let larger = cube.coordinates.iter().map(|x| 2.0 * x);
    let coordinates: Vec<f64> = cube.coordinates.iter().copied().chain(larger).collect();
    let two = Asked { cell, coordinates, ..cube.clone() };
    let in_second = Asked { first: vec![0, 8, 12, 6, 0], ..two.clone() };
    let mut spoilt = two.coordinates.clone();
    spoilt[47] = 0.5;
    each(|library| {
        for room in [48, 96] {
            two.clone().with_room(room).is(library, 6000.0);
            in_second.clone().with_room(room).is(library, 48_000.0);
        }
        two.clone().with_room(47).is_refused(library, 22);
        two.with_coordinates(spoilt.clone()).is_refused(library, 53);
        two.with_coordinates(cube.coordinates.clone()).is_refused(library, 52);
    });
}

/// Twice the area of a polygon, positive if it goes round counterclockwise.
fn twice_area(corners: &[[i32; 2]]) -> i32 {
    let next = corners.iter().cycle().skip(1);
    corners.iter().zip(next).map(|(p, q)| p[0] * q[1] - q[0] * p[1]).sum()
}

/// The volume of a prism is its floor times its height, also where the floor is not convex or crosses itself. The first
/// flag goes round the floor with the corners; from outside a floor is seen from below.
#[test]
fn prisms() {
    let mut random = Random::new(4);
    for n in 3..40 {
        let corners: Vec<[i32; 2]> = (0..n).map(|_| [0; 2].map(|_| random.below(2001) as i32 - 1000)).collect();
        let [floor, roof] = [0, 0].map(|_| random.below(2001) as i32 - 1000);
        let six = -3.0 * f64::from(twice_area(&corners)) * f64::from(roof - floor);
        each(|library| prism(&corners, floor, roof).is(library, six + 0.0));
    }
    // The largest prism there is: 682 corners on two sides of a square, 8,184 flags.
    let along = |i: i32| if i < 342 { [-1000, 3 * i - 500] } else { [1000, 500 - 3 * (i - 341)] };
    let corners: Vec<[i32; 2]> = (0..682).map(along).collect();
    let six = -3.0 * f64::from(twice_area(&corners)) * 2000.0;
    each(|library| {
        prism(&corners, -1000, 1000).with_room(8184).is(library, six);
        prism(&corners, -1000, 1000).with_room(8183).is_refused(library, 22);
    });
}

/// A ring with a square for its cut, and so many squares around it: the square goes round a rhombus with corners at
/// the distance `far` from the middle.
fn ring(around: u16, far: i32) -> Asked {
    let corners = (0..around).map(|i| match 4 * i / around {
        0 => [far, 0],
        1 => [0, far],
        2 => [-far, 0],
        _ => [0, -far],
    });
    let cut = [[-1, -1], [1, -1], [1, 1], [-1, 1]].map(|[out, up]: [i32; 2]| [10 * out, 10 * up]);
    let at = |[x, y]: [i32; 2], [out, up]: [i32; 2]| [x + out * x.signum(), y + out * y.signum(), up];
    let places: Vec<Place> = corners.flat_map(|corner| cut.map(|cut| at(corner, cut))).collect();
    let cell = cells::grid(around, 4, false);
    let first = cell.first_flag().expect("a closed cell").to_vec();
    Asked::new(&cell, &first, &places)
}

/// A ring has a hole: what counts is the rhombus around less the rhombus within, and that times its height.
#[test]
fn rings() {
    for far in [11, 100, 990] {
        let rhombus = |half: i32| 2.0 * f64::from(half) * f64::from(half);
        let six = 6.0 * 20.0 * (rhombus(far + 10) - rhombus(far - 10));
        each(|library| assert_eq!(ring(4, far).six(library).abs(), six));
        each(|library| assert_eq!(ring(8, far).six(library).abs(), six));
    }
}

/// Orientable cells of rank 4 with their vertices at any places, near the middle.
fn drawn(random: &mut Random) -> Vec<Asked> {
    let prism = |n| cells::product(Kind::Duoprism, &Listing::dyad(), &cells::polygon(n));
    let (cube, hollow) = (cells::cuboid(3), cells::side_by_side(&cells::cuboid(3), &cells::grid(3, 4, false), false));
    let kept = [cells::simplex(4), cells::cross(3), cells::merged_cube(), prism(7), hollow];
    let made = [cells::digonal(4), cells::grid(3, 5, false), cells::joined(4), cells::joined(5), cube];
    let mut asked = vec![];
    for cell in kept.into_iter().chain(made) {
        let cell = cells::reordered(&cell, random);
        let mut place = || [0; 3].map(|_| random.below(1001) as i32 - 500);
        let places: Vec<Place> = (0..cell.vertex_count()).map(|_| place()).collect();
        let first = random.pick(&cells::flags(&cell, 1000)).clone();
        asked.push(Asked::new(&cell, &first, &places));
    }
    asked
}

/// What has to hold of every cell: moved, it has the same volume; seen in a mirror, or from the first flag changed
/// once, the opposite one, zero apart; the answer is whole. And more than half of these volumes are not zero.
#[test]
fn moved_mirrored_and_changed() {
    let mut random = Random::new(1);
    let asked: Vec<Asked> = (0..20).flat_map(|_| drawn(&mut random)).collect();
    let by = [0; 3].map(|_| random.below(1001) as i32 - 500).map(f64::from);
    let changed = |asked: &Asked, map: &dyn Fn(usize, f64) -> f64| {
        asked.with_coordinates(asked.coordinates.iter().enumerate().map(|(i, &x)| map(i % 3, x)).collect())
    };
    // The model adds up in integers of 128 bits, and the archive gives the same bits.
    for asked in &asked {
        assert_eq!(asked.answer(&Archive), asked.answer(&Model::default()));
    }
    each(|library| {
        let mut not_zero = 0;
        for asked in &asked {
            let six = asked.six(library);
            assert_eq!(six.fract(), 0.0);
            not_zero += usize::from(six != 0.0);
            changed(asked, &|axis, x| x + by[axis]).is(library, six);
            for mirrored in 0..3 {
                changed(asked, &|axis, x| if axis == mirrored { -x } else { x }).is(library, 0.0 - six);
            }
            for r in 1..=3 {
                let first = library.change(asked.cell.slices(), &asked.first, r).flag[..5].to_vec();
                Asked { first, ..asked.clone() }.is(library, 0.0 - six);
            }
        }
        assert!(not_zero > asked.len() / 2);
    });
}

/// A grid whose vertices lie at the corners of a tetrahedron, as far out as they may be, so that nearly all
/// determinants that are not 0 are 4,000,000,000: a sum that 32 bits do not hold.
#[test]
fn far_out() {
    let corners = [[[1, 1, 1], [1, -1, -1]], [[-1, 1, -1], [-1, -1, 1]]];
    let at = |i: usize, j: usize| corners[i % 2][(i + j) % 2].map(|x: i32| 1000 * x);
    let places: Vec<Place> = (0..30).flat_map(|i| (0..34).map(move |j| at(i, j))).collect();
    let cell = cells::grid(30, 34, false);
    let first = cell.first_flag().expect("a closed cell");
    each(|library| {
        let six = Asked::new(&cell, &first, &places).six(library);
        assert!(six.abs() > 7e12 && six % 4e9 == 0.0, "{six}");
    });
}

/// About as many flags as a cell of rank 4 can have. Vertex 0 lies in each of its faces, so that all determinants
/// cancel each other: a zero, whatever the places.
#[test]
fn many_flags() {
    let cell = cells::joined(62);
    let first = cell.first_flag().expect("a closed cell");
    let mut random = Random::new(2);
    let places: Vec<Place> = (0..124).map(|_| [0; 3].map(|_| random.below(2001) as i32 - 1000)).collect();
    let asked = Asked::new(&cell, &first, &places);
    each(|library| {
        asked.is(library, 0.0);
        asked.clone().with_room(15_376).is(library, 0.0);
        asked.clone().with_room(15_375).is_refused(library, 22);
    });
}
