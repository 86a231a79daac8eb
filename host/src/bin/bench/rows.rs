//! What is measured: a row for each piece of work, in nine groups.

use std::hint::black_box;

use flumedrac::{Listing, Slices, MAX_FLAGS, MAX_TEXT};
use flumedrac_trial::{cell_texts, cells, Kind, Library, Model, Test, ALL_ROOM};

use crate::partner::Pair;
use crate::rust;
use crate::times::{Summary, Times, Work};

/// Some work: ours, the closed test alone if the work includes it, the Rust's or what stands in its place, and the
/// seconds that the pair said, the earlier archive's and ours.
pub struct Row<'a> {
    pub name: String,
    ours: Times<'a>,
    closed: Option<Times<'a>>,
    rust: Option<Times<'a>>,
    pairs: Vec<(f64, f64)>,
}

/// What was measured of a row.
pub struct Measured {
    pub ours: Summary,
    pub closed: Option<Summary>,
    pub rust: Option<Summary>,
    pub pair: Option<PairTimes>,
}

/// The times of the earlier archive and of ours, both as a partner took them.
#[derive(Clone, Copy)]
pub struct PairTimes {
    pub before: Summary,
    pub ours: Summary,
}

impl Row<'_> {
    /// Each side once, and the pair, if there is one; who comes first is for the caller to change from run to run.
    pub fn measure(&mut self, ours_first: bool, pair: &mut Option<Pair>) -> Result<(), String> {
        if ours_first {
            self.ours.measure();
        }
        self.rust.iter_mut().for_each(Times::measure);
        self.closed.iter_mut().for_each(Times::measure);
        if !ours_first {
            self.ours.measure();
        }
        if let Some(pair) = pair {
            self.pairs.extend(pair.measure(&self.name, ours_first)?);
        }
        Ok(())
    }

    /// One measurement of ours, in seconds, that is not kept.
    pub fn ours_once(&mut self) -> f64 {
        self.ours.once()
    }

    pub fn measured(&self) -> Measured {
        Measured {
            ours: self.ours.summary(),
            closed: self.closed.as_ref().map(Times::summary),
            rust: self.rust.as_ref().map(Times::summary),
            pair: (!self.pairs.is_empty()).then(|| {
                let (before, ours) = self.pairs.iter().copied().unzip();
                PairTimes { before: Summary::of(before), ours: Summary::of(ours) }
            }),
        }
    }
}

/// Makes the rows of one library.
#[derive(Clone, Copy)]
pub struct Rows<'a>(pub &'a dyn Library);

impl<'a> Rows<'a> {
    fn build(self, name: &str, kind: Kind, p: Listing, q: Listing) -> Row<'a> {
        let rust = rust::product(kind, &p, &q).map(Times::new);
        let mut slices = ALL_ROOM.map(|length| vec![0; length]);
        let ours: Work<'a> = Box::new(move |_| {
            let outputs = slices.each_mut().map(Vec::as_mut_slice);
            assert_eq!(self.0.product(kind, p.slices(), q.slices(), outputs).answer.no, 0);
        });
        Row { name: format!("build {name}"), ours: Times::new(ours), closed: None, rust, pairs: vec![] }
    }

    fn test(self, test: Test, cell: Listing) -> Times<'a> {
        Times::new(Box::new(move |_| assert_eq!(self.0.test(test, black_box(cell.slices())).no, 0)))
    }

    fn valid(self, name: &str, cell: Listing) -> Row<'a> {
        let rust = rust::valid(&cell).map(Times::new);
        let ours = self.test(Test::IsValid, cell);
        Row { name: format!("is_valid of {name}"), ours, closed: None, rust, pairs: vec![] }
    }

    /// A search by all changes of a cell that is orientable and has so many flags.
    fn search(self, name: &str, cell: Listing, flags: usize) -> Row<'a> {
        let first = cell.first_flag().expect("a closed cell has flags");
        let mask = cell.all_changes();
        let mut table = vec![0; MAX_FLAGS * (cell.rank() + 1)];
        let mut orientations = vec![0; MAX_FLAGS];
        let rust = rust::search(&cell, &first, mask, flags).map(Times::new);
        let closed = Some(self.test(Test::Closed, cell.clone()));
        let ours: Work<'a> = Box::new(move |_| {
            let searched = self.0.search(cell.slices(), &first, mask, &mut table, &mut orientations);
            assert_eq!((searched.answer.no, usize::from(searched.count), searched.orientable), (0, flags, 1));
        });
        Row { name: format!("search of {name}, {flags} flags"), ours: Times::new(ours), closed, rust, pairs: vec![] }
    }

    /// A change at a rank of the first flag.
    fn change(self, name: &str, cell: Listing, r: u16) -> Row<'a> {
        let first = cell.first_flag().expect("a closed cell has flags");
        let new = Model::default().change(cell.slices(), &first, r).flag;
        let rust = rust::change(&cell, &first, r, &new).map(Times::new);
        let closed = Some(self.test(Test::Closed, cell.clone()));
        let ours: Work<'a> = Box::new(move |_| {
            let changed = self.0.change(black_box(cell.slices()), &first, r);
            assert_eq!((changed.answer.no, changed.flag), (0, new));
        });
        Row { name: format!("change of {name} at {r}"), ours: Times::new(ours), closed, rust, pairs: vec![] }
    }

    /// The test for one body, and in the Rust's place our own search by every change from the same flag. The answer is
    /// 0 with so many flags, or 22 where they are more than the limit.
    fn body(self, name: &str, cell: Listing, flags: usize) -> Row<'a> {
        let (no, found) = if flags > MAX_FLAGS { (22, 0) } else { (0, flags as u16) };
        let mut table = vec![0; MAX_FLAGS * (cell.rank() + 1)];
        let mut orientations = vec![0; MAX_FLAGS];
        let (mut other_table, mut other_orientations) = (table.clone(), orientations.clone());
        // The test leaves the flag that it begins with.
        self.0.one_body(cell.slices(), &mut table, &mut orientations);
        let (searched, first, mask) = (cell.clone(), table[..=cell.rank()].to_vec(), cell.all_changes());
        let ours: Work<'a> = Box::new(move |_| {
            let body = self.0.one_body(black_box(cell.slices()), &mut table, &mut orientations);
            assert_eq!((body.answer.no, body.count), (no, found));
        });
        let search: Work<'a> = Box::new(move |_| {
            let cell = black_box(searched.slices());
            let search = self.0.search(cell, &first, mask, &mut other_table, &mut other_orientations);
            assert_eq!((search.answer.no, search.count), (no, found));
        });
        let name = format!("one_body of {name}, {flags} flags");
        Row { name, ours: Times::new(ours), closed: None, rust: Some(Times::new(search)), pairs: vec![] }
    }

    /// Six times the volume of an orientable cell of rank 4 that has so many flags, and in the Rust's place our own
    /// search by every change from the same flag. The vertices are scattered.
    fn volume(self, name: &str, cell: Listing, flags: u16) -> Row<'a> {
        let (first, mask) = (cell.first_flag().expect("a closed cell has flags"), cell.all_changes());
        let mut table = vec![0; MAX_FLAGS * (cell.rank() + 1)];
        let mut orientations = vec![0; MAX_FLAGS];
        let (mut other_table, mut other_orientations) = (table.clone(), orientations.clone());
        let (searched, begun) = (cell.clone(), first.clone());
        let place = |v: usize| [617 * v, 1_013 * v + v / 2, 1_499 * v + v / 3].map(|x| (x % 2001) as f64 - 1000.0);
        let coordinates: Vec<f64> = (0..cell.vertex_count()).flat_map(place).collect();
        let six = Model::default().six_volume(cell.slices(), &first, &coordinates, &mut table, &mut orientations);
        assert_eq!(six.no, 0);
        let ours: Work<'a> = Box::new(move |_| {
            let (cell, coordinates) = (black_box(cell.slices()), black_box(&coordinates));
            assert_eq!(self.0.six_volume(cell, &first, coordinates, &mut table, &mut orientations), six);
        });
        let search: Work<'a> = Box::new(move |_| {
            let cell = black_box(searched.slices());
            let search = self.0.search(cell, &begun, mask, &mut other_table, &mut other_orientations);
            assert_eq!((search.answer.no, search.count, search.orientable), (0, flags, 1));
        });
        let name = format!("six_volume of {name}, {flags} flags");
        Row { name, ours: Times::new(ours), closed: None, rust: Some(Times::new(search)), pairs: vec![] }
    }

    /// The text of a cell read: by the library, and by the plain parser.
    fn read(self, name: &str, cell: Listing) -> Row<'a> {
        let text = cell_texts::text(cell.slices());
        let name = format!("read {name}, {} bytes", text.len());
        let rust_read = |text: &[u8]| plain_parser::read(text).expect("a text that can be read");
        assert_eq!(rust_read(&text), <[Vec<u16>; 3]>::from(cell.into_slices()));
        let mut slices = ALL_ROOM.map(|length| vec![0; length]);
        let bytes = text.clone();
        let ours: Work<'a> = Box::new(move |_| {
            let outputs = slices.each_mut().map(Vec::as_mut_slice);
            assert_eq!(self.0.read_text(black_box(&text), outputs).answer.no, 0);
        });
        let rust: Work<'a> = Box::new(move |bin| bin.push(Box::new(rust_read(black_box(&bytes)))));
        Row { name, ours: Times::new(ours), closed: None, rust: Some(Times::new(rust)), pairs: vec![] }
    }

    /// The text of a closed cell tested.
    fn check(self, name: &str, cell: Listing) -> Row<'a> {
        let text = cell_texts::text(cell.slices());
        let ours: Work<'a> = Box::new(move |_| assert_eq!(self.0.check_text(black_box(&text)), 0));
        let closed = Some(self.test(Test::Closed, cell));
        Row { name: format!("check_text of {name}"), ours: Times::new(ours), closed, rust: None, pairs: vec![] }
    }

    /// Texts: of a usual cell, and of cells of the same kind that become larger, up to about as long as a text can be.
    pub fn texts(self) -> Vec<Row<'a>> {
        let cube = || cells::product(Kind::Duoprism, &cells::polygon(4), &Listing::dyad());
        let prism = |n| {
            let cell = cells::product(Kind::Duoprism, &cells::polygon(n), &cells::polygon(n));
            self.read(&format!("duoprism({n}-gon, {n}-gon)"), cell)
        };
        let usual = [self.read("the box", cube()), self.check("the box", cube())];
        usual.into_iter().chain([11, 15, 21, 29].map(prism)).collect()
    }

    /// The text of a closed cell written into bytes that are there, beside `write!` into a new `Vec`, which asks for no
    /// closed cell; and how long the text is.
    fn write(self, name: &str, cell: Listing) -> (usize, Row<'a>) {
        let text = plain_parser::write(cell.slices());
        let (length, closed) = (text.len(), Some(self.test(Test::Closed, cell.clone())));
        let mut bytes = vec![0; MAX_TEXT];
        assert_eq!(self.0.write_text(cell.slices(), &mut bytes).length, length);
        assert_eq!(bytes[..length], text);
        let other = cell.clone();
        let ours: Work<'a> = Box::new(move |_| {
            assert_eq!(self.0.write_text(black_box(cell.slices()), black_box(&mut bytes)).length, length);
        });
        let rust: Work<'a> = Box::new(move |bin| bin.push(Box::new(plain_parser::write(black_box(other.slices())))));
        let name = format!("write {name}, {length} bytes");
        (length, Row { name, ours: Times::new(ours), closed, rust: Some(Times::new(rust)), pairs: vec![] })
    }

    /// A text read and then written from what was read; beside the plain parser and `write!`.
    fn round(self, name: &str, cell: Listing) -> (usize, Row<'a>) {
        let text = plain_parser::write(cell.slices());
        let (length, closed) = (text.len(), Some(self.test(Test::Closed, cell)));
        let (mut slices, mut bytes) = (ALL_ROOM.map(|length| vec![0; length]), vec![0; MAX_TEXT]);
        let other = text.clone();
        let ours: Work<'a> = Box::new(move |_| {
            let built = self.0.read_text(black_box(&text), slices.each_mut().map(Vec::as_mut_slice));
            let [counts, ends, inc] = &slices;
            let counts = &counts[..built.counts.into()];
            let cell = Slices { counts, ends: &ends[..built.ends.into()], inc: &inc[..built.inc.into()] };
            assert_eq!(self.0.write_text(cell, black_box(&mut bytes)).length, length);
        });
        let rust: Work<'a> = Box::new(move |bin| {
            let [counts, ends, inc] = plain_parser::read(black_box(&other)).expect("a text that can be read");
            bin.push(Box::new(plain_parser::write(Slices { counts: &counts, ends: &ends, inc: &inc })));
        });
        let name = format!("read and write {name}, {length} bytes");
        (length, Row { name, ours: Times::new(ours), closed, rust: Some(Times::new(rust)), pairs: vec![] })
    }

    /// Texts written: of a usual cell, and of cells of the same kind that become larger, up to about as long as a text
    /// can be; then texts read and written. Beside each row stands how many bytes its text has.
    pub fn writing(self) -> Vec<(usize, Row<'a>)> {
        let prism = |n, m| cells::product(Kind::Duoprism, &cells::polygon(n), &cells::polygon(m));
        let name = |n, m| format!("duoprism({n}-gon, {m}-gon)");
        let growing = [(11, 11), (15, 15), (21, 21), (29, 29)];
        let cube = cells::product(Kind::Duoprism, &cells::polygon(4), &Listing::dyad());
        let mut rows = vec![self.write("the box", cube)];
        rows.extend(growing.iter().chain(&[(28, 32)]).map(|&(n, m)| self.write(&name(n, m), prism(n, m))));
        rows.extend(growing.map(|(n, m)| self.round(&name(n, m), prism(n, m))));
        rows
    }

    /// The dual of a closed cell written into slices that are there, beside the Rust's, which takes memory and asks for
    /// no closed cell; and how many incidences there are.
    fn dual(self, name: &str, cell: Listing) -> (usize, Row<'a>) {
        let (rust, closed) = (rust::dual(&cell).map(Times::new), Some(self.test(Test::Closed, cell.clone())));
        let length = cell.slices().inc.len();
        let mut slices = ALL_ROOM.map(|length| vec![0; length]);
        let ours: Work<'a> = Box::new(move |_| {
            let outputs = slices.each_mut().map(Vec::as_mut_slice);
            let built = self.0.dual(black_box(cell.slices()), outputs);
            assert_eq!((built.answer.no, usize::from(built.inc)), (0, length));
        });
        let name = format!("dual of {name}, {length} incidences");
        (length, Row { name, ours: Times::new(ours), closed, rust, pairs: vec![] })
    }

    /// Duals: of usual cells, and of cells of the same kind that become larger, up to one at the limits. Beside each
    /// row stands how many incidences its cell has.
    pub fn duals(self) -> Vec<(usize, Row<'a>)> {
        let prism = |n, m: &Listing| cells::product(Kind::Duoprism, &cells::polygon(n), m);
        let dyad = Listing::dyad();
        let growing = [(6, 6), (11, 11), (21, 21), (31, 32)];
        let of_polygons = |(n, m)| self.dual(&format!("duoprism({n}-gon, {m}-gon)"), prism(n, &cells::polygon(m)));
        let mut rows = vec![
            self.dual("the tetrahedron", cells::simplex(4)),
            self.dual("the box", prism(4, &dyad)),
            self.dual("the hexagonal prism", prism(6, &dyad)),
        ];
        rows.extend(growing.map(of_polygons));
        rows
    }

    /// The test for one body: of usual cells, and of cells at the limits. Of the last one it is refused.
    pub fn bodies(self) -> Vec<Row<'a>> {
        let (polygon, dyad) = (cells::polygon, Listing::dyad());
        let prism = |p: Listing, q: &Listing| cells::product(Kind::Duoprism, &p, q);
        vec![
            self.body("the tetrahedron", cells::simplex(4), 24),
            self.body("the box", prism(polygon(4), &dyad), 48),
            self.body("the hexagonal prism", prism(polygon(6), &dyad), 72),
            self.body("the 4-box", prism(cells::cuboid(3), &dyad), 384),
            self.body("the 682-gonal prism", prism(polygon(682), &dyad), 8_184),
            self.body("the 2047-gon", polygon(2047), 4_094),
            self.body("duoprism(22-gon, 31-gon)", prism(polygon(22), &polygon(31)), 16_368),
            self.body("the digonal listing of rank 15", cells::digonal(15), 16_384),
            self.body("duoprism(31-gon, 32-gon)", prism(polygon(31), &polygon(32)), 23_808),
        ]
    }

    /// Volumes: of usual cells, of a ring of squares, and of cells at the limits.
    pub fn volumes(self) -> Vec<Row<'a>> {
        let prism = |n: u16| cells::product(Kind::Duoprism, &Listing::dyad(), &cells::polygon(n));
        vec![
            self.volume("the tetrahedron", cells::simplex(4), 24),
            self.volume("the box", prism(4), 48),
            self.volume("the hexagonal prism", prism(6), 72),
            self.volume("a ring of 8 by 6 squares", cells::grid(8, 6, false), 384),
            self.volume("a ring of 31 by 33 squares", cells::grid(31, 33, false), 8_184),
            self.volume("the 682-gonal prism", prism(682), 8_184),
            self.volume("62 vertices joined to 62", cells::joined(62), 15_376),
        ]
    }

    /// Cells at the limits of the library.
    pub fn largest(self) -> Vec<Row<'a>> {
        let polygon = cells::polygon;
        let prism = |n, m| cells::product(Kind::Duoprism, &polygon(n), &polygon(m));
        vec![
            self.build("duoprism(31-gon, 32-gon)", Kind::Duoprism, polygon(31), polygon(32)),
            self.build("duopyramid(31-gon, 31-gon)", Kind::Duopyramid, polygon(31), polygon(31)),
            self.build("duocomb(31-gon, 33-gon)", Kind::Duocomb, polygon(31), polygon(33)),
            self.valid("duoprism(31-gon, 32-gon)", prism(31, 32)),
            self.valid("the 2047-gon", polygon(2047)),
            self.search("duoprism(22-gon, 31-gon)", prism(22, 31), 16_368),
            self.search("the digonal listing of rank 15", cells::digonal(15), 16_384),
            self.search("the 2047-gon", polygon(2047), 4_094),
        ]
    }

    /// Cells as grids have them: built, tested and searched.
    pub fn usual(self) -> Vec<Row<'a>> {
        let polygon = cells::polygon;
        let (point, dyad) = (Listing::point(), Listing::dyad());
        let made = [
            ("the tetrahedron", Kind::Duopyramid, polygon(3), point, 24),
            ("the box", Kind::Duoprism, polygon(4), dyad.clone(), 48),
            ("the hexagonal prism", Kind::Duoprism, polygon(6), dyad.clone(), 72),
            ("the 4-box", Kind::Duoprism, cells::cuboid(3), dyad, 384),
        ];
        let rows = |(name, kind, p, q, flags)| {
            let cell = cells::product(kind, &p, &q);
            [self.build(name, kind, p, q), self.valid(name, cell.clone()), self.search(name, cell, flags)]
        };
        made.into_iter().flat_map(rows).collect()
    }

    /// Cells of the same kind that become larger.
    pub fn growth(self) -> Vec<Row<'a>> {
        let prism = |n| {
            let cell = cells::product(Kind::Duoprism, &cells::polygon(n), &cells::polygon(n));
            (format!("duoprism({n}-gon, {n}-gon)"), cell, 24 * usize::from(n) * usize::from(n))
        };
        let ring = |n| (format!("the {n}-gon"), cells::polygon(n), 2 * usize::from(n));
        let rows = |(name, cell, flags): (String, Listing, usize)| {
            let name = format!("{name}, {} incidences", cell.slices().inc.len());
            [self.valid(&name, cell.clone()), self.search(&name, cell, flags)]
        };
        let grown = [3, 6, 13, 26].map(prism).into_iter().chain([255, 511, 1023, 2047].map(ring));
        grown.flat_map(rows).collect()
    }

    /// Changes: of a usual cell, and of one at the limits.
    pub fn changes(self) -> Vec<Row<'a>> {
        let prism = cells::product(Kind::Duoprism, &cells::polygon(22), &cells::polygon(31));
        vec![self.change("the 4-box", cells::cuboid(4), 2), self.change("duoprism(22-gon, 31-gon)", prism, 2)]
    }

    /// The rows of all groups, those that came later last: so an earlier program makes the others in the same order.
    pub fn all(self) -> Vec<Row<'a>> {
        let groups = [self.usual(), self.largest(), self.growth(), self.texts(), self.bodies(), self.volumes()];
        let [written, duals] =
            [self.writing(), self.duals()].map(|group| group.into_iter().map(|(_, row)| row).collect());
        groups.into_iter().chain([self.changes(), written, duals]).flatten().collect()
    }
}
