//! Texts whose answers are known, and the texts of cells, read and written; asked of the model and of the archive.

use flumedrac::ffi::Answer;
use flumedrac::{Listing, Refusal, Slices, MAX_TEXT};
use flumedrac_trial::cell_texts::{point, text, to_try};
use flumedrac_trial::{cells, with_room, Archive, Kind, Library, Model, Raw, Test};

fn each(check: impl Fn(&dyn Library)) {
    check(&Model::default());
    check(&Archive);
}

#[test]
fn known_answers() {
    each(|library| {
        for known in to_try() {
            let (answer, read) = with_room(|outputs| library.read_text(&known.text, outputs));
            let start = known.text[..known.text.len().min(60)].escape_ascii();
            assert_eq!((answer.no, library.check_text(&known.text)), (known.read, known.check), "{start}");
            assert_eq!([answer.a, answer.b, answer.c, answer.d], [0; 4], "{start}");
            assert!(known.read == 0 || read == Raw::default(), "{start}");
        }
    });
}

/// The point's slices, and what a sub makes that does not exist.
#[test]
fn listings_read() {
    each(|library| {
        let read = |last: &str| with_room(|outputs| library.read_text(point(last).as_bytes(), outputs)).1;
        assert_eq!(read("subs=0\n"), Raw::from(Listing::point()));
        let missing = Raw { counts: vec![1, 1], ends: vec![0, 0, 1, 1], inc: vec![5] };
        assert_eq!(read("subs=5\n"), missing);
        let twice = Raw { counts: vec![1, 1], ends: vec![0, 2, 5, 5], inc: vec![0, 0, 0, 5, 0] };
        assert_eq!(read("subs=0,5,0\n"), twice);
    });
}

/// Slices that are too short are refused after the whole text, and left as they were.
#[test]
fn short_slices() {
    each(|library| {
        for (last, no) in [("subs=0\n", 36), ("subs=0\nz", 43), ("subs=0", 41)] {
            for lengths in [[1, 4, 2], [2, 3, 2], [2, 4, 1], [0, 0, 0]] {
                let mut slices = lengths.map(|length| vec![7; length]);
                let outputs = slices.each_mut().map(Vec::as_mut_slice);
                let built = library.read_text(point(last).as_bytes(), outputs);
                assert_eq!((built.answer.no, built.counts, built.ends, built.inc), (no, 0, 0, 0));
                assert_eq!(slices, lengths.map(|length| vec![7; length]));
            }
        }
    });
}

/// The parser that is measured beside the library reads and refuses the same.
#[test]
fn plain_parser() {
    for known in to_try() {
        let (answer, Raw { counts, ends, inc }) = with_room(|outputs| Archive.read_text(&known.text, outputs));
        let read = if answer.no == 0 { Ok([counts, ends, inc]) } else { Err(answer.no) };
        assert_eq!(plain_parser::read(&known.text), read);
    }
}

/// The text of a cell is read as the cell, also where it is as large as the limits allow.
#[test]
fn cells_go_round() {
    let prism = |n, m| cells::product(Kind::Duoprism, &cells::polygon(n), &cells::polygon(m));
    let small = [Listing::nullitope(), Listing::point(), Listing::dyad(), cells::polygon(3), cells::hemicube()];
    let large = [cells::cuboid(5), cells::grid(7, 9, true), cells::digonal(15), cells::polygon(2047), prism(27, 27)];
    each(|library| {
        for cell in small.iter().chain(&large) {
            let text = text(cell.slices());
            assert!(text.len() <= MAX_TEXT);
            let (answer, read) = with_room(|outputs| library.read_text(&text, outputs));
            assert_eq!((answer.no, read), (0, cell.clone().into()));
            assert_eq!(library.check_text(&text), 0);
        }
    });
}

/// What stands in bytes before a text is written there.
const BEFORE: u8 = 7;

/// What is written of a listing into so many bytes: the answer, the length, and all bytes afterwards.
fn written(library: &dyn Library, cell: Slices<'_>, room: usize) -> (Answer, usize, Vec<u8>) {
    let mut bytes = vec![BEFORE; room];
    let written = library.write_text(cell, &mut bytes);
    (written.answer, written.length, bytes)
}

/// A text is written in front of so many bytes, and those behind it are as they were.
fn is_written(library: &dyn Library, cell: Slices<'_>, room: usize) {
    let text = text(cell);
    let behind = vec![BEFORE; room - text.len()];
    assert_eq!(written(library, cell, room), (Answer::default(), text.len(), [text, behind].concat()));
}

/// Nothing is written into so many bytes, but this is answered.
fn is_refused(library: &dyn Library, cell: Slices<'_>, room: usize, answer: Answer) {
    assert_eq!(written(library, cell, room), (answer, 0, vec![BEFORE; room]));
}

fn number(no: u16) -> Answer {
    Answer { no, ..Answer::default() }
}

fn of_polygons(kind: Kind, n: u16, m: u16) -> Listing {
    cells::product(kind, &cells::polygon(n), &cells::polygon(m))
}

/// Cells with the lengths of their texts; each is written where it fits, and refused where it does not or is too long.
#[test]
fn known_lengths() {
    let (prism, pyramid) = (Kind::Duoprism, Kind::Duopyramid);
    let [just, over] = cells::at_text_limit();
    let lengths = [
        (Listing::nullitope(), 21),
        (Listing::point(), 36),
        (Listing::dyad(), 60),
        (of_polygons(prism, 29, 29), 61_208),
        (of_polygons(prism, 28, 32), 65_430),
        (just, 65_536),
        (over, 65_537),
        (of_polygons(pyramid, 25, 31), 65_587),
        (of_polygons(pyramid, 31, 31), 82_859),
    ];
    each(|library| {
        for (cell, length) in &lengths {
            let cell = cell.slices();
            assert_eq!(text(cell).len(), *length);
            for room in [0, 10, length - 1] {
                is_refused(library, cell, room, number(44));
            }
            for room in [*length, length + 1, 131_072] {
                match *length <= MAX_TEXT {
                    true => is_written(library, cell, room),
                    false => is_refused(library, cell, room, number(42)),
                }
            }
        }
    });
}

/// What is not closed is refused as such, with its place, whatever the room; and no byte is written.
#[test]
fn not_closed() {
    each(|library| {
        for (cell, answer) in cells::not_closed() {
            for room in [0, 1, 36, 1000] {
                is_refused(library, cell.slices(), room, answer);
            }
        }
    });
}

/// Every listing of so many vertices, edges and so on, with the ends, sups as they follow from subs.
fn small_listings(sizes: &[u32]) -> impl Iterator<Item = Listing> + '_ {
    let bits: u32 = sizes.windows(2).map(|two| two[0] * two[1]).sum();
    (0..1u32 << bits).map(move |mut relation| {
        let mut subs = vec![vec![vec![]], vec![vec![0]; sizes[0] as usize]];
        for two in sizes.windows(2) {
            let mut element = || {
                let list = (0..two[0]).filter(|i| relation >> i & 1 == 1).map(|i| i as u16).collect();
                relation >>= two[0];
                list
            };
            subs.push((0..two[1]).map(|_| element()).collect());
        }
        subs.push(vec![(0..sizes[sizes.len() - 1] as u16).collect()]);
        cells::listing(subs)
    })
}

/// A closed cell is written, and what was written is read as the cell; from any other the closed test keeps it.
fn goes_round(library: &dyn Library, cell: &Listing) -> bool {
    let answer = library.test(Test::Closed, cell.slices());
    if answer.no != 0 {
        is_refused(library, cell.slices(), 500, answer);
        return false;
    }
    let (_, length, bytes) = written(library, cell.slices(), MAX_TEXT);
    assert_eq!(bytes[..length], text(cell.slices()));
    let (answer, read) = with_room(|outputs| library.read_text(&bytes[..length], outputs));
    assert_eq!((answer.no, read), (0, cell.clone().into()));
    true
}

#[test]
fn small_cells_go_round() {
    let sizes: [&[u32]; 9] = [&[1], &[2], &[3], &[2, 2], &[3, 3], &[4, 4], &[2, 2, 2], &[3, 3, 2], &[2, 2, 2, 2]];
    each(|library| {
        let closed = |sizes: &&[u32]| small_listings(sizes).filter(|cell| goes_round(library, cell)).count();
        // A dyad; a digon, a triangle in six orders, a square in 72 and two digons in 18; and so on upward.
        assert_eq!(sizes.iter().map(closed).collect::<Vec<_>>(), [0, 1, 0, 1, 6, 90, 1, 6, 1]);
    });
}

#[test]
fn products_go_round() {
    let (nullitope, point, dyad) = (Listing::nullitope(), Listing::point(), Listing::dyad());
    let polygons = [2, 3, 4, 11].map(cells::polygon);
    let larger = [cells::digonal(4), cells::simplex(4), cells::cuboid(3), cells::hemicube(), cells::grid(2, 3, true)];
    let factors: Vec<Listing> = [nullitope, point, dyad].into_iter().chain(polygons).chain(larger).collect();
    let pairs = factors.iter().flat_map(|p| factors.iter().map(move |q| (p, q)));
    let product = |(p, q)| Kind::ALL.into_iter().filter_map(move |kind| cells::try_product(kind, p, q));
    let products: Vec<Listing> = pairs.flat_map(product).collect();
    each(|library| {
        let closed = products.iter().filter(|cell| goes_round(library, cell)).count();
        assert!(closed > 500, "of {} products, {closed} are closed", products.len());
    });
}

/// A text that is read is written again as it was, if its listing is closed: every text to try.
#[test]
fn texts_go_round() {
    each(|library| {
        for known in to_try().into_iter().filter(|known| known.read == 0) {
            let (_, read) = with_room(|outputs| library.read_text(&known.text, outputs));
            let (answer, length, bytes) = written(library, read.slices(), known.text.len());
            assert_eq!(answer.no, known.check);
            assert!(answer.no != 0 || bytes[..length] == known.text);
        }
    });
}

/// The writer that is measured beside the library writes the same.
#[test]
fn plain_writer() {
    for cell in [Listing::nullitope(), cells::cuboid(4), cells::polygon(2047), of_polygons(Kind::Duoprism, 28, 32)] {
        assert_eq!(plain_parser::write(cell.slices()), text(cell.slices()));
    }
}

/// The wrapper lends room for any text of the listing, so that what is too long is said to be.
#[test]
fn wrapper_has_room() {
    let [just, over] = cells::at_text_limit();
    assert_eq!(just.write_text().map(String::into_bytes), Ok(text(just.slices())));
    assert_eq!(over.write_text(), Err(Refusal::LongText));
    assert_eq!(of_polygons(Kind::Duopyramid, 31, 31).write_text(), Err(Refusal::LongText));
}
