//! One question to a library, and its reply.

use flumedrac::ffi::{Answer, Built, Cursor, Number, Searched, Volume, Written};
use flumedrac::{MAX_FLAGS, MAX_RANKS};

use crate::library::{Kind, Library, Outputs, Test};
use crate::Raw;

/// What is asked. `L` is a listing, or what holds one.
#[derive(Clone, Debug)]
pub enum Question<L> {
    /// The four counts; the second also has its rank.
    Rank(Vec<u16>),
    ElCount(Vec<u16>, usize),
    VertexCount(Vec<u16>),
    FacetCount(Vec<u16>),
    Class(u16),
    Sign(u8),
    /// The next event for a cursor, a count and a place.
    NextEvent(u32, u16, u16),
    Test(Test, L),
    Change {
        cell: L,
        flag: Vec<u16>,
        r: u16,
    },
    /// A search, with the lengths of the table and of the orientations.
    Search {
        cell: L,
        first: Vec<u16>,
        mask: u16,
        table: usize,
        orientations: usize,
    },
    /// Whether a cell is one body, with the lengths of the table and of the orientations.
    OneBody {
        cell: L,
        table: usize,
        orientations: usize,
    },
    /// Six times the volume of a cell, with the lengths of the table and of the orientations.
    SixVolume {
        cell: L,
        first: Vec<u16>,
        coordinates: Vec<f64>,
        table: usize,
        orientations: usize,
    },
    /// The events of a search with all room, by the cursor.
    Events {
        cell: L,
        first: Vec<u16>,
        mask: u16,
    },
    /// A product, with the lengths of the three slices lent.
    Product {
        kind: Kind,
        p: L,
        q: L,
        room: [usize; 3],
    },
    /// The dual of a listing, with the lengths of the three slices lent.
    Dual {
        cell: L,
        room: [usize; 3],
    },
    /// The listing in a text, with the lengths of the three slices lent.
    ReadText {
        text: Vec<u8>,
        room: [usize; 3],
    },
    CheckText(Vec<u8>),
    /// The text of a listing, with the length of the byte slice lent.
    WriteText {
        cell: L,
        room: usize,
    },
}

/// All that a library said: the numbers it returned and the slices it was lent, as they are afterwards.
#[derive(Clone, Debug, Default, PartialEq, Eq)]
pub struct Reply {
    pub numbers: Vec<i64>,
    pub slices: Vec<Vec<u16>>,
    /// Whether anything outside the slices was written.
    pub spilled: bool,
}

/// What stands in a lent slice before a call.
pub const FILL: u16 = 65535;
/// What stands in lent bytes before a call: in orientations, and where a text is to be written.
pub const BYTE_FILL: u8 = 255;

/// How many numbers stand on either side of a lent slice, to see whether it was left. They are odd in number, so that
/// a slice is aligned as its numbers ask and no better.
const MARGIN: usize = 3;

/// A slice to lend, full of one number, with a margin of another on either side.
struct Lent<T>(Vec<T>, T);

impl<T: Copy + PartialEq> Lent<T> {
    fn new(length: usize, fill: T, margin: T) -> Self {
        let mut numbers = vec![margin; length + 2 * MARGIN];
        numbers[MARGIN..][..length].fill(fill);
        Self(numbers, margin)
    }

    fn slice(&mut self) -> &mut [T] {
        let end = self.0.len() - MARGIN;
        &mut self.0[MARGIN..end]
    }

    fn spilled(&self) -> bool {
        let end = self.0.len() - MARGIN;
        self.0[..MARGIN].iter().chain(&self.0[end..]).any(|x| *x != self.1)
    }
}

fn words(length: usize) -> Lent<u16> {
    Lent::new(length, FILL, 0xA5A5)
}

fn bytes(length: usize) -> Lent<u8> {
    Lent::new(length, BYTE_FILL, 0xA5)
}

/// Bytes as numbers of a reply.
pub fn wide(bytes: &[u8]) -> Vec<u16> {
    bytes.iter().map(|&byte| byte.into()).collect()
}

/// The numbers of an answer.
pub fn answer_numbers(answer: Answer) -> Vec<i64> {
    let Answer { no, a, b, c, d } = answer;
    [no, a, b, c, d].map(i64::from).to_vec()
}

/// The numbers of a change, but for the flag: those of its answer, then what was taken out and what was put in.
pub fn changed_numbers(answer: Answer, taken: u16, put: u16) -> Vec<i64> {
    [answer_numbers(answer), [taken, put].map(i64::from).to_vec()].concat()
}

/// The numbers of a volume: a refusal's, and the six-fold volume. One that is -0.0 or not whole is told by a third, its
/// bits, and has 0 in its place.
pub fn volume_numbers(volume: Volume) -> Vec<i64> {
    let whole = volume.six as i64;
    match (whole as f64).to_bits() == volume.six.to_bits() {
        true => vec![volume.no.into(), whole],
        false => vec![volume.no.into(), 0, volume.six.to_bits() as i64],
    }
}

impl Reply {
    pub fn of(numbers: Vec<i64>) -> Self {
        Self { numbers, ..Self::default() }
    }

    fn count(number: Number) -> Self {
        Self::of(vec![number.no.into(), number.value as i64])
    }

    /// The numbers of an answer, and the slices of these lengths that were lent for it: a table and orientations.
    fn lent(table: usize, orientations: usize, ask: impl FnOnce(&mut [u16], &mut [u8]) -> Vec<i64>) -> Self {
        let (mut table, mut orientations) = (words(table), bytes(orientations));
        let numbers = ask(table.slice(), orientations.slice());
        let spilled = table.spilled() || orientations.spilled();
        Reply { numbers, slices: vec![table.slice().to_vec(), wide(orientations.slice())], spilled }
    }

    /// What a search found, and the slices of these lengths that it was lent.
    fn searched(table: usize, orientations: usize, search: impl FnOnce(&mut [u16], &mut [u8]) -> Searched) -> Self {
        Self::lent(table, orientations, |table, odd| {
            let searched = search(table, odd);
            let found = [searched.count, searched.place, searched.orientable.into()].map(i64::from);
            [answer_numbers(searched.answer), found.to_vec()].concat()
        })
    }

    /// The lengths and the slices of a listing that is built in slices of these lengths.
    fn built(room: [usize; 3], build: impl FnOnce(Outputs<'_>) -> Built) -> Self {
        let mut lent = room.map(words);
        let built = build(lent.each_mut().map(Lent::slice));
        let mut numbers = answer_numbers(built.answer);
        numbers.extend([built.counts, built.ends, built.inc].map(i64::from));
        let spilled = lent.iter().any(Lent::spilled);
        Reply { numbers, slices: lent.each_mut().map(|lent| lent.slice().to_vec()).to_vec(), spilled }
    }

    /// The length of a text that is written into so many bytes, and these.
    fn written(room: usize, write: impl FnOnce(&mut [u8]) -> Written) -> Self {
        let mut lent = bytes(room);
        let written = write(lent.slice());
        let numbers = [answer_numbers(written.answer), vec![written.length as i64]].concat();
        let spilled = lent.spilled();
        Reply { numbers, slices: vec![wide(lent.slice())], spilled }
    }
}

impl<L: AsRef<Raw>> Question<L> {
    /// What it is called: the function's name, or `events`.
    pub fn name(&self) -> &'static str {
        match self {
            Question::Rank(_) => "rank",
            Question::ElCount(..) => "el_count",
            Question::VertexCount(_) => "vertex_count",
            Question::FacetCount(_) => "facet_count",
            Question::Class(_) => "class",
            Question::Sign(_) => "sign",
            Question::NextEvent(..) => "next_event",
            Question::Test(test, _) => test.name(),
            Question::Change { .. } => "change",
            Question::Search { .. } => "search",
            Question::OneBody { .. } => "one_body",
            Question::SixVolume { .. } => "six_volume",
            Question::Events { .. } => "events",
            Question::Product { kind, .. } => kind.name(),
            Question::Dual { .. } => "dual",
            Question::ReadText { .. } => "read_text",
            Question::CheckText(_) => "check_text",
            Question::WriteText { .. } => "write_text",
        }
    }

    /// What a library replies.
    pub fn ask(&self, library: &dyn Library) -> Reply {
        match self {
            Question::Rank(counts) => Reply::count(library.rank(counts)),
            Question::ElCount(counts, rank) => Reply::count(library.el_count(counts, *rank)),
            Question::VertexCount(counts) => Reply::count(library.vertex_count(counts)),
            Question::FacetCount(counts) => Reply::count(library.facet_count(counts)),
            Question::Class(no) => Reply::of(vec![library.class(*no).into()]),
            Question::Sign(byte) => Reply::of(vec![sign_number(library.sign(*byte))]),
            Question::NextEvent(at, count, place) => {
                let mut cursor = Cursor { at: *at };
                let event = library.next_event(&mut cursor, *count, *place);
                Reply::of(vec![event.kind.into(), event.flag.into(), cursor.at.into()])
            }
            Question::Test(test, cell) => Reply::of(answer_numbers(library.test(*test, cell.as_ref().slices()))),
            Question::Change { cell, flag, r } => {
                let changed = library.change(cell.as_ref().slices(), flag, *r);
                let numbers = changed_numbers(changed.answer, changed.taken, changed.put);
                Reply { numbers, slices: vec![changed.flag.to_vec()], spilled: false }
            }
            Question::Search { cell, first, mask, table, orientations } => {
                let cell = cell.as_ref().slices();
                Reply::searched(*table, *orientations, |table, odd| library.search(cell, first, *mask, table, odd))
            }
            Question::OneBody { cell, table, orientations } => {
                let cell = cell.as_ref().slices();
                Reply::searched(*table, *orientations, |table, odd| library.one_body(cell, table, odd))
            }
            Question::SixVolume { cell, first, coordinates, table, orientations } => {
                let cell = cell.as_ref().slices();
                let ask = |table: &mut [u16], odd: &mut [u8]| library.six_volume(cell, first, coordinates, table, odd);
                Reply::lent(*table, *orientations, |table, odd| volume_numbers(ask(table, odd)))
            }
            Question::Events { cell, first, mask } => events(library, cell.as_ref(), first, *mask),
            Question::Product { kind, p, q, room } => {
                let (p, q) = (p.as_ref().slices(), q.as_ref().slices());
                Reply::built(*room, |outputs| library.product(*kind, p, q, outputs))
            }
            Question::Dual { cell, room } => {
                Reply::built(*room, |outputs| library.dual(cell.as_ref().slices(), outputs))
            }
            Question::ReadText { text, room } => Reply::built(*room, |outputs| library.read_text(text, outputs)),
            Question::CheckText(text) => Reply::of(vec![library.check_text(text).into()]),
            Question::WriteText { cell, room } => {
                Reply::written(*room, |text| library.write_text(cell.as_ref().slices(), text))
            }
        }
    }
}

/// What a library replies to a line: to a question; after the word `tested`, to a product and then to is_valid and
/// closed of the listing that it wrote, with the counts of that listing; or after the word `written`, to a product and
/// then to write_text of that listing, with room for as many bytes as the last number says.
pub fn reply_to(line: &str, library: &dyn Library) -> Option<Reply> {
    if let Some(product) = line.strip_prefix("tested ") {
        let product = Question::read(product)?.ask(library);
        return Some(product_then(product, |cell| tested(cell, library)));
    }
    if let Some((product, room)) = line.strip_prefix("written ").and_then(|rest| rest.rsplit_once(' ')) {
        let (product, room) = (Question::read(product)?.ask(library), room.parse().ok()?);
        return Some(product_then(product, |cell| Question::WriteText { cell, room }.ask(library)));
    }
    Some(Question::read(line)?.ask(library))
}

/// A product's reply; where it was answered, what is said of the listing that it wrote stands in place of the slices.
fn product_then(product: Reply, say: impl FnOnce(Raw) -> Reply) -> Reply {
    let Reply { numbers, slices, spilled } = product;
    if numbers[0] != 0 {
        return Reply { numbers, slices: vec![], spilled };
    }
    let written: Vec<Vec<u16>> =
        slices.iter().zip(&numbers[5..]).map(|(slice, &length)| slice[..length as usize].to_vec()).collect();
    let [counts, ends, inc] = <[Vec<u16>; 3]>::try_from(written).expect("a product has three slices");
    let said = say(Raw { counts, ends, inc });
    Reply { numbers: [numbers, said.numbers].concat(), slices: said.slices, spilled: spilled || said.spilled }
}

/// What is_valid and closed say of a listing, and its counts.
fn tested(cell: Raw, library: &dyn Library) -> Reply {
    let tests = [Test::IsValid, Test::Closed];
    let numbers = tests.map(|test| answer_numbers(library.test(test, cell.slices()))).concat();
    Reply { numbers, slices: vec![cell.counts], spilled: false }
}

/// 1 or -1 for these two signs, 0 for any other number.
fn sign_number(sign: f64) -> i64 {
    match sign.to_bits() {
        bits if bits == 1f64.to_bits() => 1,
        bits if bits == (-1f64).to_bits() => -1,
        _ => 0,
    }
}

/// The events of a search one by one: orientation and flag of each flag, and an empty slice for "not orientable".
fn events(library: &dyn Library, cell: &Raw, first: &[u16], mask: u16) -> Reply {
    let width = cell.counts.len().clamp(1, MAX_RANKS);
    let mut table = vec![FILL; MAX_FLAGS * width];
    let mut orientations = vec![BYTE_FILL; MAX_FLAGS];
    let searched = library.search(cell.slices(), first, mask, &mut table, &mut orientations);
    let mut reply = Reply::of(answer_numbers(searched.answer));
    let mut cursor = Cursor::default();
    // There is at most one event more than flags: a cursor that does not end is stopped, and seen.
    for _ in 0..=searched.count as usize + 1 {
        let event = library.next_event(&mut cursor, searched.count, searched.place);
        let at = event.flag as usize;
        match event.kind {
            0 => break,
            1 if at < MAX_FLAGS => {
                let flag = &table[at * width..][..width];
                reply.slices.push([&[orientations[at].into()], flag].concat());
            }
            _ => reply.slices.push(vec![]),
        }
    }
    reply
}

#[cfg(test)]
mod tests {
    use super::*;

    /// A write outside the slice is seen.
    #[test]
    fn margins_are_seen() {
        let mut lent = words(3);
        lent.slice().fill(7);
        assert!(!lent.spilled());
        for at in [MARGIN - 1, MARGIN + 3] {
            let mut lent = words(3);
            lent.0[at] = 7;
            assert!(lent.spilled());
        }
    }

    /// No two volumes have the same numbers, though most have two only.
    #[test]
    fn volumes_are_told_apart() {
        let numbers = |six| volume_numbers(Volume { no: 0, six });
        assert_eq!([0.0, -6000.0].map(numbers), [vec![0, 0], vec![0, -6000]]);
        assert_eq!(numbers(-0.0), [0, 0, i64::MIN]);
        let others = [0.5, f64::MIN_POSITIVE, 1e300, f64::NAN, f64::INFINITY];
        assert!(others.map(numbers).iter().zip(others).all(|(told, six)| *told == [0, 0, six.to_bits() as i64]));
    }
}
