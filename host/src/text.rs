//! Questions and replies as lines of text, written and read.

use std::fmt::{self, Display, Write};

use crate::library::{Kind, Test};
use crate::question::{Question, Reply};
use crate::Raw;

/// Numbers in brackets.
struct List<'a>(&'a [u16]);

/// Slices of a reply that are longer are written as a digest.
const LONGEST: usize = 300;

/// A slice of a reply: its numbers in brackets or, if it is long, its length, its sum and its check number in braces.
struct Digest<'a>(&'a [u16]);

/// The check number of a list: c := (257 c + x + 1) mod 4294967291, from 0, over its numbers x in order.
fn check_number(list: &[u16]) -> u64 {
    list.iter().fold(0, |c, &x| (257 * c + u64::from(x) + 1) % 4_294_967_291)
}

impl Display for Digest<'_> {
    fn fmt(&self, f: &mut fmt::Formatter<'_>) -> fmt::Result {
        if self.0.len() <= LONGEST {
            return write!(f, "{}", List(self.0));
        }
        let sum: u64 = self.0.iter().map(|&x| u64::from(x)).sum();
        write!(f, "{{{} {sum} {}}}", self.0.len(), check_number(self.0))
    }
}

impl Display for List<'_> {
    fn fmt(&self, f: &mut fmt::Formatter<'_>) -> fmt::Result {
        f.write_char('[')?;
        for (i, x) in self.0.iter().enumerate() {
            write!(f, "{}{x}", if i == 0 { "" } else { " " })?;
        }
        f.write_char(']')
    }
}

/// Coordinates in brackets, each as one number: metres from -2,000 to 2,000 with 2,000 added, or 4,001 and on for
/// others that are worth a number. All that have none are an x and their bits; the program `replay` knows no such.
struct Coordinates<'a>(&'a [f64]);

/// What is added to metres; the number of the first of the others, and these.
const ADDED: f64 = 2000.0;
const FIRST_OTHER: u16 = 4001;
const OTHERS: [f64; 5] = [f64::NAN, f64::INFINITY, f64::NEG_INFINITY, 0.5, -0.0];

/// The coordinate that a number stands for, if there is one.
fn coordinate(number: u16) -> Option<f64> {
    match number.checked_sub(FIRST_OTHER) {
        None => Some(f64::from(number) - ADDED),
        Some(other) => OTHERS.get(usize::from(other)).copied(),
    }
}

/// A coordinate as it is written in a list.
fn written_coordinate(x: f64) -> String {
    let near = (x + ADDED) as u16;
    let stands_for = |number: &u16| coordinate(*number).map(f64::to_bits) == Some(x.to_bits());
    let number = [near].into_iter().chain(FIRST_OTHER..).take(1 + OTHERS.len()).find(stands_for);
    number.map_or(format!("x{:016x}", x.to_bits()), |number| number.to_string())
}

/// A coordinate read from a list.
fn read_coordinate(item: &str) -> Option<f64> {
    match item.strip_prefix('x') {
        Some(bits) => u64::from_str_radix(bits, 16).ok().map(f64::from_bits),
        None => coordinate(item.parse().ok()?),
    }
}

impl Display for Coordinates<'_> {
    fn fmt(&self, f: &mut fmt::Formatter<'_>) -> fmt::Result {
        let written: Vec<String> = self.0.iter().map(|&x| written_coordinate(x)).collect();
        write!(f, "[{}]", written.join(" "))
    }
}

/// Bytes in quotes, escaped as in Rust. The program `replay` knows `\n` alone: there, other bytes stand for themselves.
struct Quoted<'a>(&'a [u8]);

impl Display for Quoted<'_> {
    fn fmt(&self, f: &mut fmt::Formatter<'_>) -> fmt::Result {
        write!(f, "\"{}\"", self.0.escape_ascii())
    }
}

impl Display for Raw {
    fn fmt(&self, f: &mut fmt::Formatter<'_>) -> fmt::Result {
        write!(f, "{} {} {}", List(&self.counts), List(&self.ends), List(&self.inc))
    }
}

impl<L: AsRef<Raw>> Display for Question<L> {
    fn fmt(&self, f: &mut fmt::Formatter<'_>) -> fmt::Result {
        write!(f, "{} ", self.name())?;
        match self {
            Question::Rank(counts) | Question::VertexCount(counts) | Question::FacetCount(counts) => {
                write!(f, "{}", List(counts))
            }
            Question::ElCount(counts, rank) => write!(f, "{} {rank}", List(counts)),
            Question::Class(no) => write!(f, "{no}"),
            Question::Sign(byte) => write!(f, "{byte}"),
            Question::NextEvent(at, count, place) => write!(f, "{at} {count} {place}"),
            Question::Test(_, cell) => write!(f, "{}", cell.as_ref()),
            Question::Change { cell, flag, r } => write!(f, "{} {} {r}", cell.as_ref(), List(flag)),
            Question::Search { cell, first, mask, table, orientations } => {
                write!(f, "{} {} {mask} {table} {orientations}", cell.as_ref(), List(first))
            }
            Question::OneBody { cell, table, orientations } => write!(f, "{} {table} {orientations}", cell.as_ref()),
            Question::SixVolume { cell, first, coordinates, table, orientations } => {
                let (cell, first, coordinates) = (cell.as_ref(), List(first), Coordinates(coordinates));
                write!(f, "{cell} {first} {coordinates} {table} {orientations}")
            }
            Question::Events { cell, first, mask } => write!(f, "{} {} {mask}", cell.as_ref(), List(first)),
            Question::Product { p, q, room: [counts, ends, inc], .. } => {
                write!(f, "{} {} {counts} {ends} {inc}", p.as_ref(), q.as_ref())
            }
            Question::Dual { cell, room: [counts, ends, inc] } => {
                write!(f, "{} {counts} {ends} {inc}", cell.as_ref())
            }
            Question::ReadText { text, room: [counts, ends, inc] } => {
                write!(f, "{} {counts} {ends} {inc}", Quoted(text))
            }
            Question::CheckText(text) => write!(f, "{}", Quoted(text)),
            Question::WriteText { cell, room } => write!(f, "{} {room}", cell.as_ref()),
        }
    }
}

impl Display for Reply {
    fn fmt(&self, f: &mut fmt::Formatter<'_>) -> fmt::Result {
        let numbers: Vec<String> = self.numbers.iter().map(i64::to_string).collect();
        write!(f, "{}", numbers.join(" "))?;
        for slice in &self.slices {
            write!(f, " {}", Digest(slice))?;
        }
        if self.spilled {
            write!(f, " and wrote outside the slices")?;
        }
        Ok(())
    }
}

/// The words of a line: numbers and numbers in brackets; and bytes in quotes.
struct Words<'a>(&'a str);

impl<'a> Words<'a> {
    fn word(&mut self) -> Option<&'a str> {
        let rest = self.0.trim_start();
        let end = match rest.chars().next() {
            Some('[') => rest.find(']')? + 1,
            _ => rest.find(' ').unwrap_or(rest.len()),
        };
        self.0 = &rest[end..];
        (end > 0).then_some(&rest[..end])
    }

    fn number<T: std::str::FromStr>(&mut self) -> Option<T> {
        self.word()?.parse().ok()
    }

    /// What stands in brackets, where `5*3` stands for `5 5 5`.
    fn items<T: Clone>(&mut self, read: impl Fn(&str) -> Option<T>) -> Option<Vec<T>> {
        let inside = self.word()?.strip_prefix('[')?.strip_suffix(']')?;
        let mut list = vec![];
        for item in inside.split_whitespace() {
            let (number, times) = item.split_once('*').unwrap_or((item, "1"));
            list.extend(std::iter::repeat_n(read(number)?, times.parse().ok()?));
        }
        Some(list)
    }

    /// Numbers in brackets.
    fn list(&mut self) -> Option<Vec<u16>> {
        self.items(|number| number.parse().ok())
    }

    fn raw(&mut self) -> Option<Raw> {
        Some(Raw { counts: self.list()?, ends: self.list()?, inc: self.list()? })
    }

    /// Bytes in quotes: pieces one after another, where `"x"*3` stands for `"xxx"`.
    fn bytes(&mut self) -> Option<Vec<u8>> {
        self.0 = self.0.trim_start();
        let mut bytes = self.piece()?;
        while self.0.starts_with('"') {
            bytes.extend(self.piece()?);
        }
        Some(bytes)
    }

    /// A piece in quotes, as often as the number after a star says.
    fn piece(&mut self) -> Option<Vec<u8>> {
        let (inside, rest) = self.0.split_at(quote_end(self.0)?);
        self.0 = rest;
        let piece = unescaped(inside.strip_prefix('"')?.strip_suffix('"')?)?;
        let Some(rest) = self.0.strip_prefix('*') else { return Some(piece) };
        let digits = rest.bytes().take_while(u8::is_ascii_digit).count();
        self.0 = &rest[digits..];
        Some(piece.repeat(rest[..digits].parse().ok()?))
    }

    fn room(&mut self) -> Option<[usize; 3]> {
        Some([self.number()?, self.number()?, self.number()?])
    }
}

/// Where the quotes end that a line begins with: at the first quote that is not escaped.
fn quote_end(line: &str) -> Option<usize> {
    let mut bytes = line.bytes().enumerate().skip(1);
    loop {
        match bytes.next()? {
            (at, b'"') => return Some(at + 1),
            (_, b'\\') => drop(bytes.next()?),
            _ => {}
        }
    }
}

/// The bytes that a piece stands for.
fn unescaped(piece: &str) -> Option<Vec<u8>> {
    let mut inside = piece.bytes();
    let mut bytes = vec![];
    while let Some(byte) = inside.next() {
        bytes.push(if byte == b'\\' { escaped(&mut inside)? } else { byte });
    }
    Some(bytes)
}

/// The byte that is escaped by these, a backslash before them.
fn escaped(bytes: &mut impl Iterator<Item = u8>) -> Option<u8> {
    let digit = |byte: u8| char::from(byte).to_digit(16);
    Some(match bytes.next()? {
        b'n' => b'\n',
        b'r' => b'\r',
        b't' => b'\t',
        b'x' => (16 * digit(bytes.next()?)? + digit(bytes.next()?)?) as u8,
        itself => itself,
    })
}

impl AsRef<Raw> for Raw {
    fn as_ref(&self) -> &Raw {
        self
    }
}

impl Question<Raw> {
    /// Reads what `Display` writes.
    pub fn read(text: &str) -> Option<Self> {
        let mut words = Words(text);
        let name = words.word()?;
        let question = match name {
            "rank" => Question::Rank(words.list()?),
            "el_count" => Question::ElCount(words.list()?, words.number()?),
            "vertex_count" => Question::VertexCount(words.list()?),
            "facet_count" => Question::FacetCount(words.list()?),
            "class" => Question::Class(words.number()?),
            "sign" => Question::Sign(words.number()?),
            "next_event" => Question::NextEvent(words.number()?, words.number()?, words.number()?),
            "change" => Question::Change { cell: words.raw()?, flag: words.list()?, r: words.number()? },
            "search" => Question::Search {
                cell: words.raw()?,
                first: words.list()?,
                mask: words.number()?,
                table: words.number()?,
                orientations: words.number()?,
            },
            "one_body" => {
                Question::OneBody { cell: words.raw()?, table: words.number()?, orientations: words.number()? }
            }
            "six_volume" => Question::SixVolume {
                cell: words.raw()?,
                first: words.list()?,
                coordinates: words.items(read_coordinate)?,
                table: words.number()?,
                orientations: words.number()?,
            },
            "events" => Question::Events { cell: words.raw()?, first: words.list()?, mask: words.number()? },
            "dual" => Question::Dual { cell: words.raw()?, room: words.room()? },
            "read_text" => Question::ReadText { text: words.bytes()?, room: words.room()? },
            "check_text" => Question::CheckText(words.bytes()?),
            "write_text" => Question::WriteText { cell: words.raw()?, room: words.number()? },
            _ => match (Test::ALL.iter().find(|t| t.name() == name), Kind::ALL.iter().find(|k| k.name() == name)) {
                (Some(test), _) => Question::Test(*test, words.raw()?),
                (_, Some(kind)) => {
                    Question::Product { kind: *kind, p: words.raw()?, q: words.raw()?, room: words.room()? }
                }
                _ => return None,
            },
        };
        words.0.trim().is_empty().then_some(question)
    }
}

impl Reply {
    /// Reads what `Display` writes.
    pub fn read(text: &str) -> Option<Self> {
        let mut words = Words(text);
        let mut reply = Reply::default();
        while !words.0.trim().is_empty() {
            match words.0.trim_start().starts_with('[') {
                true => reply.slices.push(words.list()?),
                false => reply.numbers.push(words.number()?),
            }
        }
        Some(reply)
    }
}

#[cfg(test)]
mod tests {
    use super::*;
    use crate::Model;
    use flumedrac::Listing;

    /// Questions and replies are read as they were written.
    #[test]
    fn text_goes_round() {
        let cell = || Raw::from(Listing::polygon(3).unwrap());
        let questions = [
            Question::ElCount(vec![1, 2, 1], 1),
            Question::NextEvent(0, 3, 2),
            Question::Test(Test::Closed, cell()),
            Question::Change { cell: cell(), flag: vec![0; 4], r: 1 },
            Question::Search { cell: cell(), first: vec![0; 4], mask: 6, table: 25, orientations: 7 },
            Question::OneBody { cell: cell(), table: 25, orientations: 7 },
            Question::SixVolume {
                cell: cell(),
                first: vec![0; 4],
                coordinates: vec![0.0; 9],
                table: 25,
                orientations: 7,
            },
            Question::Events { cell: cell(), first: vec![0; 4], mask: 6 },
            Question::Product { kind: Kind::Duoprism, p: cell(), q: Raw::default(), room: [0, 1, 2] },
            Question::Dual { cell: cell(), room: [4, 16, 23] },
            Question::Dual { cell: cell(), room: [4, 17, 24] },
            Question::ReadText { text: b"rank=0\ncount=1\nsubs=\n".to_vec(), room: [1, 2, 0] },
            Question::CheckText((0..=255).chain(*b"\\x41 \"\n\"").collect()),
            Question::WriteText { cell: cell(), room: 100 },
        ];
        for question in questions {
            let text = question.to_string();
            let reply = question.ask(&Model::default());
            let read = Question::read(&text).expect("a question");
            assert_eq!(read.to_string(), text);
            assert_eq!(read.ask(&Model::default()), reply);
            assert_eq!(Reply::read(&reply.to_string()), Some(reply));
        }
        let metres = "six_volume [1] [0 0] [] [0] [0 1999 2000*2 4000 4001 4002 4003 4004 4005 x40a0010000000000] 1 1";
        let Some(Question::SixVolume { coordinates, .. }) = Question::read(metres) else { panic!("no question") };
        let expected = [-2000.0, -1.0, 0.0, 0.0, 2000.0, f64::NAN, f64::INFINITY, f64::NEG_INFINITY, 0.5, -0.0, 2048.5];
        assert_eq!(coordinates.iter().map(|x| x.to_bits()).collect::<Vec<_>>(), expected.map(f64::to_bits));
        assert_eq!(Question::read(metres).unwrap().to_string(), metres.replace("2000*2", "2000 2000"));
        for bad in ["4006", "-1", "65535", "0.5", "x", "nan"] {
            assert!(Question::read(&format!("six_volume [1] [0 0] [] [0] [{bad}] 1 1")).is_none(), "{bad}");
        }
        let pieces = Question::read(r#"check_text "a"*2"\n"" b"*0"c""#).expect("a text in pieces");
        assert_eq!(pieces.to_string(), r#"check_text "aa\nc""#);
        assert!(Question::read(r#"check_text "a"*b"#).is_none());
        assert!(Question::read("closed [1] [0 0]").is_none());
        assert!(Question::read("rank [1] 2").is_none());
        assert!(Question::read(r#"check_text "rank=\""#).is_none());
    }
}
