//! Texts: their lines, what is refused of them, and the listing in them.

use flumedrac::ffi::{Answer, Built};
use flumedrac::{MAX_ELEMENTS, MAX_INCIDENCES, MAX_RANKS, MAX_TEXT};

use super::{Break, Model};
use crate::library::{with_room, Library, Outputs, Test};

/// The subs of each element of each rank.
type Subs = Vec<Vec<Vec<u16>>>;

impl Model {
    /// The numbers up to the next newline, with commas between them; what is left of the text begins after it.
    fn numbers(&self, left: &mut &[u8]) -> Result<Vec<u16>, u16> {
        let mut numbers = vec![];
        // The number whose digits are being read.
        let mut number: Option<usize> = None;
        loop {
            let Some((&byte, rest)) = left.split_first() else {
                return match number {
                    Some(n) if self.has(Break::RanksEarly) && n >= MAX_RANKS => Err(2),
                    Some(n) if self.has(Break::NewlineFree) => Ok([numbers, vec![n as u16]].concat()),
                    _ => Err(41),
                };
            };
            *left = rest;
            match (byte, number) {
                (b'0'..=b'9', Some(0)) if !self.has(Break::ZeroInFront) => return Err(41),
                (b'0'..=b'9', _) => {
                    let digit = usize::from(byte - b'0');
                    number = match 10 * number.unwrap_or(0) + digit {
                        n if n <= 65_535 => Some(n),
                        n if self.has(Break::NumberWraps) => Some(n % 65_536),
                        _ if self.has(Break::NumberSaturates) => Some(65_535),
                        _ => return Err(41),
                    };
                }
                (b',', Some(n)) => {
                    numbers.push(n as u16);
                    number = None;
                }
                (b'\n', Some(n)) => {
                    numbers.push(n as u16);
                    return Ok(numbers);
                }
                (b'\n', None) if numbers.is_empty() || self.has(Break::CommaAtEnd) => return Ok(numbers),
                (b' ', _) if self.has(Break::Blanks) => {}
                (b'\r', _) if self.has(Break::CarriageReturn) && left.starts_with(b"\n") => {}
                _ => return Err(41),
            }
        }
    }

    /// The numbers in a line that begins with its key.
    fn line(&self, left: &mut &[u8], key: &[u8]) -> Result<Vec<u16>, u16> {
        let capitals = self.has(Break::KeyInCapitals)
            && left.get(..key.len()).is_some_and(|start| start.eq_ignore_ascii_case(key));
        if !left.starts_with(key) && !capitals {
            let as_line = self.has(Break::KeyAsLine) || (self.has(Break::EndAsLine) && left.is_empty());
            return Err(if as_line { 41 } else { 40 });
        }
        *left = &left[key.len()..];
        self.numbers(left)
    }

    /// The one number in a line that begins with its key.
    fn single(&self, left: &mut &[u8], key: &[u8]) -> Result<usize, u16> {
        match self.line(left, key)?[..] {
            [n] => Ok(n.into()),
            [] if self.has(Break::NoNumber) => Ok(0),
            [n, ..] if self.has(Break::MoreNumbers) => Ok(n.into()),
            _ => Err(41),
        }
    }

    /// The subs in a text, and whether bytes are left after the last line; or what is refused before that is seen.
    fn subs_in(&self, text: &[u8]) -> Result<(Subs, bool), u16> {
        let one_less = |fault: Break| usize::from(self.has(fault));
        let over = text.len() > MAX_TEXT - one_less(Break::BytesOneLess);
        if over && !self.has(Break::LongTextLast) {
            return Err(42);
        }
        // The limit that was passed first, where it is not answered at once.
        let mut late = None;
        let mut limit = |no: u16, passed: bool| match passed {
            true if self.has(Break::LimitsLast) => {
                late = late.or(Some(no));
                Ok(())
            }
            true => Err(no),
            false => Ok(()),
        };
        let mut left = text;
        let rank = self.single(&mut left, b"rank=")?;
        limit(2, rank + 1 > MAX_RANKS - one_less(Break::TextRanksOneLess))?;
        let mut subs: Subs = vec![];
        let (mut elements, mut incidences) = (0, 0);
        for r in 0..=rank {
            let count = self.single(&mut left, b"count=")?;
            elements = if self.has(Break::CountAlone) { count } else { elements + count };
            limit(3, elements > MAX_ELEMENTS - one_less(Break::TextElementsOneLess))?;
            let below = subs.last().map_or(0, Vec::len);
            subs.push(vec![]);
            for i in 0..count {
                let mut list = self.line(&mut left, b"subs=")?;
                let exists = |sub: &&u16| usize::from(**sub) < below || (self.has(Break::MissingCounted) && r > 0);
                incidences += list.len();
                if !self.has(Break::SupsNotCounted) {
                    incidences += list.iter().filter(exists).count();
                }
                if i + 1 == count || !self.has(Break::IncidencesLate) {
                    limit(5, incidences > MAX_INCIDENCES - one_less(Break::TextIncidencesOneLess))?;
                }
                if r == 0 && self.has(Break::LowestSubsDropped) {
                    list.clear();
                }
                subs[r].push(list);
            }
        }
        match late {
            Some(no) if left.is_empty() => Err(no),
            _ if over => Err(42),
            _ => Ok((subs, !left.is_empty())),
        }
    }

    pub(super) fn answer_reading(&self, text: &[u8], lent: Outputs<'_>) -> Built {
        let refused = |no: u16| Built { answer: Answer { no, ..Answer::default() }, ..Built::default() };
        let (subs, left) = match self.subs_in(text) {
            Ok(read) => read,
            Err(no) => return refused(no),
        };
        let slices = self.written(&subs);
        if left && !self.has(Break::LeftTaken) {
            let short = slices.iter().zip(&lent).any(|(slice, lent)| slice.len() > lent.len());
            if self.has(Break::LeftWrites) {
                self.lend(slices, lent);
            }
            return refused(if short && self.has(Break::ShortBeforeLeft) { 36 } else { 43 });
        }
        self.lend(slices, lent)
    }

    pub(super) fn answer_check(&self, text: &[u8]) -> u16 {
        let (answer, read) = with_room(|lent| self.answer_reading(text, lent));
        if answer.no != 0 || self.has(Break::CheckReadsOnly) {
            return answer.no;
        }
        let test = if self.has(Break::CheckByValid) { Test::IsValid } else { Test::Closed };
        self.test(test, read.slices()).no
    }
}
