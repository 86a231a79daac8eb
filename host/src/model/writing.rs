//! Texts written: a line for each thing that is said, and what is refused.

use flumedrac::ffi::{Answer, Written};
use flumedrac::{Slices, MAX_TEXT};

use super::{layers, Break, Model, RIGHT};
use crate::library::Test;

impl Model {
    /// A line with numbers.
    fn written_line(&self, key: &str, numbers: &[u16]) -> String {
        let number = |x: &u16| match self.has(Break::ZeroWritten) && *x >= 10 {
            true => format!("0{x}"),
            false => format!("{x}"),
        };
        let comma = if self.has(Break::BlankWritten) { ", " } else { "," };
        format!("{key}={}\n", numbers.iter().map(number).collect::<Vec<_>>().join(comma))
    }

    /// The text of slices of the right shape.
    fn text_of(&self, l: Slices<'_>) -> Vec<u8> {
        let cell = layers(l);
        let mut lines = vec![self.written_line("rank", &[cell.len() as u16 - 1])];
        for rank in &cell {
            lines.push(self.written_line("count", &[rank.len() as u16]));
            for element in rank {
                let list = if self.has(Break::SupsWritten) { element.sups } else { element.subs };
                lines.push(self.written_line("subs", list));
            }
        }
        let mut text = lines.concat().into_bytes();
        if self.has(Break::NewlineNotWritten) {
            text.pop();
        }
        text
    }

    /// What refuses a text of so many bytes, where there is room for so many.
    fn bytes_refused(&self, length: usize, room: usize) -> Option<u16> {
        let limit = MAX_TEXT - usize::from(self.has(Break::WrittenOneLess));
        let over = length > limit && !self.has(Break::LongWritten);
        let short = match self.has(Break::ExactRefused) {
            true => length >= room,
            false => length > room && !self.has(Break::ShortFree),
        };
        match (short, over) {
            (true, true) if self.has(Break::LongBeforeShort) => Some(42),
            (true, _) => Some(44),
            (false, true) => Some(42),
            (false, false) => None,
        }
    }

    /// What is refused, or the text.
    fn writing(&self, l: Slices<'_>, room: usize) -> Result<Vec<u8>, Answer> {
        let plain = |no: u16| Answer { no, ..Answer::default() };
        let test = if self.has(Break::WritingByValid) { Test::IsValid } else { Test::Closed };
        match RIGHT.tested(test, l) {
            Some(_) if self.has(Break::ShortFirst) && room == 0 => return Err(plain(44)),
            Some(answer) if self.has(Break::WritingNoFields) => return Err(plain(answer.no)),
            Some(answer) => return Err(answer),
            None => {}
        }
        let text = self.text_of(l);
        self.bytes_refused(text.len(), room).map_or(Ok(text), |no| Err(plain(no)))
    }

    pub(super) fn answer_writing(&self, l: Slices<'_>, lent: &mut [u8]) -> Written {
        let text = match self.writing(l, lent.len()) {
            Ok(text) => text,
            Err(answer) => {
                let short = answer.no == 44;
                if let (Some(first), true) = (lent.first_mut(), self.has(Break::RefusedWrites)) {
                    *first = b'r';
                }
                let length = if self.has(Break::RefusedLength) && short { lent.len() } else { 0 };
                return Written { answer, length };
            }
        };
        let fits = text.len().min(lent.len());
        lent[..fits].copy_from_slice(&text[..fits]);
        if let (Some(next), true) = (lent.get_mut(fits), self.has(Break::WritesBehind)) {
            *next = 0;
        }
        let length = fits - usize::from(self.has(Break::LengthOneLess));
        Written { answer: Answer::default(), length }
    }
}
