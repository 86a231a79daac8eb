//! A reader of texts as one would write it in Rust, to measure beside the library's: one pass over the bytes, then the
//! sups from the subs. It refuses what the library refuses, and proves nothing. `writer` has the other way, a writer of
//! texts.
//!
//! It is a package of its own so that it is built as programs usually are: without checks of its sums.

mod writer;

use flumedrac::{MAX_ELEMENTS, MAX_INCIDENCES, MAX_RANKS, MAX_TEXT};

pub use writer::write;

/// Counts, ends and inc.
pub type Slices = [Vec<u16>; 3];

/// What is left of a text.
struct Left<'a>(&'a [u8]);

impl Left<'_> {
    fn key(&mut self, key: &[u8]) -> Result<(), u16> {
        self.0 = self.0.strip_prefix(key).ok_or(40u16)?;
        Ok(())
    }

    /// A number, and the byte after it.
    fn number(&mut self) -> Result<(u16, u8), u16> {
        let mut number = 0;
        for (length, &byte) in self.0.iter().enumerate() {
            let digit = byte.wrapping_sub(b'0');
            if digit > 9 {
                if length == 0 || (length > 1 && self.0[0] == b'0') {
                    return Err(41);
                }
                self.0 = &self.0[length + 1..];
                return Ok((number as u16, byte));
            }
            number = 10 * number + u32::from(digit);
            if number > u32::from(u16::MAX) {
                return Err(41);
            }
        }
        Err(41)
    }

    /// A line with one number.
    fn single(&mut self, key: &[u8]) -> Result<usize, u16> {
        self.key(key)?;
        match self.number()? {
            (number, b'\n') => Ok(number.into()),
            _ => Err(41),
        }
    }

    /// A line with any numbers, which are given on one by one.
    fn numbers(&mut self, key: &[u8], mut each: impl FnMut(u16)) -> Result<(), u16> {
        self.key(key)?;
        if let Some(rest) = self.0.strip_prefix(b"\n") {
            self.0 = rest;
            return Ok(());
        }
        loop {
            let (number, after) = self.number()?;
            each(number);
            match after {
                b',' => {}
                b'\n' => return Ok(()),
                _ => return Err(41),
            }
        }
    }
}

/// The listing in a text, or the number of its refusal.
pub fn read(text: &[u8]) -> Result<Slices, u16> {
    if text.len() > MAX_TEXT {
        return Err(42);
    }
    let mut left = Left(text);
    let rank = left.single(b"rank=")?;
    if rank >= MAX_RANKS {
        return Err(2);
    }
    // Where the elements of each rank begin, all subs one after another, where those of each element end, and how many
    // sups each element has.
    let mut begins = vec![0];
    let mut subs: Vec<u16> = Vec::with_capacity(text.len() / 2);
    let mut sub_ends: Vec<usize> = vec![];
    let mut sup_counts: Vec<usize> = vec![];
    let mut incidences = 0;
    for r in 0..=rank {
        let count = left.single(b"count=")?;
        let begin = begins[r];
        if begin + count > MAX_ELEMENTS {
            return Err(3);
        }
        begins.push(begin + count);
        sup_counts.resize(begin + count, 0);
        let under = &mut sup_counts[if r == 0 { begin } else { begins[r - 1] }..begin];
        for _ in 0..count {
            left.numbers(b"subs=", |sub| {
                subs.push(sub);
                incidences += 1;
                if let Some(sups) = under.get_mut(usize::from(sub)) {
                    *sups += 1;
                    incidences += 1;
                }
            })?;
            if incidences > MAX_INCIDENCES {
                return Err(5);
            }
            sub_ends.push(subs.len());
        }
    }
    match left.0 {
        [] => Ok(listing(&begins, &subs, &sub_ends, &sup_counts, incidences)),
        _ => Err(43),
    }
}

/// The three slices: the subs of each element, and after them its sups.
fn listing(begins: &[usize], subs: &[u16], sub_ends: &[usize], sup_counts: &[usize], incidences: usize) -> Slices {
    let mut inc = vec![0; incidences];
    let mut ends = Vec::with_capacity(2 * sub_ends.len());
    // Where the next sup of each element goes.
    let mut next = Vec::with_capacity(sub_ends.len());
    let (mut at, mut start) = (0, 0);
    for (&end, &sups) in sub_ends.iter().zip(sup_counts) {
        let own = &subs[start..end];
        inc[at..][..own.len()].copy_from_slice(own);
        next.push(at + own.len());
        ends.push((at + own.len()) as u16);
        at += own.len() + sups;
        ends.push(at as u16);
        start = end;
    }
    for ranks in begins.windows(3) {
        let under = &mut next[ranks[0]..ranks[1]];
        for (i, element) in (ranks[1]..ranks[2]).enumerate() {
            let start = if element == 0 { 0 } else { sub_ends[element - 1] };
            for &sub in &subs[start..sub_ends[element]] {
                if let Some(place) = under.get_mut(usize::from(sub)) {
                    inc[*place] = i as u16;
                    *place += 1;
                }
            }
        }
    }
    [begins.windows(2).map(|two| (two[1] - two[0]) as u16).collect(), ends, inc]
}
