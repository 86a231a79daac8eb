//! Three slices with all that is known of them: tests, flags and events, and who decided.

use std::cell::OnceCell;

use flumedrac::ffi::Answer;
use flumedrac_trial::{Raw, Test};

use crate::oracle::{self, Cell, Event};
use crate::parts;
use crate::plain;

/// Who decided.
#[derive(Clone, Copy, Debug, PartialEq, Eq, Hash)]
pub enum By {
    /// The Rust files.
    Rust,
    /// A plain condition.
    Plain,
}

/// Why nothing could be decided.
#[derive(Clone, Debug)]
pub enum Doubt {
    /// The Rust files are not there.
    NoOracle,
    /// They did what they should never do.
    Oracle(&'static str),
}

/// Something decided, and by whom.
pub type Judged<T> = Result<(T, By), Doubt>;

/// Three slices with all that is known of them.
pub struct Subject {
    pub(super) raw: Raw,
    shape: u16,
    pub(super) cell: Option<Cell>,
    valid: OnceCell<Judged<Answer>>,
    closed: OnceCell<Judged<Answer>>,
    parts: OnceCell<usize>,
}

impl AsRef<Raw> for Subject {
    fn as_ref(&self) -> &Raw {
        &self.raw
    }
}

impl<T: Into<Raw>> From<T> for Subject {
    fn from(raw: T) -> Self {
        let raw = raw.into();
        let shape = plain::shape(&raw);
        let cell = (shape == 0).then(|| Cell::new(&raw.counts, &raw.ends, &raw.inc));
        Self { raw, shape, cell, valid: OnceCell::new(), closed: OnceCell::new(), parts: OnceCell::new() }
    }
}

/// What the Rust files answered; they never panic where they are asked.
pub(super) fn said<T>(answer: Option<T>) -> Result<T, Doubt> {
    match answer {
        Some(answer) => Ok(answer),
        None if oracle::PRESENT => Err(Doubt::Oracle("the Rust panicked")),
        None => Err(Doubt::NoOracle),
    }
}

pub(super) fn refusal(no: u16) -> Answer {
    Answer { no, ..Answer::default() }
}

impl Subject {
    pub fn rank(&self) -> usize {
        self.raw.counts.len() - 1
    }

    pub fn is_valid(&self) -> Judged<bool> {
        self.test(Test::IsValid).map(|(answer, by)| (answer.no == 0, by))
    }

    pub fn is_closed(&self) -> Judged<bool> {
        self.test(Test::Closed).map(|(answer, by)| (answer.no == 0, by))
    }

    pub(super) fn test(&self, test: Test) -> Judged<Answer> {
        match test {
            Test::IsValid => self.valid.get_or_init(|| self.tested(test)).clone(),
            Test::Closed => self.closed.get_or_init(|| self.tested(test)).clone(),
            _ => self.tested(test),
        }
    }

    fn tested(&self, test: Test) -> Judged<Answer> {
        let Some(cell) = &self.cell else {
            return Ok((refusal(self.shape), By::Plain));
        };
        let answer = match test {
            Test::Bounded => said(cell.bounded())?,
            Test::CheckIncidences => said(cell.check_incidences())?,
            Test::IsDyadic => match said(cell.check_incidences())? {
                [0, ..] => said(cell.is_dyadic())?,
                refused => refused,
            },
            Test::IsValid => said(cell.is_valid())?,
            Test::Closed => match (said(cell.bounded())?, said(cell.check_incidences())?) {
                ([0, ..], [0, ..]) => match plain::descent(&self.raw) {
                    Some([r, i, side]) => {
                        let [a, b, c] = [r, i, side].map(|x| x as u16);
                        return Ok((Answer { no: 19, a, b, c, d: 0 }, By::Plain));
                    }
                    None => said(cell.one_rank_more().is_dyadic())?,
                },
                ([0, ..], refused) => refused,
                (refused, _) => refused,
            },
        };
        Ok((self.settled(answer)?, By::Rust))
    }

    /// The Rust names any index that is met once; the smallest is to be named.
    fn settled(&self, answer: oracle::Answer) -> Result<Answer, Doubt> {
        let [no, a, mut b, c, d] = answer;
        if no == 18 {
            let once = plain::met_once(&self.raw, c, d);
            if !once.contains(&(b as u16)) {
                return Err(Doubt::Oracle("the Rust's index for 18 is not met once"));
            }
            b = once.into_iter().min().unwrap_or_default().into();
        }
        let [no, a, b, c, d] = [no, a, b, c, d].map(|x| x as u16);
        Ok(Answer { no, a, b, c, d })
    }

    /// What refuses a change or a search before 22.
    pub(super) fn flag_refusal(&self, flag: &[u16], ranks: &[usize]) -> Judged<Answer> {
        let (closed, by) = self.test(Test::Closed)?;
        if closed.no != 0 {
            Ok((closed, by))
        } else if !plain::is_flag(&self.raw, flag) {
            Ok((refusal(20), By::Plain))
        } else if ranks.iter().any(|&r| r < 1 || r + 1 > self.rank()) {
            Ok((refusal(21), By::Plain))
        } else {
            Ok((refusal(0), By::Rust))
        }
    }

    /// How many flags a closed listing has in all, but no more than one over a limit.
    pub fn flags(&self, limit: usize) -> usize {
        parts::flags(&self.raw, limit + 1).len()
    }

    /// How many parts the flags of a closed listing are in, all of which are within a limit.
    pub(super) fn parts(&self, limit: usize) -> usize {
        *self.parts.get_or_init(|| parts::parts(&parts::flags(&self.raw, limit)))
    }

    /// The Rust's events for a search that nothing refuses, with one flag more than the limit if there is one.
    pub(super) fn events(&self, first: &[u16], ranks: &[usize], limit: usize) -> Result<Vec<Event>, Doubt> {
        let first: Vec<usize> = first.iter().map(|&x| x.into()).collect();
        said(self.cell.as_ref().and_then(|cell| cell.events(&first, ranks, limit + 2)))
    }
}
