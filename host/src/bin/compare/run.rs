//! A library asked one question after another, each reply compared with what it has to be.

use std::panic::{catch_unwind, AssertUnwindSafe};
use std::time::Instant;

use flumedrac::Listing;
use flumedrac_trial::{Kind, Library, Question, Raw};

use crate::judge::judge;
use crate::replay::Replay;
use crate::rounds::{self, Otherwise, Rounds, Went};
use crate::subject::{Doubt, Subject};
use crate::tally::{Difference, Tally};

/// What is said to be asked where a text or a listing does not come back, or the dual of a product is something else
/// than the product of the duals.
const TEXT_ROUND: &str = "a text's round trip";
const LISTING_ROUND: &str = "a listing's round trip";
const DUAL_ROUND: &str = "the dual of a dual";
const LAW: &str = "the dual of a product";
pub const ROUNDS: [&str; 4] = [TEXT_ROUND, LISTING_ROUND, DUAL_ROUND, LAW];

/// A difference was seen, and one is enough.
pub struct Caught;

pub type Go = Result<(), Caught>;

pub struct Run<'a> {
    library: &'a dyn Library,
    /// Whether one difference is enough, and nothing is said on the way.
    until_caught: bool,
    pub tally: Tally,
    /// What was sent round.
    pub rounds: Rounds,
    /// The replay list, if it is being made.
    pub replay: Option<Replay>,
}

impl<'a> Run<'a> {
    pub fn new(library: &'a dyn Library, until_caught: bool) -> Self {
        Self { library, until_caught, tally: Tally::default(), rounds: Rounds::default(), replay: None }
    }

    /// Asks, and compares.
    pub fn ask(&mut self, question: Question<&Subject>) -> Go {
        let kind = question.name();
        // The archive does not panic; a model with a fault may.
        let reply = catch_unwind(AssertUnwindSafe(|| question.ask(self.library)));
        let (expected, reply) = match (judge(&question), reply) {
            (Ok((expected, by)), reply) => {
                let with_number = !["class", "sign", "next_event"].contains(&kind);
                self.tally.count(kind, if with_number { expected.numbers[0] } else { 0 }, by);
                if reply.as_ref().is_ok_and(|reply| *reply == expected) {
                    if let Some(replay) = &mut self.replay {
                        replay.offer(&question, &expected, by);
                    }
                    return Ok(());
                }
                (expected.to_string(), reply.map_or("a panic".to_string(), |reply| reply.to_string()))
            }
            (Err(Doubt::NoOracle), _) => {
                self.tally.unjudged += 1;
                return Ok(());
            }
            (Err(Doubt::Oracle(what)), reply) => (what.to_string(), reply.map_or(String::new(), |r| r.to_string())),
        };
        self.differ(kind, question.to_string(), (expected, reply))
    }

    /// Something differs.
    fn differ(&mut self, kind: &'static str, question: String, (expected, reply): Otherwise) -> Go {
        self.tally.differ(kind, Difference { question, expected, reply });
        match self.until_caught {
            true => Err(Caught),
            false => Ok(()),
        }
    }

    /// Counts what was sent round, or says how it went wrong.
    fn went(&mut self, went: Went, kind: &'static str, question: impl FnOnce() -> String) -> Go {
        match went {
            Ok(counted) => self.rounds += counted,
            Err(otherwise) => return self.differ(kind, question(), otherwise),
        }
        Ok(())
    }

    /// Sends a text round.
    pub fn text_round(&mut self, text: &[u8]) -> Go {
        self.went(rounds::text(self.library, text), TEXT_ROUND, || rounds::quoted(text))
    }

    /// Sends a listing round, as a text and as a dual.
    pub fn listing_rounds(&mut self, cell: &Raw) -> Go {
        self.went(rounds::listing(self.library, cell), LISTING_ROUND, || cell.to_string())?;
        self.dual_round(cell)
    }

    /// Takes the dual of a listing, and of the dual.
    pub fn dual_round(&mut self, cell: &Raw) -> Go {
        self.went(rounds::dual_of_dual(self.library, cell), DUAL_ROUND, || cell.to_string())
    }

    /// Holds the dual of a product of closed listings against the product of their duals, of every kind.
    pub fn laws(&mut self, p: &Listing, q: &Listing) -> Go {
        let question = |kind: Kind| format!("{} {} {}", kind.name(), Raw::from(p.clone()), Raw::from(q.clone()));
        for kind in Kind::ALL {
            self.went(rounds::law(self.library, kind, p, q), LAW, || question(kind))?;
        }
        Ok(())
    }

    /// Whether everything goes into the replay list for now.
    pub fn choose(&mut self, all: bool) {
        if let Some(replay) = &mut self.replay {
            replay.choosing = all;
        }
    }

    /// One part of the questions, with a line about it.
    pub fn part(&mut self, name: &str, ask: impl FnOnce(&mut Self) -> Go) -> Go {
        let start = Instant::now();
        let (before, rounds_before) = (self.tally.compared(), self.rounds.all());
        ask(self)?;
        if !self.until_caught {
            let after = self.tally.compared();
            let (rust, plain) = (after.0 - before.0, after.1 - before.1);
            let rounds = self.rounds.all() - rounds_before;
            let seconds = start.elapsed().as_secs_f64();
            println!("{name}: {rust} by the Rust, {plain} by plain conditions, {rounds} rounds, {seconds:.1} s");
        }
        Ok(())
    }
}
