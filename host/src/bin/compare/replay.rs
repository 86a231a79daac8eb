//! The replay list: answers of the Rust files, one on each line, for a program that has no Rust files.

use std::collections::BTreeMap;

use flumedrac_trial::{Question, Random, Reply};

use crate::subject::{By, Subject};

/// Lines longer than this are not kept, and those of the largest answers if longer than the other.
const LONGEST: usize = 1200;
const LONGEST_LARGE: usize = 3000;

/// How many of the largest answers of each product and of the search are kept.
const LARGEST: usize = 3;

/// Some of the answers that the Rust files gave.
pub struct Replay {
    random: Random,
    /// Kept whatever they are, in their order.
    chosen: Vec<String>,
    /// Whether all lines are kept at the moment.
    pub choosing: bool,
    drawn: BTreeMap<(&'static str, i64), Drawn>,
}

/// Of one kind and one answer: the shortest lines, some that were drawn by lot, and the largest answers.
#[derive(Default)]
struct Drawn {
    seen: usize,
    shortest: Vec<String>,
    lot: Vec<String>,
    largest: Vec<(i64, String)>,
}

impl Replay {
    pub fn new(seed: u64) -> Self {
        Self { random: Random::new(seed), chosen: vec![], choosing: false, drawn: BTreeMap::new() }
    }

    /// A reply that was compared and is right.
    pub fn offer(&mut self, question: &Question<&Subject>, reply: &Reply, by: By) {
        // The program takes a line that begins with d for a product.
        if matches!(question, Question::Dual { .. }) {
            return;
        }
        let line = format!("{question} = {reply}");
        if by != By::Rust || line.len() > LONGEST_LARGE || self.chosen.contains(&line) {
            return;
        }
        if self.choosing {
            return self.chosen.push(line);
        }
        let drawn = self.drawn.entry((question.name(), reply.numbers[0])).or_default();
        if matches!(question, Question::Product { .. } | Question::Search { .. }) {
            // What was built or found: the lengths of a product, the count of a search.
            drawn.offer_large(reply.numbers[5..].iter().sum(), &line);
        }
        if line.len() > LONGEST {
            return;
        }
        let (shortest, lot) = match (question, reply.numbers[0]) {
            (Question::Product { .. }, _) => (10, 20),
            (Question::Events { .. } | Question::Search { .. } | Question::Change { .. }, 0) => (6, 14),
            _ => (2, 4),
        };
        drawn.seen += 1;
        if !drawn.shortest.contains(&line) {
            let at = drawn.shortest.partition_point(|kept| kept.len() <= line.len());
            drawn.shortest.insert(at, line.clone());
            drawn.shortest.truncate(shortest);
        }
        match self.random.below(drawn.seen) {
            at if drawn.lot.len() < lot || at >= lot => {
                if drawn.lot.len() < lot {
                    drawn.lot.push(line);
                }
            }
            at => drawn.lot[at] = line,
        }
    }

    /// The whole list.
    pub fn text(self, seed: u64) -> String {
        let mut lines = self.chosen;
        for (_, drawn) in self.drawn {
            let largest = drawn.largest.into_iter().map(|(_, line)| line);
            for line in drawn.shortest.into_iter().chain(drawn.lot).chain(largest) {
                if !lines.contains(&line) {
                    lines.push(line);
                }
            }
        }
        format!("{}\n{}\n", HEAD.replace("SEED", &seed.to_string()), lines.join("\n"))
    }
}

impl Drawn {
    /// Keeps the line if few answers are larger.
    fn offer_large(&mut self, size: i64, line: &str) {
        if self.largest.iter().any(|(_, kept)| kept == line) {
            return;
        }
        let at = self.largest.partition_point(|(kept, _)| *kept >= size);
        self.largest.insert(at, (size, line.to_owned()));
        self.largest.truncate(LARGEST);
    }
}

const HEAD: &str = "\
# Answers of the Rust program, to be replayed: one question and its reply on each line.
#
# Made in host/ by 'cargo run --release --bin compare -- --model --small --seed SEED --write-replay replay.txt', from
# the answers of the checked build of the Rust files (host/oracle). The first lines are the listings to try of the
# request; the others are, for each function and each answer, the shortest questions, some drawn by lot and, of products
# and searches, the largest.
#
#   FUNCTION ARGUMENTS = NUMBERS SLICES
#
# A slice is its numbers in brackets. A listing is three slices: counts, ends, inc. In a reply, a slice of more than 300
# numbers is {length sum check}: its length, its sum, and c after c := (257 c + x + 1) mod 4294967291, from 0, over its
# numbers x in order.
#   rank, vertex_count, facet_count  counts = no value
#   el_count                         counts rank = no value
#   sign                             byte = 1 or -1
#   bounded, check_incidences, is_dyadic, is_valid, closed
#                                    listing = no a b c d
#   change                           listing flag r = no a b c d taken put [the record of 16 numbers]
#   search                           listing first mask table-length orientations-length
#                                    = no a b c d count place orientable [table] [orientations]
#   events                           listing first mask = no a b c d, then for each event of the search
#                                    [orientation flag..], or [] for 'not orientable'
#   duopyramid, duoprism, duotegum, duocomb
#                                    p q length length length = no a b c d counts ends inc [counts] [ends] [inc]
# Lent slices hold 65535 everywhere before the call (orientations 255), and are given as they are afterwards, whole.
#
# Where the Rust's own answer needs a word:
# - 18 names the smallest index met once. The Rust names any of them; that its index is one of them was tested.
# - closed is no function of the Rust. Its answers here are those of bounded and check_incidences, and of is_dyadic for
#   the same listing with one more element over its top. Lists that do not ascend are left out.
# - is_dyadic is asked only where check_incidences accepts; else the line has that one's answer.
# - change answers a flag in the Rust. taken and put are the numbers at r of the flag that it was given and of this one;
#   that they are the two elements between, and no others are, was tested.
";
