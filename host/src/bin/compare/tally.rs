//! How many questions were asked, of which kind, with which answer; and what differed.

use std::collections::BTreeMap;

use crate::subject::By;

/// The smallest question of its kind that was answered otherwise than it should be.
pub struct Difference {
    pub question: String,
    pub expected: String,
    pub reply: String,
}

/// How many replies of one kind with one number were compared.
#[derive(Clone, Copy, Default)]
struct Counted {
    rust: u64,
    plain: u64,
}

#[derive(Default)]
pub struct Tally {
    counted: BTreeMap<(&'static str, i64), Counted>,
    differences: BTreeMap<&'static str, (u64, Difference)>,
    /// Questions that could not be judged without the Rust files.
    pub unjudged: u64,
}

impl Tally {
    /// A reply that was compared; `no` is its refusal's number, 0 for none.
    pub fn count(&mut self, kind: &'static str, no: i64, by: By) {
        let counted = self.counted.entry((kind, no)).or_default();
        match by {
            By::Rust => counted.rust += 1,
            By::Plain => counted.plain += 1,
        }
    }

    /// A reply that is not the expected one. The smallest question is kept.
    pub fn differ(&mut self, kind: &'static str, difference: Difference) {
        match self.differences.get_mut(kind) {
            None => {
                self.differences.insert(kind, (1, difference));
            }
            Some((count, kept)) => {
                *count += 1;
                if difference.question.len() < kept.question.len() {
                    *kept = difference;
                }
            }
        }
    }

    pub fn differences(&self) -> u64 {
        self.differences.values().map(|(count, _)| count).sum()
    }

    /// How many differences are of one of these kinds.
    pub fn of_kinds(&self, kinds: &[&'static str]) -> u64 {
        kinds.iter().filter_map(|kind| self.differences.get(kind)).map(|(count, _)| count).sum()
    }

    /// The smallest difference of each kind, the smallest of all first.
    pub fn smallest(&self) -> Vec<(&'static str, &Difference)> {
        let of_kind = self.differences.iter().map(|(kind, (_, difference))| (*kind, difference));
        let mut smallest: Vec<(&'static str, &Difference)> = of_kind.collect();
        smallest.sort_by_key(|(_, difference)| difference.question.len());
        smallest
    }

    pub fn compared(&self) -> (u64, u64) {
        self.counted.values().fold((0, 0), |sum, counted| (sum.0 + counted.rust, sum.1 + counted.plain))
    }

    /// Two tables: by kind, and by refusal number.
    pub fn print(&self) {
        println!("\n| asked | by the Rust | by a plain condition | differences | answers (number: how many) |");
        println!("|---|---:|---:|---:|---|");
        let mut kinds: Vec<&'static str> = self.counted.keys().map(|(kind, _)| *kind).collect();
        kinds.dedup();
        for kind in kinds {
            let (mut rust, mut plain, mut answers) = (0, 0, vec![]);
            for ((_, no), counted) in self.counted.range((kind, i64::MIN)..=(kind, i64::MAX)) {
                rust += counted.rust;
                plain += counted.plain;
                answers.push(format!("{no}: {}", counted.rust + counted.plain));
            }
            let differences = self.differences.get(kind).map_or(0, |(count, _)| *count);
            println!("| {kind} | {rust} | {plain} | {differences} | {} |", answers.join(", "));
        }

        let mut numbers: BTreeMap<i64, Counted> = BTreeMap::new();
        for ((kind, no), counted) in &self.counted {
            if !["class", "sign", "next_event"].contains(kind) {
                let sum = numbers.entry(*no).or_default();
                sum.rust += counted.rust;
                sum.plain += counted.plain;
            }
        }
        println!("\n| answer | by the Rust | by a plain condition |");
        println!("|---:|---:|---:|");
        for (no, counted) in numbers {
            println!("| {no} | {} | {} |", counted.rust, counted.plain);
        }
    }
}
