//! How often each call was answered, and refused by each number.

use crate::calls::NAMES;
use crate::solver::Refused;

const CALLS: usize = NAMES.len();

/// The numbers that each call can give by rule 4.3, calls in the order of their indices.
pub const POSSIBLE: [&[usize]; CALLS] = [
    &[1, 2, 3, 4, 5, 6, 7, 8, 9, 10, 11, 18],
    &[2, 3, 4, 5, 6, 7, 8, 9, 10, 11, 14, 18],
    &[5, 7, 8, 9, 10, 12, 13],
    &[1, 2, 3, 4, 5, 6, 7, 8, 9, 10],
    &[15, 16, 17],
    &[2, 3, 4, 5, 6, 7, 8, 9, 10, 11, 18, 19],
    &[2, 3, 4, 5, 6, 7, 8, 9, 10, 11, 18, 20, 21],
];

/// The same of the calls in C, where a list too short for the answers gives pricing, the view, judging and floors the number 1 too.
pub const POSSIBLE_IN_C: [&[usize]; CALLS] = [
    POSSIBLE[0],
    &[1, 2, 3, 4, 5, 6, 7, 8, 9, 10, 11, 14, 18],
    POSSIBLE[2],
    POSSIBLE[3],
    &[1, 15, 16, 17],
    &[1, 2, 3, 4, 5, 6, 7, 8, 9, 10, 11, 18, 19],
    &[1, 2, 3, 4, 5, 6, 7, 8, 9, 10, 11, 18, 20, 21],
];

/// The numbers that packing in edition 2 can give.
pub const POSSIBLE_OF_PACKINGS: &[usize] = &[5, 7, 8, 9, 10, 12, 13, 18];

/// The numbers that the day can give in C (rules 21.1 and 21.9).
pub const POSSIBLE_OF_DAYS: &[usize] = &[1, 2, 3, 4, 5, 6, 7, 8, 9, 10, 18, 22, 23];

/// The numbers that a start of a run can give (rule 22.5), and an advance (rules 22.6 and 23.2).
pub const POSSIBLE_OF_STARTS: &[usize] = &[2, 3, 4, 5, 6, 7, 8, 9, 10, 11, 18];
pub const POSSIBLE_OF_ADVANCES: &[usize] = &[2, 3, 4, 5, 6, 7, 8, 9, 10, 11, 18, 24];

/// The same of an advance in C (rule 23.4), and what an ask can give there.
pub const POSSIBLE_OF_ADVANCES_IN_C: &[usize] = &[1, 2, 3, 4, 5, 6, 7, 8, 9, 10, 11, 18, 24];
pub const POSSIBLE_OF_ASKS_IN_C: &[usize] = &[1];

/// The numbers that a search within a budget can give.
pub const POSSIBLE_OF_REFINES: &[usize] = &[1, 2, 3, 4, 5, 6, 7, 8, 9, 10, 11, 18, 25];

/// The numbers that a cost row can give in C.
pub const POSSIBLE_OF_GENCOSTS: &[usize] = &[1, 26, 27, 28];

/// Counts of one call by number; number 0 stands for an answer.
#[derive(Default)]
pub struct Numbers([u64; 29]);

impl Numbers {
    pub fn count(&mut self, refused: Option<Refused>) {
        let number = refused.map_or(0, |refused| refused.0 as usize);
        self.0[number] += 1;
    }

    pub fn total(&self) -> u64 {
        self.0.iter().sum()
    }

    /// One line to a count, refusals only where they occurred.
    pub fn lines(&self, name: &str) -> Vec<String> {
        let mut lines = vec![format!("{} answered {}", name, self.0[0])];
        for (number, count) in self.0.iter().enumerate().skip(1).filter(|(_, count)| **count > 0) {
            lines.push(format!("{} refused {} {}", name, number, count));
        }
        lines
    }

    /// Asserts that the call was answered, and refused by every number that it can give.
    pub fn assert_complete(&self, name: &str, possible: &[usize]) {
        assert!(self.0[0] > 0, "{} was never answered", name);
        for number in possible {
            assert!(self.0[*number] > 0, "{} was never refused with {}", name, number);
        }
    }
}

/// How often each branch was reached, by its name.
pub struct Branches(Vec<(String, u64)>);

impl Branches {
    pub fn new(names: Vec<String>) -> Branches {
        Branches(names.into_iter().map(|name| (name, 0)).collect())
    }

    /// Counts the branches that are reached; one is told of each, in the order of the names.
    pub fn count(&mut self, reached: Vec<bool>) {
        assert_eq!(reached.len(), self.0.len(), "branches told");
        for ((_, count), reached) in self.0.iter_mut().zip(reached) {
            *count += u64::from(reached);
        }
    }

    pub fn lines(&self) -> Vec<String> {
        self.0.iter().map(|(name, count)| format!("{}: {}", name, count)).collect()
    }

    pub fn assert_complete(&self) {
        for (name, count) in &self.0 {
            assert!(*count > 0, "no call came to: {}", name);
        }
    }
}

/// Counts of the calls that the runner makes too.
#[derive(Default)]
pub struct Tally([Numbers; CALLS]);

impl Tally {
    /// Counts a call by its index, and its refusal or none.
    pub fn count(&mut self, call: usize, refused: Option<Refused>) {
        self.0[call].count(refused);
    }

    pub fn total(&self) -> u64 {
        self.0.iter().map(Numbers::total).sum()
    }

    pub fn lines(&self) -> Vec<String> {
        NAMES.iter().zip(&self.0).flat_map(|(name, numbers)| numbers.lines(name)).collect()
    }

    pub fn assert_complete(&self, possible: [&[usize]; CALLS]) {
        for ((name, numbers), possible) in NAMES.iter().zip(&self.0).zip(possible) {
            numbers.assert_complete(name, possible);
        }
    }
}
