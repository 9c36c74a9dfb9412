//! Buffers of which a part is lent to a call, with elements before and behind it that must stay as they are.

use crate::random::Random;
use crate::solver::History;
use std::fmt::Debug;

/// A list of which a part is lent; the rest guards it on both sides.
#[derive(Clone, Debug, PartialEq)]
pub struct Lent<T> {
    whole: Vec<T>,
    start: usize,
    pub length: usize,
}

impl<T: Clone> Lent<T> {
    /// Lends `length` elements at a random place, amid random elements.
    pub fn random(length: usize, random: &mut Random, element: fn(&mut Random) -> T) -> Lent<T> {
        let start = 1 + random.below(16);
        let size = start + length + 1 + random.below(64);
        Lent { whole: (0..size).map(|_| element(random)).collect(), start, length }
    }

    pub fn holding(content: &[T], random: &mut Random, element: fn(&mut Random) -> T) -> Lent<T> {
        let mut lent = Lent::random(content.len(), random, element);
        lent.part().clone_from_slice(content);
        lent
    }

    pub fn part(&mut self) -> &mut [T] {
        &mut self.whole[self.start..self.start + self.length]
    }
}

pub fn random_byte(random: &mut Random) -> u8 {
    random.next() as u8
}

pub fn random_u32(random: &mut Random) -> u32 {
    random.next() as u32
}

pub fn random_u64(random: &mut Random) -> u64 {
    random.next()
}

pub fn random_i64(random: &mut Random) -> i64 {
    random.next() as i64
}

pub fn random_history(random: &mut Random) -> History {
    History { previous: random.next() as u16, starts: random.next() as u16 }
}

/// The elements that differ, by their place from the start of the lent part.
pub fn difference_of<T: PartialEq + Debug>(name: &str, library: &Lent<T>, solver: &Lent<T>) -> String {
    let mut text = String::new();
    for (place, (one, other)) in library.whole.iter().zip(&solver.whole).enumerate() {
        if one != other {
            let place = place as i64 - library.start as i64;
            text += &format!("{} at {}: the library has {:?}, the solver {:?}\n", name, place, one, other);
        }
    }
    text
}
