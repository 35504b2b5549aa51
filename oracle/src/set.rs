//! A set of values: one bit for each row of a program and one for R.

use crate::limits;

const WORDS: usize = limits::ROWS.1 as usize / 64 + 1;

#[derive(Clone, Copy, Debug, PartialEq, Eq)]
pub struct Set {
    words: [u64; WORDS],
}

impl Set {
    pub const EMPTY: Set = Set { words: [0; WORDS] };
    pub const ALL: Set = Set { words: [u64::MAX; WORDS] };

    pub fn insert(&mut self, value: usize) -> bool {
        let (word, bit) = (value / 64, 1u64 << (value % 64));
        let fresh = self.words[word] & bit == 0;
        self.words[word] |= bit;
        fresh
    }

    pub fn has(&self, value: usize) -> bool {
        self.words[value / 64] >> (value % 64) & 1 == 1
    }

    pub fn is_empty(&self) -> bool {
        self.words.iter().all(|&w| w == 0)
    }

    pub fn and(&self, other: &Set) -> Set {
        let mut both = *self;
        both.words.iter_mut().zip(&other.words).for_each(|(a, b)| *a &= b);
        both
    }

    pub fn or(&self, other: &Set) -> Set {
        let mut either = *self;
        either.words.iter_mut().zip(&other.words).for_each(|(a, b)| *a |= b);
        either
    }

    /// What is here but not in `other`.
    pub fn without(&self, other: &Set) -> Set {
        let mut left = *self;
        left.words.iter_mut().zip(&other.words).for_each(|(a, b)| *a &= !b);
        left
    }

    pub fn meets(&self, other: &Set) -> bool {
        self.words.iter().zip(&other.words).any(|(a, b)| a & b != 0)
    }

    pub fn within(&self, other: &Set) -> bool {
        self.words.iter().zip(&other.words).all(|(a, b)| a & !b == 0)
    }

    pub fn first(&self) -> Option<usize> {
        self.iter().next()
    }

    /// Values in ascending order.
    pub fn iter(&self) -> impl Iterator<Item = usize> + '_ {
        self.words.iter().enumerate().flat_map(|(i, &word)| Bits { word, base: 64 * i })
    }
}

struct Bits {
    word: u64,
    base: usize,
}

impl Iterator for Bits {
    type Item = usize;

    fn next(&mut self) -> Option<usize> {
        if self.word == 0 {
            return None;
        }
        let bit = self.word.trailing_zeros() as usize;
        self.word &= self.word - 1;
        Some(self.base + bit)
    }
}
