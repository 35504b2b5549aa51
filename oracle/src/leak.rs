//! No rule leads from under a bound out of all bounds (refusal 13).
//!
//! A rule turns the counts under a bound U into counts under U with one taken from at most two
//! counters and one added to at most two; unbounded stays. That result lies under the union of
//! the bounds exactly if it lies under one of them. For each U we keep sets of candidate bounds
//! W as bits: those that already hold U, those that exceed in one counter, those in two.

use crate::bounds::Bounds;
use crate::limits::UNBOUNDED;
use crate::message::Message;
use crate::refusal::{self, Detail, Refusal};
use crate::system::{Rule, System};

/// A set of bounds; there are at most 256.
#[derive(Clone, Copy, Debug, PartialEq, Eq)]
struct Mask([u64; 4]);

impl Mask {
    const NONE: Mask = Mask([0; 4]);

    fn insert(&mut self, bound: usize) {
        self.0[bound / 64] |= 1 << (bound % 64);
    }

    fn and(mut self, other: Mask) -> Mask {
        self.0.iter_mut().zip(other.0).for_each(|(a, b)| *a &= b);
        self
    }

    fn or(mut self, other: Mask) -> Mask {
        self.0.iter_mut().zip(other.0).for_each(|(a, b)| *a |= b);
        self
    }

    fn is_empty(&self) -> bool {
        self.0 == [0; 4]
    }
}

/// Refusal 13.
pub fn check(message: &Message, system: &System, bounds: &Bounds) -> Result<(), Refusal> {
    let ranges = system.by_state();
    let mut candidates = Candidates::new(bounds, system.counters());
    for (bound, limits) in bounds.limits.iter().enumerate() {
        candidates.turn_to(limits);
        for state in (0..system.states).filter(|&state| limits[state] > 0) {
            for rule in ranges[state].clone() {
                if !candidates.hold(&system.rules[rule]) {
                    let detail = Detail::Leak { bound, rule };
                    return Err(Refusal::new(refusal::LEAK, message.entries.at + bounds.first[bound], detail));
                }
            }
        }
    }
    Ok(())
}

/// A mask for each counter that is empty or unknown unless set for the bound in turn.
struct Masks {
    turn: u32,
    masks: Vec<(u32, Mask)>,
}

impl Masks {
    fn new(counters: usize) -> Masks {
        Masks { turn: 0, masks: vec![(0, Mask::NONE); counters] }
    }

    fn get(&self, counter: usize) -> Option<Mask> {
        let (turn, mask) = self.masks[counter];
        (turn == self.turn).then_some(mask)
    }

    fn set(&mut self, counter: usize, mask: Mask) -> Mask {
        self.masks[counter] = (self.turn, mask);
        mask
    }

    fn insert(&mut self, counter: usize, bound: usize) {
        let mut mask = self.get(counter).unwrap_or(Mask::NONE);
        mask.insert(bound);
        self.set(counter, mask);
    }
}

/// The counters in which U exceeds one W: how many, at most three, and the first two.
#[derive(Clone, Copy, Default)]
struct Exceeded {
    count: u8,
    first: [u16; 2],
}

/// For the bound U in turn: which bounds W hold what a rule makes of it.
struct Candidates<'a> {
    limits: &'a [u16],
    /// The limits of each counter, bound by bound.
    columns: Vec<Vec<u16>>,
    exceeded: Vec<Exceeded>,
    /// W that hold U itself.
    whole: Mask,
    /// By counter: W that U exceeds in just this counter.
    one: Masks,
    /// By counter: W that U exceeds in two counters, this being one of them.
    two: Masks,
    /// By counter: W that hold one more, or one less; found when first asked for.
    more: Masks,
    less: Masks,
}

impl<'a> Candidates<'a> {
    fn new(bounds: &'a Bounds, counters: usize) -> Candidates<'a> {
        let column = |c: usize| bounds.limits.iter().map(|limits| limits[c]).collect();
        Candidates {
            limits: &[],
            columns: (0..counters).map(column).collect(),
            exceeded: vec![Exceeded::default(); bounds.limits.len()],
            whole: Mask::NONE,
            one: Masks::new(counters),
            two: Masks::new(counters),
            more: Masks::new(counters),
            less: Masks::new(counters),
        }
    }

    /// The next bound U.
    fn turn_to(&mut self, limits: &'a [u16]) {
        self.limits = limits;
        self.whole = Mask::NONE;
        [&mut self.one, &mut self.two, &mut self.more, &mut self.less].into_iter().for_each(|masks| masks.turn += 1);
        self.find_exceeded();
        for (w, exceeded) in self.exceeded.iter().enumerate() {
            let [a, b] = exceeded.first.map(usize::from);
            match exceeded.count {
                0 => self.whole.insert(w),
                1 => self.one.insert(a, w),
                2 => {
                    self.two.insert(a, w);
                    self.two.insert(b, w);
                }
                _ => {}
            }
        }
    }

    fn find_exceeded(&mut self) {
        self.exceeded.fill(Exceeded::default());
        for (counter, &limit) in self.limits.iter().enumerate().filter(|&(_, &limit)| limit > 0) {
            for (exceeded, &other) in self.exceeded.iter_mut().zip(&self.columns[counter]) {
                if other < limit && exceeded.count < 3 {
                    if let Some(slot) = exceeded.first.get_mut(exceeded.count as usize) {
                        *slot = counter as u16;
                    }
                    exceeded.count += 1;
                }
            }
        }
    }

    fn more(&mut self, counter: usize) -> Mask {
        let limit = self.limits[counter];
        let wanted = if limit == UNBOUNDED { limit } else { limit + 1 };
        self.more.get(counter).unwrap_or_else(|| self.more.set(counter, at_least(&self.columns[counter], wanted)))
    }

    fn less(&mut self, counter: usize) -> Mask {
        let limit = self.limits[counter];
        let wanted = if limit == UNBOUNDED { limit } else { limit - 1 };
        self.less.get(counter).unwrap_or_else(|| self.less.set(counter, at_least(&self.columns[counter], wanted)))
    }

    /// True if the rule can't be used under U, or one bound holds all it makes of U.
    fn hold(&mut self, rule: &Rule) -> bool {
        if rule.read().is_some_and(|letter| self.limits[letter] == 0) {
            return true;
        }
        let added = [Some(rule.to), rule.adds()];
        let from = Some(rule.from).filter(|_| !added.contains(&Some(rule.from)));
        let mut held = self.after_taking(from, rule.read());
        for counter in added.into_iter().flatten().filter(|&counter| counter != rule.from) {
            held = held.and(self.more(counter));
        }
        !held.is_empty()
    }

    /// W that hold U with one less in these counters.
    fn after_taking(&mut self, from: Option<usize>, read: Option<usize>) -> Mask {
        let mut held = self.whole;
        for counter in [from, read].into_iter().flatten() {
            if let Some(one) = self.one.get(counter) {
                held = held.or(one.and(self.less(counter)));
            }
        }
        let (Some(a), Some(b)) = (from, read) else { return held };
        match (self.two.get(a), self.two.get(b)) {
            (Some(with_a), Some(with_b)) => held.or(with_a.and(with_b).and(self.less(a)).and(self.less(b))),
            _ => held,
        }
    }
}

fn at_least(column: &[u16], wanted: u16) -> Mask {
    let mut mask = Mask::NONE;
    column.iter().enumerate().filter(|&(_, &limit)| limit >= wanted).for_each(|(w, _)| mask.insert(w));
    mask
}
