//! Bounds (01: ceilings) that make the leak test work.

use crate::explore::Limits;
use crate::limits::{self, UNBOUNDED};
use crate::system::System;

/// Makes the bounds of a system.
pub trait Bounds: Fn(&System) -> Vec<Limits> {}

impl<F: Fn(&System) -> Vec<Limits>> Bounds for F {}

const MOST: usize = limits::BOUNDS.1 as usize;
const ENTRIES: usize = limits::BOUND_ENTRIES.1 as usize;

/// The one that holds everything.
pub fn one(system: &System) -> Vec<Limits> {
    vec![vec![UNBOUNDED; system.counters()]]
}

/// So many bounds in all: narrow ones of the first states, and last the one that holds
/// everything. If they are 256 they have as many entries as may be.
pub fn narrow(system: &System, count: usize) -> Vec<Limits> {
    let n = system.counters();
    let left = ENTRIES - n - 1;
    let bound = |j: usize| {
        let entries = left / (MOST - 1) + usize::from(j < left % (MOST - 1));
        let held = (entries - 1).min(system.states);
        let mut limits = vec![0; n];
        limits[..held].fill(UNBOUNDED);
        limits
    };
    (1..count).map(|j| bound(j - 1)).chain(one(system)).collect()
}

/// 256 bounds: 255 narrow ones, alike but for a state more or less.
pub fn alike(system: &System) -> Vec<Limits> {
    narrow(system, MOST)
}

/// 256 bounds: each of the narrow ones goes above the others in a counter of its own.
pub fn apart(system: &System) -> Vec<Limits> {
    let mut bounds = alike(system);
    for (j, limits) in bounds.iter_mut().enumerate().take(MOST - 1) {
        let held = limits.iter().filter(|&&limit| limit > 0).count();
        limits[held - 1] = 0;
        let own = system.counters() - 1 - j % (system.counters() - held);
        limits[own] = 1 + (j % 7) as u16;
    }
    bounds
}

/// 256 bounds: 255 of the busiest states with up to as many letters, and last the one that holds everything.
pub fn busy(system: &System) -> Vec<Limits> {
    let n = system.counters();
    let held = (ENTRIES - n - 1) / (MOST - 1) - 1;
    let letters = system.letters.len().min(held / 2);
    let ranges = system.by_state();
    let mut states: Vec<usize> = (0..system.states).collect();
    states.sort_by_key(|&state| std::cmp::Reverse(ranges[state].len()));
    let mut limits = vec![0; n];
    states.iter().take(held - letters).for_each(|&state| limits[state] = UNBOUNDED);
    limits[n - letters..].fill(UNBOUNDED);
    vec![limits; MOST - 1].into_iter().chain(one(system)).collect()
}

/// 256 bounds: the start alone, and 255 of the busiest states without any letter, apart in the limit of the busiest. Where
/// their rules lead no bound holds, so that none settles them; and without letters none of them can be used.
pub fn unsettled(system: &System) -> Vec<Limits> {
    let n = system.counters();
    let held = (ENTRIES - 2) / (MOST - 1) - 1;
    let ranges = system.by_state();
    let mut states: Vec<usize> = (0..system.states).collect();
    states.sort_by_key(|&state| std::cmp::Reverse(ranges[state].len()));
    // Of the states that no rule leads to, the start is the last: its class is, and its place stands behind all functions.
    let start = (0..system.states).rev().find(|&state| system.rules.iter().all(|rule| rule.to != state));
    let mut first = vec![0; n];
    start.into_iter().for_each(|state| first[state] = 1);
    let bound = |j: usize| {
        let mut limits = vec![0; n];
        states.iter().take(held).for_each(|&state| limits[state] = UNBOUNDED);
        limits[states[0]] = 1 + j as u16;
        limits
    };
    std::iter::once(first).chain((1..MOST).map(bound)).collect()
}

/// As `alike`, but the last bound leaks: its last counter is finite.
pub fn leaking(system: &System) -> Vec<Limits> {
    let mut bounds = alike(system);
    if let Some(limit) = bounds.last_mut().and_then(|last| last.last_mut()) {
        *limit = UNBOUNDED - 1;
    }
    bounds
}

/// As `leaking`, with a limit at the first counter in every bound that holds it.
pub fn limited(system: &System) -> Vec<Limits> {
    let mut bounds = leaking(system);
    bounds.iter_mut().filter(|limits| limits[0] > 0).for_each(|limits| limits[0] = 5);
    bounds
}

/// As `leaking`, with a limit in every bound at a letter that no rule puts.
pub fn lettered(system: &System) -> Vec<Limits> {
    let mut bounds = leaking(system);
    let n = system.counters();
    let unput = (system.states..n - 1).find(|&letter| system.rules.iter().all(|rule| rule.adds() != Some(letter)));
    let Some(letter) = unput else { return bounds };
    for limits in &mut bounds {
        let held = limits.iter().filter(|&&limit| limit > 0).count();
        if held < n {
            limits[held - 1] = 0;
        }
        limits[letter] = 5;
    }
    bounds
}

/// 256 bounds: 254 narrow ones of the first states, and last two that hold every state and half of the letters each. No
/// one bound covers all that a send puts, but each letter is covered by one of the last two; these leak.
pub fn halves(system: &System) -> Vec<Limits> {
    let n = system.counters();
    let half = |odd: usize| {
        let mut limits = vec![UNBOUNDED; n];
        (system.states..n).filter(|letter| letter % 2 != odd).for_each(|letter| limits[letter] = 0);
        limits
    };
    let wide = [half(0), half(1)];
    let left = ENTRIES - wide.iter().map(|limits| 1 + limits.iter().filter(|&&limit| limit > 0).count()).sum::<usize>();
    let held = (left / (MOST - 2) - 1).min(system.states);
    let mut limits = vec![0; n];
    limits[..held].fill(UNBOUNDED);
    vec![limits; MOST - 2].into_iter().chain(wide).collect()
}

/// As many entries as may be: wide bounds, each below the next in one counter.
pub fn wide(system: &System) -> Vec<Limits> {
    let n = system.counters();
    let most = (ENTRIES / (n + 1)).min(MOST);
    let bound = |j: usize| {
        let mut limits = vec![UNBOUNDED; n];
        limits[n - 1] = if j + 1 == most { UNBOUNDED } else { 65_000 + j as u16 };
        limits
    };
    (0..most).map(bound).collect()
}
