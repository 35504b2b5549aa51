//! Damage to the returns of states ((iv) of 02): third numbers that are wrong, states that differ from others by them
//! alone, and bads on the sum of a place's limits.

use super::damage::{ask_at, insert, odd_word, remove, rows_with};
use super::rng::Rng;
use crate::limits::{self, UNBOUNDED};
use crate::message::Message;
use std::ops::Range;

/// Limits that come to 65,535 by two and two, or just not.
const LIMITS: [u16; 6] = [40_000, 40_000, 25_535, 25_534, 32_768, 32_767];
/// Minimums about those sums.
pub const MINIMUMS: [u16; 5] = [65_535, 65_535, 65_535, 65_534, 50_000];

/// Ranges of states that differ by their third number alone.
pub fn shared(m: &Message) -> Vec<Range<usize>> {
    let begin = m.flow + m.mail;
    let states: Vec<_> = (begin..m.tables.len()).map(|i| m.tables.pair(i)).collect();
    let groups = states.chunk_by(|a, b| a == b);
    let ends = groups.scan(0, |end, group| {
        *end += group.len();
        Some(*end - group.len()..*end)
    });
    ends.filter(|range| range.len() > 1).collect()
}

/// True if an item of the bads asks at a place with several returns.
pub fn asked(m: &Message) -> bool {
    let places = shared(m);
    let place = |range: &Range<usize>| m.tables.pair(m.flow + m.mail + range.start);
    let items = (1..m.bad_rows.len()).filter(|&i| m.bad_rows.first[i - 1] == 40 && m.bad_rows.first[i] == 41);
    let mut asked = items.map(|i| (m.bad_rows.second[i - 1] as usize, m.bad_rows.second[i] as usize));
    asked.any(|item| places.iter().any(|range| place(range) == item))
}

/// Some damage of these.
pub fn damaged(rng: &mut Rng, m: &mut Message, counters: usize) {
    match rng.below(6) {
        0..=1 => wrong(rng, m),
        2 => gone(rng, m),
        3 => more(rng, m),
        _ => sums(rng, m, counters),
    }
}

/// A third number that is another, or that of another state.
fn wrong(rng: &mut Rng, m: &mut Message) {
    let calls = rows_with(m, &[4]);
    let (i, j) = (rng.below(m.returns.len()), rng.below(m.returns.len()));
    if m.returns.is_empty() {
        return;
    }
    m.returns[i] = match rng.below(5) {
        0 => m.returns[j],
        1 => rng.pick(&calls).map_or(m.rows as u16, |&call| call as u16),
        2 => m.rows as u16,
        3 => rng.below(m.rows) as u16,
        _ => odd_word(rng, m.returns[i]),
    };
}

/// A state is missing where the same class and head stand with another third number.
fn gone(rng: &mut Rng, m: &mut Message) {
    let places = shared(m);
    let Some(place) = rng.pick(&places) else { return };
    let state = rng.range(place.start, place.end - 1);
    remove(&mut m.tables, m.flow + m.mail + state);
    m.returns.remove(state);
    m.states -= 1;
}

/// A state more, with the class and head of one that is there, or a give back of the start that leads to a call.
fn more(rng: &mut Rng, m: &mut Message) {
    let begin = m.flow + m.mail;
    let mut backs = rows_with(m, &[4]);
    backs.push(m.rows);
    let states: Vec<usize> = (begin..m.tables.len()).collect();
    let ends: Vec<usize> = states.iter().copied().filter(|&i| is_give_back(m, m.tables.pair(i).1)).collect();
    let from = if rng.chance(1, 2) { &ends } else { &states };
    let (Some(&at), Some(&back)) = (rng.pick(from), rng.pick(&backs)) else { return };
    let (class, head) = m.tables.pair(at);
    let state = |i: usize| (m.tables.pair(begin + i), m.returns[i] as usize);
    let before = (0..m.returns.len()).filter(|&i| state(i) < ((class, head), back)).count();
    insert(&mut m.tables, begin + before, class as u16, head as u16);
    m.returns.insert(before, back as u16);
    m.states += 1;
}

fn is_give_back(m: &Message, row: usize) -> bool {
    m.program.first.get(row) == Some(&1)
}

/// Every item asks at a place with several returns, whose limits come to about as much.
fn sums(rng: &mut Rng, m: &mut Message, counters: usize) {
    let places = shared(m);
    let Some(place) = rng.pick(&places).cloned() else { return };
    let (class, head) = m.tables.pair(m.flow + m.mail + place.start);
    ask_at(m, (class as u16, head as u16), MINIMUMS[rng.below(MINIMUMS.len())]);
    put_limits(rng, m, place, counters);
}

/// Such limits for some counters, half the time in a ceiling of their own.
pub fn put_limits(rng: &mut Rng, m: &mut Message, place: Range<usize>, counters: usize) {
    let room = m.entries.len() + place.len() < limits::BOUND_ENTRIES.1 as usize;
    if rng.chance(1, 2) && m.bounds < limits::BOUNDS.1 as usize && room {
        let own = place.map(|counter| (counter as u16, limit(rng))).chain([(counters as u16, 0)]);
        own.enumerate().for_each(|(i, (counter, limit))| insert(&mut m.entries, i, counter, limit));
        m.bounds += 1;
        return;
    }
    for (counter, old) in m.entries.first.iter().zip(&mut m.entries.second) {
        if place.contains(&(*counter as usize)) {
            *old = limit(rng);
        }
    }
}

fn limit(rng: &mut Rng) -> u16 {
    if rng.chance(1, 20) { UNBOUNDED } else { LIMITS[rng.below(LIMITS.len())] }
}
