//! Weights, entry by entry, rule by rule and bad by bad (refusals 16, 17, 18).

use super::Refused;
use super::rules::{Counter, Plain};
use crate::bads::{Bad, Item};
use crate::message::Message;
use crate::program::Program;
use std::collections::BTreeMap;

/// Weights of a line by counter, and the index of its first entry.
type Line = (BTreeMap<usize, u64>, usize);

/// Refusal 16, or the lines.
fn lines(m: &Message, counters: usize) -> Result<Vec<Line>, Refused> {
    let mut lines: Vec<Line> = Vec::new();
    let mut line: Line = (BTreeMap::new(), 0);
    for i in 0..m.weights.len() {
        let (counter, weight) = m.weights.pair(i);
        let closes = counter == counters && weight == 0;
        let rises = line.0.last_key_value().is_none_or(|(&before, _)| before < counter);
        let holds = counter < counters && (1..=1000).contains(&weight) && rises;
        if lines.len() == m.lines || !(closes || holds) {
            return Err((16, m.weights_at + 2 + i));
        }
        match closes {
            true => lines.push(std::mem::replace(&mut line, (BTreeMap::new(), i + 1))),
            false => {
                line.0.insert(counter, weight as u64);
            }
        }
    }
    if lines.len() == m.lines { Ok(lines) } else { Err((16, m.weights_at + 2 + m.weights.len())) }
}

fn weight(line: &Line, counter: usize) -> u64 {
    line.0.get(&counter).copied().unwrap_or(0)
}

/// Counts that meet every item at the least weight: items of few counters first, each filled up at its lightest counter.
fn least(system: &Plain, program: &Program, line: &Line, items: &[Item]) -> Option<u64> {
    let mut wanted: Vec<(Vec<usize>, u64)> =
        items.iter().map(|item| (system.counters_of(program, item), item.minimum as u64)).collect();
    wanted.sort_by_key(|(counters, _)| counters.len());
    let mut counts = vec![0; system.counters.len()];
    for (counters, minimum) in wanted {
        let held: u64 = counters.iter().map(|&c| counts[c]).sum();
        let lightest = counters.into_iter().min_by_key(|&c| weight(line, c))?;
        counts[lightest] += minimum.saturating_sub(held);
    }
    Some(counts.iter().enumerate().map(|(c, count)| count * weight(line, c)).sum())
}

pub fn check(m: &Message, program: &Program, system: &Plain, bads: &[Bad]) -> Result<(), Refused> {
    let lines = lines(m, system.counters.len())?;
    for line in &lines {
        for (from, to, third) in &system.rules {
            let (mut taken, mut put) = (weight(line, *from), weight(line, *to));
            match third {
                Some((52, read)) => taken += weight(line, *read),
                Some((_, added)) => put += weight(line, *added),
                None => {}
            }
            if put > taken {
                return Err((17, m.weights_at + 2 + line.1));
            }
        }
    }
    let start = system.counters.iter().position(|c| *c == Counter::State(program.opening())).unwrap_or(usize::MAX);
    for bad in bads {
        let settled =
            |line: &Line| least(system, program, line, &bad.items).is_none_or(|weighs| weighs > weight(line, start));
        if !lines.iter().any(settled) {
            return Err((18, m.bads_at + 2 + bad.first));
        }
    }
    Ok(())
}
