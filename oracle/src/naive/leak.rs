//! Every ceiling, every rule, every candidate ceiling, every counter (refusal 13).

use super::Refused;
use super::rules::{Plain, Rule};
use crate::bounds::Bounds;
use crate::message::Message;

/// A most count; none is unbounded.
type Most = Option<u64>;

fn most(limit: u16) -> Most {
    (limit != 65_535).then_some(limit as u64)
}

/// The most counts after a rule, none where it can't be used.
fn after(limits: &[Most], rule: &Rule) -> Option<Vec<Most>> {
    let read = rule.2.filter(|(tag, _)| *tag == 52).map(|(_, counter)| counter);
    let added = rule.2.filter(|(tag, _)| *tag != 52).map(|(_, counter)| counter);
    let taken = || [Some(rule.0), read].into_iter().flatten();
    if taken().any(|counter| limits[counter] == Some(0)) {
        return None;
    }
    let mut counts = limits.to_vec();
    for counter in taken() {
        counts[counter] = counts[counter].map(|count| count - 1);
    }
    for counter in [Some(rule.1), added].into_iter().flatten() {
        counts[counter] = counts[counter].map(|count| count + 1);
    }
    Some(counts)
}

fn under(counts: &[Most], limits: &[Most]) -> bool {
    counts.iter().zip(limits).all(|pair| match pair {
        (_, None) => true,
        (None, Some(_)) => false,
        (Some(count), Some(limit)) => count <= limit,
    })
}

pub fn check(m: &Message, system: &Plain, bounds: &Bounds) -> Result<(), Refused> {
    let all: Vec<Vec<Most>> = bounds.limits.iter().map(|limits| limits.iter().map(|&l| most(l)).collect()).collect();
    for (i, limits) in all.iter().enumerate() {
        for rule in &system.rules {
            let Some(counts) = after(limits, rule) else { continue };
            if !all.iter().any(|other| under(&counts, other)) {
                return Err((13, m.entries.at + bounds.first[i]));
            }
        }
    }
    Ok(())
}
