//! Bounds (01: ceilings): their form (refusal 10), the start (11) and the bads they allow (12).

use crate::bads::{Bad, Item, Place};
use crate::limits::UNBOUNDED;
use crate::message::Message;
use crate::refusal::{self, Detail, Refusal};
use crate::system::System;
use crate::tables::Tables;
use std::ops::Range;

#[derive(Clone, Debug, Default, PartialEq, Eq)]
pub struct Bounds {
    /// One limit for each counter; 0 where absent.
    pub limits: Vec<Vec<u16>>,
    /// Index of each bound's first entry.
    pub first: Vec<usize>,
}

struct Reader<'a> {
    message: &'a Message,
    counters: usize,
    at: usize,
}

/// Refusal 10, or the bounds.
pub fn read(message: &Message, counters: usize) -> Result<Bounds, Refusal> {
    let mut reader = Reader { message, counters, at: 0 };
    let mut bounds = Bounds::default();
    for _ in 0..message.bounds {
        bounds.first.push(reader.at);
        bounds.limits.push(reader.bound()?);
    }
    if reader.at < message.entries.len() {
        return Err(reader.wrong("no entry after the last ceiling"));
    }
    Ok(bounds)
}

impl Reader<'_> {
    fn wrong(&self, wanted: &'static str) -> Refusal {
        Refusal::wanted(refusal::BOUND, self.message.entries.at + self.at, wanted)
    }

    fn bound(&mut self) -> Result<Vec<u16>, Refusal> {
        let mut limits = vec![0; self.counters];
        let mut least = 0;
        loop {
            if self.at >= self.message.entries.len() {
                return Err(self.wrong("more entries, as a ceiling is not closed or missing"));
            }
            let (counter, limit) = self.message.entries.pair(self.at);
            if counter == self.counters && limit == 0 {
                break;
            }
            if counter < least || counter >= self.counters || limit == 0 {
                return Err(self.wrong("a rising counter with a limit from 1, or the closing entry"));
            }
            limits[counter] = limit as u16;
            least = counter + 1;
            self.at += 1;
        }
        self.at += 1;
        Ok(limits)
    }
}

/// Refusal 11: the starting counts, 1 for state (R, start) and 0 elsewhere, lie under some bound.
pub fn check_start(message: &Message, bounds: &Bounds, start: usize) -> Result<(), Refusal> {
    match bounds.limits.iter().any(|limits| limits[start] >= 1) {
        true => Ok(()),
        false => Err(Refusal::new(refusal::START, message.bounds_at, Detail::Nothing)),
    }
}

/// An item by its counters, which stand side by side: their sum must reach the minimum.
#[derive(Clone, Debug, PartialEq, Eq)]
pub struct Sum {
    pub counters: Range<usize>,
    pub minimum: u16,
}

impl Sum {
    /// True if a bound allows the minimum. Limits are added exactly; unbounded makes the sum unbounded.
    pub fn allowed(&self, limits: &[u16]) -> bool {
        let limits = &limits[self.counters.clone()];
        limits.contains(&UNBOUNDED) || limits.iter().map(|&limit| limit as u64).sum::<u64>() >= self.minimum as u64
    }

    pub fn count(&self, counts: &[u64]) -> u64 {
        counts[self.counters.clone()].iter().sum()
    }
}

/// A bad as sums; none if an item has no counter and so is never met.
pub type Sums = Option<Vec<Sum>>;

/// The counters of an item, if it has any.
pub fn item_counters(tables: &Tables, system: &System, item: &Item) -> Option<Range<usize>> {
    let counters = match item.place {
        Place::Head(head) => tables.states_at(item.class, head),
        Place::Kind(kind) => system.letters_of(item.class, kind),
        Place::Letter(letter) => system.letter(item.class, letter).map_or(0..0, |counter| counter..counter + 1),
    };
    (!counters.is_empty()).then_some(counters)
}

pub fn bad_sums(tables: &Tables, system: &System, bad: &Bad) -> Sums {
    let sum = |item: &Item| Some(Sum { counters: item_counters(tables, system, item)?, minimum: item.minimum });
    bad.items.iter().map(sum).collect()
}

/// Refusal 12: the first bad that any bound allows.
pub fn check_bads(message: &Message, bounds: &Bounds, bads: &[Bad], sums: &[Sums]) -> Result<(), Refusal> {
    for (i, (bad, items)) in bads.iter().zip(sums).enumerate() {
        let Some(items) = items else { continue };
        let allows = |limits: &Vec<u16>| items.iter().all(|item| item.allowed(limits));
        if let Some(bound) = bounds.limits.iter().position(allows) {
            let detail = Detail::Met { bad: i, bound };
            return Err(Refusal::new(refusal::MET, message.bad_rows.at + bad.first, detail));
        }
    }
    Ok(())
}
