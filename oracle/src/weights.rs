//! Weights, the other evidence ((v) of 02): their form (refusal 16), that no rule raises a sum (17), and that each bad
//! weighs more than the start (18).

use crate::bads::Bad;
use crate::bounds::{Sum, Sums};
use crate::limits;
use crate::message::Message;
use crate::refusal::{self, Detail, Refusal};
use crate::system::{Rule, System};
use std::collections::BTreeMap;

/// A weight for each counter.
pub type Line = Vec<u16>;

#[derive(Clone, Debug, Default, PartialEq, Eq)]
pub struct Weights {
    /// 0 where a counter is absent.
    pub lines: Vec<Line>,
    /// Index of each line's first entry.
    pub first: Vec<usize>,
}

struct Reader<'a> {
    message: &'a Message,
    counters: usize,
    at: usize,
}

/// Refusal 16, or the lines.
pub fn read(message: &Message, counters: usize) -> Result<Weights, Refusal> {
    let mut reader = Reader { message, counters, at: 0 };
    let mut weights = Weights::default();
    for _ in 0..message.lines {
        weights.first.push(reader.at);
        weights.lines.push(reader.line()?);
    }
    if reader.at < message.weights.len() {
        return Err(reader.wrong("no entry after the last line"));
    }
    Ok(weights)
}

impl Reader<'_> {
    fn wrong(&self, wanted: &'static str) -> Refusal {
        Refusal::wanted(refusal::WEIGHTS, self.message.weights.at + self.at, wanted)
    }

    fn line(&mut self) -> Result<Line, Refusal> {
        let mut line = vec![0; self.counters];
        let mut least = 0;
        loop {
            if self.at >= self.message.weights.len() {
                return Err(self.wrong("more entries, as a line is not closed or missing"));
            }
            let (counter, weight) = self.message.weights.pair(self.at);
            if counter == self.counters && weight == 0 {
                break;
            }
            let (lightest, heaviest) = limits::WEIGHT;
            if counter < least || counter >= self.counters || weight < lightest as usize || weight > heaviest as usize {
                return Err(self.wrong("a rising counter with a weight from 1 to 1,000, or the closing entry"));
            }
            line[counter] = weight as u16;
            least = counter + 1;
            self.at += 1;
        }
        self.at += 1;
        Ok(line)
    }
}

/// What a rule adds to a weighed sum.
pub fn change(line: &[u16], rule: &Rule) -> i32 {
    let weight = |counter: usize| line[counter] as i32;
    let put = weight(rule.to) + rule.adds().map_or(0, weight);
    put - weight(rule.from) - rule.read().map_or(0, weight)
}

/// Refusal 17: the first line that a rule raises.
pub fn check_rises(message: &Message, system: &System, weights: &Weights) -> Result<(), Refusal> {
    for (i, line) in weights.lines.iter().enumerate() {
        if let Some(rule) = system.rules.iter().position(|rule| change(line, rule) > 0) {
            let position = message.weights.at + weights.first[i];
            return Err(Refusal::new(refusal::RISE, position, Detail::Rise { line: i, rule }));
        }
    }
    Ok(())
}

/// What the items of a bad come to.
pub struct Needed {
    /// The greatest minimum on each single counter.
    pub singles: BTreeMap<usize, u64>,
    /// Groups of counters, and what is missing of them beside the single ones.
    pub groups: Vec<(Vec<usize>, u64)>,
}

/// Of two items either one lies in the other or they are apart.
pub fn needed(items: &[Sum]) -> Needed {
    let (mut singles, mut wide) = (BTreeMap::new(), BTreeMap::new());
    for item in items {
        let minimum = item.minimum as u64;
        let least: &mut u64 = match item.counters.len() {
            1 => singles.entry(item.counters.start).or_default(),
            _ => wide.entry((item.counters.start, item.counters.end)).or_default(),
        };
        *least = minimum.max(*least);
    }
    let missing = |((start, end), minimum): ((usize, usize), u64)| {
        let held: u64 = singles.range(start..end).map(|(_, &single)| single).sum();
        ((start..end).collect(), minimum.saturating_sub(held))
    };
    let groups = wide.into_iter().map(missing).collect();
    Needed { singles, groups }
}

/// The least weight of counts that meet every item: the greatest minimum on each single counter, and for each group of
/// counters what is still missing, at its lightest one.
pub fn least_weight(line: &[u16], items: &[Sum]) -> u64 {
    let Needed { singles, groups } = needed(items);
    let single = singles.iter().map(|(&counter, &minimum)| line[counter] as u64 * minimum);
    let lightest = |counters: &[usize]| counters.iter().map(|&c| line[c] as u64).min().unwrap_or(0);
    let group = groups.iter().map(|(counters, missing)| lightest(counters) * missing);
    single.chain(group).sum()
}

/// True if a line weighs a bad above the start, or if an item has no counter, which settles its bad.
pub fn settles(line: &[u16], start: usize, bad: &Sums) -> bool {
    bad.as_ref().is_none_or(|items| least_weight(line, items) > line[start] as u64)
}

/// Refusal 18: the first bad that no line settles.
pub fn check_light(
    message: &Message,
    weights: &Weights,
    start: usize,
    bads: &[Bad],
    sums: &[Sums],
) -> Result<(), Refusal> {
    for (i, (bad, items)) in bads.iter().zip(sums).enumerate() {
        if !weights.lines.iter().any(|line| settles(line, start, items)) {
            let position = message.bad_rows.at + bad.first;
            return Err(Refusal::new(refusal::LIGHT, position, Detail::Light { bad: i }));
        }
    }
    Ok(())
}
