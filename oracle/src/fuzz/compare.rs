//! Two verifiers on one case: number, place, part, every lent word, and what lies around them.

use super::build;
use super::damage::{self, Case};
use super::rng::Rng;
use super::{letters, returns, weights};
use crate::counters::check_demand_3;
use crate::held::check_names;
use crate::message;
use crate::refusal::{OPEN, VERDICTS, verdict_index};
use crate::stress::sizes;
use crate::verify::Outcome;

/// A verifier to be compared.
pub type Verifier<'a> = &'a dyn Fn(&[u8], &mut [u32]) -> Outcome;

/// Words, and bytes, before and behind what a verifier is given. An odd number: the message
/// then begins at an odd address.
const GUARD: usize = 17;

/// What one verifier made of a case.
#[derive(Clone, Debug, PartialEq, Eq)]
pub struct Seen {
    pub outcome: Outcome,
    pub lent: Vec<u32>,
}

/// What lent word i holds before: no system holds such words, so one written or left shows.
fn filling(i: usize) -> u32 {
    0xA5A5_0000u32.wrapping_add(i as u32)
}

/// These between guards.
fn guarded<T>(inner: impl Iterator<Item = T>, guard: impl Fn(usize) -> T) -> Vec<T> {
    let guard = || (0..GUARD).map(&guard);
    guard().chain(inner).chain(guard()).collect()
}

/// Runs a verifier on a message and on lent words between guards.
pub fn see(verifier: Verifier, case: &Case) -> Result<Seen, String> {
    let bytes = guarded(case.message.iter().copied(), |i| 0xC3 ^ i as u8);
    let before = guarded((0..case.lent).map(filling), |i| !filling(i));
    let mut words = before.clone();
    let outcome = verifier(&bytes[GUARD..GUARD + case.message.len()], &mut words[GUARD..GUARD + case.lent]);
    if bytes[GUARD..GUARD + case.message.len()] != case.message {
        return Err("the message was changed".to_string());
    }
    if words[..GUARD] != before[..GUARD] || words[GUARD + case.lent..] != before[GUARD + case.lent..] {
        return Err("words around the lent ones were changed".to_string());
    }
    let lent = words[GUARD..GUARD + case.lent].to_vec();
    let written = if outcome.number == 0 { 4 + 2 * lent.get(3).map_or(0, |&rows| rows as usize) } else { 0 };
    if written > case.lent || lent[written..] != before[GUARD + written..GUARD + case.lent] {
        return Err(format!("verdict {}: lent words beyond {written} were changed", outcome.number));
    }
    if outcome.number != 0 && outcome.part != (0..0) {
        return Err("a part was handed on after a refusal".to_string());
    }
    Ok(Seen { outcome, lent })
}

/// An outcome in words.
fn told(outcome: &Outcome) -> String {
    format!("{} at {} with a part of {} bytes", outcome.number, outcome.place, outcome.part.len())
}

/// The outcome both agree on, or how they differ.
pub fn compare(first: Verifier, second: Verifier, case: &Case) -> Result<Outcome, String> {
    let a = see(first, case).map_err(|word| format!("the first verifier: {word}"))?;
    let b = see(second, case).map_err(|word| format!("the second verifier: {word}"))?;
    if a.outcome != b.outcome {
        return Err(format!("{}, against {}", told(&a.outcome), told(&b.outcome)));
    }
    match a.lent.iter().zip(&b.lent).position(|(x, y)| x != y) {
        Some(i) => Err(format!("lent word {i}: {} against {}", a.lent[i], b.lent[i])),
        None => Ok(a.outcome),
    }
}

/// How often each verdict was seen, the largest sizes of safe messages, and their runs.
#[derive(Clone, Debug, Default, PartialEq, Eq)]
pub struct Tally {
    /// By the list of all verdicts.
    pub verdicts: [usize; VERDICTS.len()],
    /// Rows, flow, mail, states, ceilings and their entries, lines and their weights: the most of each.
    pub largest: [usize; 8],
    pub runs: usize,
    pub steps: usize,
    /// Runs, of safe messages and of refused ones, in which no process would read a name that holds nothing.
    pub named: usize,
    /// Messages that are not refused before their bounds are looked at and have many.
    pub many_bounds: usize,
    /// Messages whose tables are closed and have a place with several returns, and those whose bads ask there.
    pub shared: usize,
    pub summed: usize,
    /// Messages whose tables are closed and whose mail has an argument of several heads, and those whose bads name heads.
    pub several_heads: usize,
    pub named_heads: usize,
    /// Messages whose tables are closed and that have weights; of these, those with several lines, with items on the same
    /// counters, and with a bad that weighs more than 32 bits hold.
    pub weighed: usize,
    pub several_lines: usize,
    pub overlapping: usize,
    pub past_32_bits: usize,
}

impl Tally {
    pub fn total(&self) -> usize {
        self.verdicts.iter().sum()
    }

    /// Counts a message with this verdict; false if there is no such verdict.
    pub fn count(&mut self, number: u32, message: &[u8]) -> bool {
        let Some(index) = verdict_index(number) else { return false };
        self.verdicts[index] += 1;
        let sizes = sizes(message);
        if matches!(number, 0 | 11..=14) && sizes[4] >= build::MANY_BOUNDS {
            self.many_bounds += 1;
        }
        if number == 0 || number > OPEN {
            let read = message::read(message);
            self.shared += usize::from(read.as_ref().is_ok_and(|m| !returns::shared(m).is_empty()));
            self.summed += usize::from(read.as_ref().is_ok_and(returns::asked));
            self.several_heads += usize::from(read.as_ref().is_ok_and(letters::several));
            self.named_heads += usize::from(read.as_ref().is_ok_and(letters::named));
            if let Some(m) = read.ok().filter(|m| m.weighed) {
                self.weighed += 1;
                self.several_lines += usize::from(m.lines > 1);
                self.overlapping += usize::from(weights::overlapping(&m));
                self.past_32_bits += usize::from(weights::passes_32_bits(&m, message));
            }
        }
        if number == 0 {
            self.largest.iter_mut().zip(sizes).for_each(|(largest, size)| *largest = size.max(*largest));
        }
        true
    }

    pub fn words(&self) -> String {
        let mut text = String::new();
        for (number, count) in VERDICTS.into_iter().zip(self.verdicts) {
            text.push_str(&format!("{number:>3} {:<15} {count}\n", crate::explain::trade_word(number)));
        }
        let share = 100 * self.verdicts[0] / self.total().max(1);
        let [rows, flow, mail, states, ceilings, entries, lines, weights] = self.largest;
        text.push_str(&format!("all {}, safe {share} %, runs {} with {} steps\n", self.total(), self.runs, self.steps));
        text.push_str(&format!("runs without an empty name, safe or not: {}\n", self.named));
        text.push_str(&format!(
            "the most in a safe message: {rows} rows, {flow} flow, {mail} mail, {states} states, {ceilings} ceilings, \
             {entries} entries, {lines} lines, {weights} weights\n"
        ));
        text.push_str(&format!("with {} ceilings or more: {}\n", build::MANY_BOUNDS, self.many_bounds));
        text.push_str(&format!(
            "closed, with a place of several returns: {}, and a bad that asks there: {}\n",
            self.shared, self.summed
        ));
        text.push_str(&format!(
            "closed, with an argument of several heads in the mail: {}, and a bad that names heads: {}\n",
            self.several_heads, self.named_heads
        ));
        text.push_str(&format!(
            "closed, with weights: {}, with several lines: {}, with items on the same counters: {}, past 32 bits: {}\n",
            self.weighed, self.several_lines, self.overlapping, self.past_32_bits
        ));
        text
    }
}

/// Numbers of processes for a run: mostly ones that are there.
fn numbers(rng: &mut Rng) -> Vec<usize> {
    let most = [1, 2, 3, 6, 12][rng.below(5)];
    let length = if rng.chance(1, 3) { 20 } else { 300 };
    (0..rng.range(1, length)).map(|_| rng.below(most + 1)).collect()
}

/// The cases of a fuzz run; a station is used for several.
pub struct Cases {
    rng: Rng,
    station: build::Station,
    left: usize,
    /// Stations near the limits, made when first used.
    large: Vec<build::Station>,
}

/// Cases of one station.
const EACH: usize = 6;

impl Cases {
    pub fn new(seed: u64) -> Cases {
        let mut rng = Rng::new(seed);
        let station = build::station(&mut rng);
        Cases { rng, station, left: EACH, large: Vec::new() }
    }

    pub fn next_case(&mut self) -> Case {
        if self.left == 0 {
            self.station = self.next_station();
            self.left = EACH;
        }
        self.left -= 1;
        match self.rng.chance(2, 5) {
            true => damage::whole(&mut self.rng, &self.station),
            false => damage::damaged(&mut self.rng, &self.station),
        }
    }

    /// Mostly a random one, seldom one with many bounds alike or a large one.
    fn next_station(&mut self) -> build::Station {
        match self.rng.below(200) {
            0 => {}
            1..=2 => return build::alike(&mut self.rng).unwrap_or_else(|| build::station(&mut self.rng)),
            _ => return build::station(&mut self.rng),
        }
        if self.large.is_empty() {
            self.large = build::large().unwrap_or_default();
        }
        let large = self.rng.pick(&self.large).cloned();
        large.unwrap_or_else(|| build::station(&mut self.rng))
    }
}

/// Compares two verifiers on so many cases; stops at the first difference.
pub fn fuzz(seed: u64, count: usize, first: Verifier, second: Verifier) -> Result<Tally, (Case, String)> {
    let mut cases = Cases::new(seed);
    let mut tally = Tally::default();
    for i in 0..count {
        let case = cases.next_case();
        let failed = |word: String| (case.clone(), format!("case {i}: {word}"));
        let outcome = compare(first, second, &case).map_err(failed)?;
        if !tally.count(outcome.number, &case.message) {
            return Err(failed(format!("verdict {}", outcome.number)));
        }
        if outcome.number == 0 && cases.rng.chance(1, 2) {
            let rules = check_demand_3(&case.message, &numbers(&mut cases.rng)).map_err(failed)?;
            tally.runs += 1;
            tally.steps += rules.len();
        }
        if (outcome.number == 0 || outcome.number > 5)
            && cases.rng.chance(1, 4)
            && check_names(&case.message, &numbers(&mut cases.rng)).map_err(failed)?
        {
            tally.named += 1;
        }
    }
    Ok(tally)
}
