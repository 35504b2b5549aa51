//! What was found for a bad, in words.

use super::assemble::Fate;
use crate::machine::Machine;
use crate::replay::{Derived, Judged, Parting};
use crate::run::step_words;
use crate::symbols::Symbols;

/// Steps of a run that are shown at most, and words of a list of numbers.
const SHOWN: usize = 60;
const LISTED: usize = 400;
/// Processes that are named at most where a station parts from its counters.
const NAMED: usize = 3;

pub struct Telling<'a> {
    pub derived: Derived<'a>,
    pub symbols: &'a Symbols<'a>,
}

impl Telling<'_> {
    pub fn fate(&self, fate: &Fate) -> String {
        match fate {
            Fate::NoCounter => "never met".to_string(),
            Fate::Alone(limits) => format!("{} found for it alone", ceilings(limits.len())),
            Fate::Together => "no fewer ceilings found for it alone than for all bads together".to_string(),
            Fate::TooLarge(why) => format!("no ceilings found: {why} (`--budget N` tries more)"),
            Fate::Met { judged: Judged::Run(numbers), .. } => {
                format!("a run of the station meets it: {}{}", listed(numbers), self.station_run(numbers))
            }
            Fate::Met { rules, judged: Judged::CountersOnly { parting, tried, all } } => {
                let (which, known) = match all {
                    true => (
                        "only the counters meet it: the evidence is too coarse here",
                        format!("all {tried} states that the station can reach were tried: none meets it"),
                    ),
                    false => (
                        "the counters meet it, but no run of the station was found that does",
                        format!("{tried} states of the station were tried: none meets it (`--budget N` tries more)"),
                    ),
                };
                format!("{which}{}\n  {known}", self.counters_run(rules, parting.as_ref()))
            }
        }
    }

    fn station_run(&self, numbers: &[usize]) -> String {
        let mut machine = Machine::new(self.derived.program);
        let steps = numbers.iter().map(|&number| step_words(self.symbols, number, &machine.step(number)));
        numbered(0, steps.take(SHOWN)) + &more(numbers.len().saturating_sub(SHOWN))
    }

    /// A run of the counters up to where the station parts from it, and what the station does there.
    fn counters_run(&self, rules: &[usize], parting: Option<&Parting>) -> String {
        let end = parting.map_or(rules.len().min(SHOWN), |parting| parting.followed + 1);
        let begin = end.saturating_sub(SHOWN);
        let shown = numbered(begin, rules[begin..end].iter().map(|&rule| self.rule(rule)));
        let Some(parting) = parting else { return shown + &more(rules.len() - end) };
        let instead = parting.instead.iter().map(|(number, step)| step_words(self.symbols, *number, step));
        let instead: Vec<String> = instead.take(NAMED).collect();
        format!("{shown}\n  here, at step {end}, they part: {}", instead.join("; "))
    }

    fn rule(&self, rule: usize) -> String {
        let (tables, system) = (self.derived.tables, self.derived.system);
        let rule = &system.rules[rule];
        let head = tables.states[rule.from].head;
        format!("{} [{}]", self.symbols.rule(tables, system, rule), self.symbols.line(head))
    }
}

/// So many ceilings.
pub fn ceilings(count: usize) -> String {
    if count == 1 { "1 ceiling".to_string() } else { format!("{count} ceilings") }
}

/// Lines with their numbers, each behind a line end.
fn numbered(before: usize, lines: impl Iterator<Item = String>) -> String {
    lines.enumerate().map(|(i, line)| format!("\n  {}. {line}", before + i + 1)).collect()
}

fn more(count: usize) -> String {
    if count == 0 { String::new() } else { format!("\n  ... and {count} more") }
}

/// Numbers as `oracle run` takes them: one by one where they are few, else the same one again as `N*K`.
pub fn listed(numbers: &[usize]) -> String {
    if numbers.len() <= SHOWN {
        return words(numbers.iter().map(usize::to_string));
    }
    let runs: Vec<String> = numbers.chunk_by(|a, b| a == b).map(repeated).collect();
    let (shown, left) = runs.split_at(runs.len().min(LISTED));
    let more = if left.is_empty() { String::new() } else { format!(" and {} more", left.len()) };
    words(shown.iter().cloned()) + &more
}

fn repeated(same: &[usize]) -> String {
    match same {
        [number] => number.to_string(),
        _ => format!("{}*{}", same[0], same.len()),
    }
}

fn words(words: impl Iterator<Item = String>) -> String {
    words.collect::<Vec<_>>().join(" ")
}
