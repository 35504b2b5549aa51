//! Text to message, with the least closed tables and what was found for all bads: lines of weights, or explored bounds
//! (01: ceilings).

use super::ast::{Evidence, Station, Weight};
use super::lower::lower;
use super::parser::parse;
use super::telling::{Telling, ceilings};
use super::warnings::warnings;
use super::words::{STACK, Words, bare};
use crate::bads::Bad;
use crate::bounds::{Sum, Sums, bad_sums};
use crate::evidence;
use crate::explain::trade_word;
use crate::explore::{self, Failure, Limits, Net};
use crate::least::least;
use crate::limits;
use crate::lines::{self, Tried, Why};
use crate::message::{self, Message};
use crate::refusal::{Detail, Refusal, SPACE};
use crate::replay::{Derived, Judged, judge};
use crate::stack::with_stack;
use crate::symbols::Symbols;
use crate::verify::verify_in_detail;
use crate::weights::{Line, least_weight};
use std::collections::BTreeMap;

/// Sets of counts, and states of the station, that are tried at most for each bad where nothing else is said.
pub const BUDGET: usize = 200_000;

pub struct Assembled {
    pub message: Vec<u8>,
    /// Words for the author: warnings, what was found for each bad, the verdict.
    pub notes: Vec<String>,
    /// False if the message is refused, with as many words lent as the programs lend.
    pub safe: bool,
}

/// A station's message. Where a bad has no ceilings it holds those that the other bads have, so that the verifier
/// shows that bad. Where a function may be sent by itself it has none: it is refused before they are looked at.
pub fn assemble(text: &str) -> Result<Assembled, String> {
    assemble_within(text, BUDGET)
}

/// The same with a budget.
pub fn assemble_within(text: &str, budget: usize) -> Result<Assembled, String> {
    with_stack(STACK, || assemble_here(text, budget))?
}

fn assemble_here(text: &str, budget: usize) -> Result<Assembled, String> {
    let station = parse(text)?;
    let lowered = lower(&station)?;
    let mut m = bare(&station, &lowered);
    let refused = |r: Refusal| format!("the rows are refused: {} at {} ({:?})", r.number, r.position, r.detail);
    let (program, bads) = evidence::read(&m).map_err(refused)?;
    let tables = least(&program);
    evidence::put_tables(&mut m, &program, &tables)?;
    let system = evidence::derive(&m, &program, &tables)?;
    let symbols = Words::new(&station, &lowered).symbols(&program, &m);
    let derived = Derived { program: &program, tables: &tables, system: &system };
    let warnings = [lowered.warnings.clone(), warnings(derived, &bads, &symbols)].concat();
    let mut notes: Vec<String> = warnings.iter().map(|warning| format!("warning: {warning}")).collect();
    if tables.mails_function(&program) {
        return Ok(finished(&m, &symbols, notes, "found"));
    }
    let finding = Finding { derived, bads: &bads, budget };
    let telling = Telling { derived, symbols: &symbols };
    if !station.lines.is_empty() {
        let lines = given(&station, derived, &symbols, &mut notes)?;
        notes.extend(finding.settled(&lines, &symbols));
        evidence::put_weights(&mut m, &lines);
        return Ok(finished(&m, &symbols, notes, "given"));
    }
    if station.evidence != Evidence::Ceilings {
        match finding.lines(station.evidence) {
            Ok(Some(lines)) => {
                notes.extend(finding.settled(&lines, &symbols));
                evidence::put_weights(&mut m, &lines);
                return Ok(finished(&m, &symbols, notes, "found"));
            }
            Ok(None) => {}
            Err(tried) => notes.push(tried_words(&tried, &symbols)),
        }
    }
    let (fates, limits) = finding.fates_and_bounds(&mut notes);
    let fates = fates.iter().enumerate().filter(|(_, fate)| !matches!(fate, Fate::NoCounter));
    notes.extend(fates.map(|(i, fate)| format!("{}: {}", symbols.bad(i), telling.fate(fate))));
    evidence::put_bounds(&mut m, &limits);
    Ok(finished(&m, &symbols, notes, "found"))
}

/// The lines that the author gives. A counter that is not there, as the least tables have none, is left out and told.
fn given(station: &Station, derived: Derived, symbols: &Symbols, notes: &mut Vec<String>) -> Result<Vec<Line>, String> {
    let Derived { tables, system, .. } = derived;
    let counters: BTreeMap<String, usize> =
        (0..system.counters()).map(|counter| (symbols.counter(tables, system, counter), counter)).collect();
    let (_, most) = limits::LINES;
    if station.lines.len() > most as usize {
        return Err(format!("{} lines of weights; at most {most} are allowed", station.lines.len()));
    }
    let (least, most) = limits::WEIGHT;
    let mut lines = Vec::new();
    for entries in &station.lines {
        let mut line = vec![0; system.counters()];
        for Weight { line: at, counter, weight } in entries {
            if !(least as usize..=most as usize).contains(weight) {
                return Err(format!("line {at}: a weight of {weight}; weights are {least} to {most}"));
            }
            match counters.get(counter) {
                Some(&counter) if line[counter] == 0 => line[counter] = *weight as u16,
                Some(_) => return Err(format!("line {at}: {counter} is weighed twice")),
                None => notes.push(format!("warning: line {at}: there is no counter {counter}: it is left out")),
            }
        }
        lines.push(line);
    }
    let (entries, (_, most)) = (evidence::weight_entries(&lines).len(), limits::WEIGHT_ENTRIES);
    match entries > most as usize {
        true => Err(format!("{entries} entries of weights; at most {most} are allowed")),
        false => Ok(lines),
    }
}

/// The message, and its verdict as the last note; its evidence was found or given.
fn finished(m: &Message, symbols: &Symbols, mut notes: Vec<String>, how: &str) -> Assembled {
    let message = message::to_bytes(&message::write(m));
    let (_, result) = verify_in_detail(&message, &mut vec![0; limits::LENT]);
    let entries = m.entries.len();
    let (verdict, safe) = match &result {
        Ok(_) if m.weighed => {
            let entries =
                if m.weights.len() == 1 { "1 entry".to_string() } else { format!("{} entries", m.weights.len()) };
            (format!("safe: {} with {entries} {how}", lines_of_weights(m.lines)), true)
        }
        Ok(_) => (format!("safe: {} with {entries} entries found", ceilings(m.bounds)), true),
        Err(r) if r.number == SPACE => {
            (format!("refused: 14 space, {} words needed: safe where so many are lent", r.position), false)
        }
        Err(Refusal { number, position, detail }) => {
            let bad = match detail {
                Detail::Met { bad, .. } | Detail::Light { bad } => format!(", {}", symbols.bad(*bad)),
                _ => String::new(),
            };
            (format!("refused: {number} {}, word {position}{bad}", trade_word(*number)), false)
        }
    };
    notes.push(verdict);
    Assembled { message, notes, safe }
}

/// What was found for one bad.
pub enum Fate {
    /// An item has no counter: it is never met, and a warning tells so.
    NoCounter,
    /// Ceilings for it alone.
    Alone(Vec<Limits>),
    /// None for it alone, but those for all bads together serve it.
    Together,
    Met {
        rules: Vec<usize>,
        judged: Judged,
    },
    TooLarge(String),
}

/// Of the budget, what is spent on fewer ceilings for a bad where there are some already.
const FEWER: usize = 40;

struct Finding<'a> {
    derived: Derived<'a>,
    bads: &'a [Bad],
    budget: usize,
}

fn lines_of_weights(count: usize) -> String {
    if count == 1 { "1 line of weights".to_string() } else { format!("{count} lines of weights") }
}

/// Why there are no weights, in words: what was tried for the bad that has none.
fn tried_words(tried: &Tried, symbols: &Symbols) -> String {
    let bad = symbols.bad(tried.bad);
    let why = match tried.why {
        Why::NoSum => format!("no sum that never rises was found to weigh {bad} above the start"),
        Why::NotWhole => format!("sums that never rise weigh {bad} above the start, but no whole weights to 1,000 do"),
        Why::TooMany(constraints, weights) => {
            format!("{constraints} constraints on {weights} weights were not tried for {bad} (`--budget N`)")
        }
        Why::ManyEntries(entries) => {
            format!("with a line for {bad} they have {entries} entries, more than {}", limits::WEIGHT_ENTRIES.1)
        }
        Why::TooLong(steps) => format!("{steps} steps of the simplex method were not enough for {bad}"),
    };
    format!("no weights found: {why}")
}

impl Finding<'_> {
    /// Weights for all bads, unless a message with ceilings is no longer: two sizes and an entry are two words each.
    fn lines(&self, wanted: Evidence) -> Result<Option<Vec<Line>>, Tried> {
        let Derived { program, tables, system } = self.derived;
        let sums: Vec<Sums> = self.bads.iter().map(|bad| bad_sums(tables, system, bad)).collect();
        let start = tables.state(program.opening()).unwrap_or(0);
        let net = Net { system, start, bads: &sums };
        let lines = lines::find(&net, self.budget)?;
        let entries = evidence::weight_entries(&lines).len();
        if entries > limits::WEIGHT_ENTRIES.1 as usize {
            return Err(Tried { bad: self.bads.len() - 1, why: Why::ManyEntries(entries) });
        }
        if wanted == Evidence::Weights {
            return Ok(Some(lines));
        }
        let ceilings = explore::bounds(&net, self.budget / 8);
        let held = |limits: &Limits| 1 + limits.iter().filter(|&&limit| limit > 0).count();
        let shorter = ceilings.is_ok_and(|all| all.iter().map(held).sum::<usize>() <= entries + 1);
        Ok((!shorter).then_some(lines))
    }

    /// Which line settles each bad.
    fn settled(&self, lines: &[Line], symbols: &Symbols) -> Vec<String> {
        let Derived { program, tables, system } = self.derived;
        let start = tables.state(program.opening()).unwrap_or(0);
        let told = self.bads.iter().enumerate().filter_map(|(i, bad)| {
            let items = bad_sums(tables, system, bad)?;
            let weighed = lines.iter().map(|line| (least_weight(line, &items), line[start] as u64));
            let (line, (weighs, start)) = weighed.enumerate().find(|(_, (weighs, start))| weighs > start)?;
            Some(format!("{}: line {line} weighs it {weighs}, and the start {start}", symbols.bad(i)))
        });
        told.collect()
    }

    /// What was found for each bad, and the ceilings that allow none of the bads that have some.
    fn fates_and_bounds(&self, notes: &mut Vec<String>) -> (Vec<Fate>, Vec<Limits>) {
        if let Ok(limits) = self.bounds(self.bads) {
            return (self.bads.iter().map(|bad| self.fewer(bad)).collect(), limits);
        }
        let mut fates: Vec<Fate> = self.bads.iter().map(|bad| self.fate(bad)).collect();
        let not_met: Vec<Bad> = self.those(&fates, |fate| !matches!(fate, Fate::Met { .. }));
        if let Ok(limits) = self.bounds(&not_met) {
            fates.iter_mut().filter(|fate| matches!(fate, Fate::TooLarge(_))).for_each(|fate| *fate = Fate::Together);
            return (fates, limits);
        }
        let limits = self.together(&fates).unwrap_or_else(|why| {
            notes.push(format!("no ceilings were found that serve all bads together: {why}"));
            self.bounds(&[]).unwrap_or_default()
        });
        (fates, limits)
    }

    fn bounds(&self, bads: &[Bad]) -> Result<Vec<Limits>, Failure> {
        evidence::find_bounds(self.derived.program, self.derived.tables, self.derived.system, bads, self.budget)
    }

    fn those(&self, fates: &[Fate], which: fn(&Fate) -> bool) -> Vec<Bad> {
        self.bads.iter().zip(fates).filter(|(_, fate)| which(fate)).map(|(bad, _)| bad.clone()).collect()
    }

    /// The counters of a bad and what to explore for it alone.
    fn alone(&self, bad: &Bad, explore: impl FnOnce(&Net, &[Sum]) -> Fate) -> Fate {
        let Derived { program, tables, system } = self.derived;
        let Some(items) = bad_sums(tables, system, bad) else { return Fate::NoCounter };
        let start = tables.state(program.opening()).unwrap_or(0);
        explore(&Net { system, start, bads: &[Some(items.clone())] }, &items)
    }

    /// A bad that is known to have ceilings.
    fn fewer(&self, bad: &Bad) -> Fate {
        self.alone(bad, |net, _| explore::fewest(net, self.budget / FEWER).map_or(Fate::Together, Fate::Alone))
    }

    fn fate(&self, bad: &Bad) -> Fate {
        let explored = |net: &Net| match explore::fewest(net, self.budget / FEWER) {
            Err(Failure::TooLarge(_)) => explore::bounds(net, self.budget),
            found => found,
        };
        self.alone(bad, |net, items| match explored(net) {
            Ok(limits) => Fate::Alone(limits),
            Err(Failure::TooLarge(why)) => Fate::TooLarge(why),
            Err(Failure::Coverable { rules, whole, .. }) => {
                let judged = judge(self.derived, items, &rules, whole, self.budget);
                Fate::Met { rules, judged }
            }
        })
    }

    /// Ceilings made of those that each bad has alone; a word where they are too many.
    fn together(&self, fates: &[Fate]) -> Result<Vec<Limits>, String> {
        let alone = fates.iter().filter_map(|fate| if let Fate::Alone(limits) = fate { Some(limits) } else { None });
        let mut all: Option<Vec<Limits>> = None;
        for limits in alone {
            let met = all.map_or(Some(limits.clone()), |all| explore::meet(&all, limits));
            all = Some(met.ok_or("those that each bad has alone make too many")?);
        }
        let all = all.unwrap_or_default();
        match explore::fitting(&all) {
            Err(Failure::TooLarge(why)) => Err(why),
            _ => Ok(all),
        }
    }
}
