//! The counters' run, and what holds of its counts.

use crate::bads::{Bad, Item, Place};
use crate::bounds::{self, Bounds, Sum, Sums};
use crate::limits::UNBOUNDED;
use crate::machine::{Deed, Machine, Process, Step};
use crate::program::Program;
use crate::store::ValueId;
use crate::system::{Effect, Rule, System};
use crate::tables::Tables;
use crate::verify::Read;
use crate::weights::Weights;

/// A whole number without limit for each counter (64 bits outlast any run here).
#[derive(Clone, Debug, PartialEq, Eq)]
pub struct Counts(pub Vec<u64>);

impl Counts {
    /// 1 for state (R, start), 0 for the others.
    pub fn start(system: &System, start: usize) -> Counts {
        let mut counts = vec![0; system.counters()];
        counts[start] = 1;
        Counts(counts)
    }

    /// Uses a rule; false, with nothing changed, where it can't be used.
    pub fn apply(&mut self, rule: &Rule) -> bool {
        let free = self.0[rule.from] >= 1 && rule.read().is_none_or(|letter| self.0[letter] >= 1);
        if free {
            self.0[rule.from] -= 1;
            rule.read().into_iter().for_each(|letter| self.0[letter] -= 1);
            self.0[rule.to] += 1;
            rule.adds().into_iter().for_each(|counter| self.0[counter] += 1);
        }
        free
    }

    pub fn under(&self, limits: &[u16]) -> bool {
        self.0.iter().zip(limits).all(|(&count, &limit)| limit == UNBOUNDED || count <= limit as u64)
    }

    pub fn under_one(&self, bounds: &Bounds) -> bool {
        bounds.limits.iter().any(|limits| self.under(limits))
    }

    /// Their sum in a line.
    pub fn weighed(&self, line: &[u16]) -> u64 {
        self.0.iter().zip(line).map(|(&count, &weight)| count * weight as u64).sum()
    }

    /// True if every item is met.
    pub fn meet(&self, items: &[Sum]) -> bool {
        items.iter().all(|item| item.count(&self.0) >= item.minimum as u64)
    }
}

/// A station's counts; none if a process or message has no counter.
pub fn station_counts(machine: &Machine, tables: &Tables, system: &System) -> Option<Counts> {
    let mut counts = vec![0; system.counters()];
    for process in &machine.processes {
        counts[tables.state(machine.state(process))?] += 1;
        for &message in &process.mailbox {
            counts[system.letter(process.class, machine.letter(message))?] += 1;
        }
    }
    Some(Counts(counts))
}

/// The index of the rule that a step uses.
pub fn rule_of(step: &Step, tables: &Tables, system: &System) -> Option<usize> {
    let (from, to) = (tables.state(step.from)?, tables.state(step.to)?);
    let effect = match step.deed {
        Deed::Inner => Effect::Nothing,
        Deed::Read { letter } => Effect::Read(system.letter(step.from.class, letter)?),
        Deed::Put { class, letter, .. } => Effect::Put(system.letter(class, letter)?),
        Deed::New { state, .. } => Effect::New(tables.state(state)?),
    };
    let begin = system.rules.partition_point(|rule| rule.from < from);
    let rule = Rule { from, to, effect };
    system.rules[begin..].iter().position(|other| *other == rule).map(|i| begin + i)
}

/// What lies in the mailboxes of some processes.
fn messages<'a>(processes: impl Iterator<Item = &'a Process>) -> impl Iterator<Item = ValueId> {
    processes.flat_map(|process| process.mailbox.iter().copied())
}

/// True if some mailbox directly holds a function; one inside a constructor does not count.
pub fn holds_function(machine: &Machine) -> bool {
    let function = machine.program.arities.len();
    messages(machine.processes.iter()).any(|message| machine.head_of(message) == function)
}

/// True if a station meets a bad, counted in the station itself.
pub fn meets(machine: &Machine, bad: &Bad) -> bool {
    let count = |item: &Item| {
        let processes = machine.processes.iter().filter(|process| process.class == item.class);
        match item.place {
            Place::Head(head) => processes.filter(|process| process.location == head).count(),
            Place::Kind(kind) => messages(processes).filter(|&message| machine.head_of(message) == kind).count(),
            Place::Letter(letter) => messages(processes).filter(|&message| machine.letter(message) == letter).count(),
        }
    };
    bad.items.iter().all(|item| count(item) >= item.minimum as usize)
}

/// The evidence of a safe message.
#[derive(Clone, Copy)]
pub enum Safe<'a> {
    Bounds(&'a Bounds),
    Weights(&'a Weights),
}

impl<'a> Safe<'a> {
    /// That of a message that was found safe.
    pub fn of(read: &'a Read) -> Option<Safe<'a>> {
        let weights = read.weights.as_ref().map(Safe::Weights);
        weights.or_else(|| read.bounds.as_ref().map(Safe::Bounds))
    }
}

/// A station beside its counters, and the evidence where it is safe.
pub struct Beside<'a> {
    pub machine: Machine<'a>,
    pub counts: Counts,
    pub tables: &'a Tables,
    pub system: &'a System,
    safe: Option<Safe<'a>>,
    start: Counts,
    bads: Vec<Sums>,
}

impl<'a> Beside<'a> {
    pub fn new(
        program: &'a Program,
        tables: &'a Tables,
        system: &'a System,
        safe: Option<Safe<'a>>,
        bads: &[Bad],
    ) -> Option<Beside<'a>> {
        let start = tables.state(program.opening())?;
        Some(Beside {
            machine: Machine::new(program),
            counts: Counts::start(system, start),
            tables,
            system,
            safe,
            start: Counts::start(system, start),
            bads: bads.iter().map(|bad| bounds::bad_sums(tables, system, bad)).collect(),
        })
    }

    /// One number: the process steps and the counters' run follows with the rule the step uses.
    pub fn step(&mut self, number: usize) -> Result<Option<usize>, String> {
        match self.machine.step(number) {
            Ok(step) => self.follow(&step).map(Some),
            Err(_) => Ok(None),
        }
    }

    /// The counters use the rule of a step that the station took; gives the rule.
    pub fn follow(&mut self, step: &Step) -> Result<usize, String> {
        let rule = rule_of(step, self.tables, self.system).ok_or_else(|| format!("no rule for {step:?}"))?;
        let before = self.weighed(&self.counts);
        if !self.counts.apply(&self.system.rules[rule]) {
            return Err(format!("rule {rule} can't be used in its turn"));
        }
        let after = self.weighed(&self.counts);
        match after.iter().zip(&before).position(|(after, before)| after > before) {
            Some(line) => Err(format!("rule {rule} raises line {line}")),
            None => Ok(rule),
        }
    }

    /// The sums that the lines weigh, where the evidence is weights.
    pub fn weighed(&self, counts: &Counts) -> Vec<u64> {
        let Some(Safe::Weights(weights)) = self.safe else { return Vec::new() };
        weights.lines.iter().map(|line| counts.weighed(line)).collect()
    }

    /// Demand 3 for the counts as they stand, and that no mailbox directly holds a function ((x) of 02); of a station
    /// that is not safe, that the counts are equal.
    pub fn check(&self) -> Result<(), String> {
        if self.safe.is_some() && holds_function(&self.machine) {
            return Err("a mailbox directly holds a function".to_string());
        }
        let station = station_counts(&self.machine, self.tables, self.system);
        if station.as_ref() != Some(&self.counts) {
            return Err(format!("the station counts {station:?}, the counters {:?}", self.counts));
        }
        match self.safe {
            None => return Ok(()),
            Some(Safe::Bounds(bounds)) if !self.counts.under_one(bounds) => {
                return Err(format!("counts {:?} lie under no ceiling", self.counts));
            }
            Some(Safe::Bounds(_)) => {}
            Some(Safe::Weights(_)) => {
                let (now, start) = (self.weighed(&self.counts), self.weighed(&self.start));
                if now.iter().zip(&start).any(|(now, start)| now > start) {
                    return Err(format!("counts {:?} weigh more than the start", self.counts));
                }
            }
        }
        match self.bads.iter().flatten().position(|items| self.counts.meet(items)) {
            Some(bad) => Err(format!("counts {:?} meet bad {bad}", self.counts)),
            None => Ok(()),
        }
    }

    /// Demand 3 for a whole list of process numbers.
    pub fn run(&mut self, numbers: &[usize]) -> Result<Vec<usize>, String> {
        self.check()?;
        let mut rules = Vec::new();
        for &number in numbers {
            rules.extend(self.step(number)?);
            self.check()?;
        }
        Ok(rules)
    }
}

/// Runs a safe message over a list of process numbers and checks demand 3 after each.
/// Gives the rules that were used.
pub fn check_demand_3(message: &[u8], numbers: &[usize]) -> Result<Vec<usize>, String> {
    let mut read = crate::verify::Read::default();
    crate::verify::inspect(message, &mut read).map_err(|r| format!("refused {} at {}", r.number, r.position))?;
    match (&read.program, &read.tables, &read.system, Safe::of(&read), &read.bads) {
        (Some(program), Some(tables), Some(system), Some(safe), Some(bads)) => {
            let beside = Beside::new(program, tables, system, Some(safe), bads);
            beside.ok_or("no starting state")?.run(numbers)
        }
        _ => Err("not all parts were read".to_string()),
    }
}
