//! A run of the counters tried on the station: which process takes each step, and where they part. Beside it a search
//! over the station's own runs, for a bad that no such list of steps meets.

use crate::bounds::Sum;
use crate::counters::{rule_of, station_counts};
use crate::machine::{Idle, Machine, Process, Step};
use crate::program::Program;
use crate::system::System;
use crate::tables::Tables;
use std::cmp::Reverse;
use std::collections::{BinaryHeap, HashSet, VecDeque};
use std::ops::Range;
use std::rc::Rc;

/// A program with its closed tables and the system that they give.
#[derive(Clone, Copy)]
pub struct Derived<'a> {
    pub program: &'a Program,
    pub tables: &'a Tables,
    pub system: &'a System,
}

/// Where no process of the station does what the counters do.
#[derive(Clone, Debug, PartialEq, Eq)]
pub struct Parting {
    /// How many rules could be followed; the next one could not.
    pub followed: usize,
    /// The processes that stand where that rule begins, and what each does in its place.
    pub instead: Vec<(usize, Result<Step, Idle>)>,
}

/// Processes and letters that are kept at most, and processes that are looked at, for each state that may be tried.
const MOST_KEPT: usize = 16;
const MOST_LOOKED_AT: usize = 1000;

/// A place to come back to: other processes could have taken the step.
struct Choice {
    length: usize,
    processes: Vec<Process>,
    others: Vec<usize>,
}

/// Process numbers whose steps use these rules in this order; else the farthest place where the station parts from
/// them, if it was found. `budget` bounds what is tried and kept.
pub fn follow(derived: Derived, rules: &[usize], budget: usize) -> Result<Vec<usize>, Option<Parting>> {
    let mut following =
        Following { machine: Machine::new(derived.program), numbers: Vec::new(), choices: VecDeque::new(), kept: 0 };
    let mut farthest: Option<Parting> = None;
    let mut left = MOST_LOOKED_AT * budget;
    while let Some(&rule) = rules.get(following.numbers.len()) {
        left = left.saturating_sub(1 + following.machine.processes.len());
        if left == 0 {
            return Err(farthest);
        }
        let (usable, instead) = derived.taking(&following.machine, rule);
        if !usable.is_empty() {
            following.choose(usable, MOST_KEPT * budget);
            continue;
        }
        let followed = following.numbers.len();
        if farthest.as_ref().is_none_or(|other| other.followed < followed) {
            farthest = Some(Parting { followed, instead });
        }
        if !following.go_back() {
            return Err(farthest);
        }
    }
    Ok(following.numbers)
}

struct Following<'a> {
    machine: Machine<'a>,
    numbers: Vec<usize>,
    choices: VecDeque<Choice>,
    /// Processes in the choices.
    kept: usize,
}

impl Following<'_> {
    /// The first of these processes steps; the others are kept for later, the oldest choices not for ever.
    fn choose(&mut self, mut usable: Vec<usize>, most_kept: usize) {
        let number = usable.remove(0);
        if !usable.is_empty() {
            usable.reverse();
            let processes = self.machine.processes.clone();
            self.kept += processes.len();
            self.choices.push_back(Choice { length: self.numbers.len(), processes, others: usable });
        }
        while self.kept > most_kept {
            let Some(oldest) = self.choices.pop_front() else { break };
            self.kept -= oldest.processes.len();
        }
        self.step(number);
    }

    /// Goes back to the last choice and takes another process; false if there is none.
    fn go_back(&mut self) -> bool {
        let Some(mut choice) = self.choices.pop_back() else { return false };
        self.numbers.truncate(choice.length);
        self.machine.processes.clone_from(&choice.processes);
        let next = choice.others.pop();
        match choice.others.is_empty() {
            true => self.kept -= choice.processes.len(),
            false => self.choices.push_back(choice),
        }
        next.into_iter().for_each(|number| self.step(number));
        true
    }

    fn step(&mut self, number: usize) {
        let _ = self.machine.step(number);
        self.numbers.push(number);
    }
}

/// What a process does, or why it does nothing.
type Doing = (usize, Result<Step, Idle>);

impl Derived<'_> {
    /// Of the processes that stand where a rule begins: the numbers of those that would use it, and what the others
    /// would do.
    fn taking(&self, machine: &Machine, rule: usize) -> (Vec<usize>, Vec<Doing>) {
        let from = self.tables.states[self.system.rules[rule].from];
        let processes = machine.processes.iter().enumerate();
        let there = processes.filter(|(_, p)| machine.state(p) == from);
        let (mut usable, mut instead) = (Vec::new(), Vec::new());
        for (number, _) in there {
            let step = machine.peek(number);
            match step.ok().and_then(|step| rule_of(&step, self.tables, self.system)) == Some(rule) {
                true => usable.push(number),
                false => instead.push((number, step)),
            }
        }
        (usable, instead)
    }
}

/// What the station makes of a run of the counters that meets a bad.
#[derive(Clone, Debug, PartialEq, Eq)]
pub enum Judged {
    /// These process numbers are a run of the station that meets it.
    Run(Vec<usize>),
    /// No run of the station is known that does: where it parts from the counters, how many of its states were tried,
    /// and whether these are all.
    CountersOnly { parting: Option<Parting>, tried: usize, all: bool },
}

/// Tries a run of the counters on the station, then the station's own runs. `whole` if the rules meet the bad as they
/// stand.
pub fn judge(derived: Derived, items: &[Sum], rules: &[usize], whole: bool, budget: usize) -> Judged {
    let parting = match follow(derived, rules, budget) {
        Ok(numbers) if whole => return Judged::Run(numbers),
        Ok(_) => None,
        Err(parting) => parting,
    };
    match search(derived, items, budget) {
        Search::Run(numbers) => Judged::Run(numbers),
        Search::Nothing { tried, all } => Judged::CountersOnly { parting, tried, all },
    }
}

/// What a search over a station's own runs gives.
#[derive(Clone, Debug, PartialEq, Eq)]
pub enum Search {
    /// These numbers are a run that meets the bad.
    Run(Vec<usize>),
    /// No state that was tried meets it; `all` if these are all that the station can reach.
    Nothing { tried: usize, all: bool },
}

/// What stands for a distance where there is no way.
const FAR: usize = 1 << 10;

struct Node {
    processes: Rc<[Process]>,
    parent: usize,
    number: usize,
    depth: usize,
}

/// Settled states of the station, those nearest to the bad first.
struct Searching<'a> {
    derived: Derived<'a>,
    items: &'a [Sum],
    distances: Vec<Vec<usize>>,
    nodes: Vec<Node>,
    seen: HashSet<Rc<[Process]>>,
    waiting: BinaryHeap<Reverse<(usize, usize)>>,
    kept: usize,
}

/// Looks for a run of the station that meets a bad, given as sums of counters; tries at most `budget` states.
pub fn search(derived: Derived, items: &[Sum], budget: usize) -> Search {
    let distances = items.iter().map(|item| distances(derived.system, item.counters.clone())).collect();
    let (nodes, seen, waiting) = (Vec::new(), HashSet::new(), BinaryHeap::new());
    let mut searching = Searching { derived, items, distances, nodes, seen, waiting, kept: 0 };
    let mut machine = Machine::new(derived.program);
    let mut met = searching.arrive(&machine, 0, 0, 0);
    while met.is_none() {
        let Some(Reverse((_, node))) = searching.waiting.pop() else {
            return Search::Nothing { tried: searching.nodes.len(), all: true };
        };
        if searching.nodes.len() > budget || searching.kept > MOST_KEPT * budget {
            return Search::Nothing { tried: searching.nodes.len(), all: false };
        }
        met = searching.expand(&mut machine, node);
    }
    Search::Run(met.map_or_else(Vec::new, |node| unsettled(&mut machine, &searching.numbers(node))))
}

/// The numbers of a run whose states were settled, as the station itself runs: where a settled process gives back
/// through one call, it may do so through many.
fn unsettled(machine: &mut Machine, numbers: &[usize]) -> Vec<usize> {
    let mut settled = Machine::new(machine.program).processes;
    let mut own = settled.clone();
    let mut run = Vec::new();
    for &number in numbers {
        machine.processes = settled;
        let _ = machine.step(number);
        machine.settle(number);
        settled = machine.processes.clone();
        loop {
            machine.processes = own;
            let stepped = machine.step(number).is_ok();
            own = machine.processes.clone();
            run.push(number);
            machine.settle(number);
            if !stepped || machine.processes[number] == settled[number] {
                break;
            }
        }
    }
    run
}

impl Searching<'_> {
    /// Every step from a node; gives a node that meets the bad.
    fn expand(&mut self, machine: &mut Machine, node: usize) -> Option<usize> {
        let (before, depth) = (Rc::clone(&self.nodes[node].processes), self.nodes[node].depth + 1);
        for number in 0..before.len() {
            machine.processes.clear();
            machine.processes.extend_from_slice(&before);
            if machine.step(number).is_ok() {
                machine.settle(number);
                let met = self.arrive(machine, node, number, depth);
                if met.is_some() {
                    return met;
                }
            }
        }
        None
    }

    /// Keeps a state that is new; gives its node if it meets the bad.
    fn arrive(&mut self, machine: &Machine, parent: usize, number: usize, depth: usize) -> Option<usize> {
        if self.seen.contains(&machine.processes[..]) {
            return None;
        }
        let processes: Rc<[Process]> = machine.processes.as_slice().into();
        self.kept += processes.iter().map(|p| 1 + p.mailbox.len()).sum::<usize>();
        self.seen.insert(Rc::clone(&processes));
        self.nodes.push(Node { processes, parent, number, depth });
        let away = self.away(machine);
        self.waiting.push(Reverse((depth + 2 * away, self.nodes.len() - 1)));
        (away == 0).then_some(self.nodes.len() - 1)
    }

    /// How far a state is from the bad, roughly; 0 exactly where it is met.
    fn away(&self, machine: &Machine) -> usize {
        let Some(counts) = station_counts(machine, self.derived.tables, self.derived.system) else { return FAR };
        let items = self.items.iter().zip(&self.distances);
        let missing = items.map(|(item, distances)| {
            let missing = (item.minimum as u64).saturating_sub(item.count(&counts.0)) as usize;
            let others = counts.0.iter().zip(distances).filter(|&(&count, &distance)| count > 0 && distance > 0);
            missing * others.map(|(_, &distance)| distance).min().unwrap_or(FAR)
        });
        missing.sum()
    }

    fn numbers(&self, mut node: usize) -> Vec<usize> {
        let mut numbers = Vec::new();
        while node > 0 {
            numbers.push(self.nodes[node].number);
            node = self.nodes[node].parent;
        }
        numbers.reverse();
        numbers
    }
}

/// For each counter the fewest rules from it to one of some counters, letters left aside.
fn distances(system: &System, to: Range<usize>) -> Vec<usize> {
    let mut distances = vec![FAR; system.counters()];
    distances[to.clone()].fill(0);
    let mut waiting: VecDeque<usize> = to.collect();
    while let Some(counter) = waiting.pop_front() {
        for rule in system.rules.iter().filter(|rule| rule.to == counter || rule.adds() == Some(counter)) {
            if distances[rule.from] == FAR {
                distances[rule.from] = distances[counter] + 1;
                waiting.push_back(rule.from);
            }
        }
    }
    distances
}
