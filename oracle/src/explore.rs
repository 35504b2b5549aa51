//! Finding bounds (01: ceilings) by exploring the counters, or by weighted sums.
//!
//! Karp and Miller's tree with acceleration to unbounded. If the exact tree grows too large,
//! counters are at first coarse: positive means unbounded. If a coarse tree meets a bad, its
//! path is tried with true counts; the counter that falls short becomes exact, and the tree is
//! made anew. When no counter falls short the bad is coverable and the path is a run.
//! Between the two, where no rule raises a weighted sum, the highest counts that weigh no more than the start
//! are bounds.

use crate::bounds::{Sum, Sums};
use crate::limits::{self, UNBOUNDED};
use crate::lines;
use crate::system::{Rule, System};
use std::collections::VecDeque;

pub type Limits = Vec<u16>;

/// What to explore: the rules, the starting counter and the bads as sums of counters.
pub struct Net<'a> {
    pub system: &'a System,
    pub start: usize,
    pub bads: &'a [Sums],
}

#[derive(Clone, Debug, PartialEq, Eq)]
pub enum Failure {
    /// This bad can be met. The rules lead there; `whole` if they do so from the start as they
    /// stand, else parts of them must be repeated.
    Coverable { bad: usize, rules: Vec<usize>, whole: bool },
    /// Neither bounds nor a run within the limits; a word on what was exceeded.
    TooLarge(String),
}

struct Node {
    limits: Limits,
    parent: Option<usize>,
    /// The rule that led here; of no meaning at the root.
    rule: usize,
    /// The ancestor that this node was accelerated from.
    pumped: Option<usize>,
}

/// One tree for one choice of exact counters.
struct Tree<'a> {
    net: &'a Net<'a>,
    ranges: &'a [std::ops::Range<usize>],
    exact: &'a [bool],
    nodes: Vec<Node>,
    maximal: Vec<usize>,
    /// Uses of rules that were tried, most of which lead to no new node.
    tried: usize,
}

/// Uses of rules that may be tried for each node of the budget.
const TRIED_EACH: usize = 16;

enum Grown {
    Closed(Vec<Limits>),
    Meets { bad: usize, path: Vec<(usize, Option<usize>)> },
    Exhausted,
}

/// Limits that are compared at once.
const LANES: usize = 32;
/// Most bounds that a tree may hold while it grows.
const MOST_MAXIMAL: usize = 2048;

/// Bounds that hold every count and allow no bad, or why there are none. `budget` bounds the work in nodes.
pub fn bounds(net: &Net, budget: usize) -> Result<Vec<Limits>, Failure> {
    match from(net, budget / 8, true) {
        Err(Failure::TooLarge(_)) => weighed(net, budget).map_or_else(|| from(net, budget, false), Ok),
        found => found,
    }
}

/// Bounds by weighted sums that no rule raises: the highest counts that weigh no more than the start.
fn weighed(net: &Net, budget: usize) -> Option<Vec<Limits>> {
    let mut all: Option<Vec<Limits>> = None;
    for line in lines::find(net, budget).ok()? {
        let limits = lines::bounds(net, &line, MOST_MAXIMAL)?;
        all = Some(all.map_or(Some(limits.clone()), |all| meet(&all, &limits))?);
    }
    all.filter(|limits| fitting(limits).is_ok())
}

/// The same, but few bounds rather than exact ones.
pub fn fewest(net: &Net, budget: usize) -> Result<Vec<Limits>, Failure> {
    match from(net, budget, false) {
        Err(Failure::TooLarge(why)) => weighed(net, budget).ok_or(Failure::TooLarge(why)),
        found => found,
    }
}

/// Bounds that allow only the bads that both allow: counts that stay under some bound of each stay under the least of
/// the two. None if they become too many.
pub fn meet(some: &[Limits], others: &[Limits]) -> Option<Vec<Limits>> {
    let mut kept: Vec<Limits> = Vec::new();
    for (a, b) in some.iter().flat_map(|a| others.iter().map(move |b| (a, b))) {
        let least: Limits = a.iter().zip(b).map(|(a, b)| *a.min(b)).collect();
        if !kept.iter().any(|other| covers(other, &least)) {
            kept.retain(|other| !covers(&least, other));
            kept.push(least);
        }
        if kept.len() > MOST_MAXIMAL {
            return None;
        }
    }
    Some(kept)
}

/// Starts with every counter exact, or every counter coarse.
fn from(net: &Net, budget: usize, all_exact: bool) -> Result<Vec<Limits>, Failure> {
    let ranges = net.system.by_state();
    let mut exact = vec![all_exact; net.system.counters()];
    let mut left = budget;
    loop {
        let mut tree = Tree { net, ranges: &ranges, exact: &exact, nodes: Vec::new(), maximal: Vec::new(), tried: 0 };
        let grown = tree.grow(left, !all_exact);
        left = left.saturating_sub(tree.nodes.len().max(tree.tried / TRIED_EACH));
        match grown {
            Grown::Closed(limits) => {
                let limits = if all_exact { limits } else { coarsen(net, &ranges, exact, limits) };
                return fitting(&limits).map(|()| limits);
            }
            Grown::Exhausted if tree.maximal.len() > MOST_MAXIMAL => {
                return Err(Failure::TooLarge(format!("more than {MOST_MAXIMAL} ceilings were found")));
            }
            Grown::Exhausted => return Err(Failure::TooLarge(format!("{budget} sets of counts were tried"))),
            Grown::Meets { bad, path } => match refine(net, bad, &path, &exact) {
                Refined::Run(rules) => return Err(Failure::Coverable { bad, rules, whole: true }),
                Refined::Exact(counter) => exact[counter] = true,
                Refined::Pattern if exact.iter().all(|&e| e) => return Err(growing(net, bad, &path)),
                Refined::Pattern => exact.fill(true),
            },
        }
    }
}

/// A word if bounds exceed the limits of 01.
pub fn fitting(limits: &[Limits]) -> Result<(), Failure> {
    let entries: usize = limits.iter().map(|l| 1 + l.iter().filter(|&&limit| limit > 0).count()).sum();
    let (most, most_entries) = (limits::BOUNDS.1 as usize, limits::BOUND_ENTRIES.1 as usize);
    if limits.len() > most {
        return Err(Failure::TooLarge(format!("{} ceilings were found, at most {most} are allowed", limits.len())));
    }
    if entries > most_entries {
        return Err(Failure::TooLarge(format!(
            "{entries} ceiling entries were found, at most {most_entries} are allowed"
        )));
    }
    Ok(())
}

/// True if no limit of `lesser` is above that of `greater`. By lanes, which the compiler does at once.
fn covers(greater: &[u16], lesser: &[u16]) -> bool {
    let above =
        |lesser: &[u16], greater: &[u16]| lesser.iter().zip(greater).fold(0, |a, (l, g)| a | l.saturating_sub(*g));
    lesser.chunks(LANES).zip(greater.chunks(LANES)).all(|(l, g)| above(l, g) == 0)
}

impl Tree<'_> {
    /// Grows the tree, nearest nodes first or newest nodes first.
    fn grow(&mut self, budget: usize, nearest: bool) -> Grown {
        let mut root = vec![0; self.net.system.counters()];
        root[self.net.start] = self.coarse(self.net.start, 1);
        self.nodes.push(Node { limits: root, parent: None, rule: 0, pumped: None });
        self.maximal.push(0);
        let mut waiting = VecDeque::from([0]);
        while let Some(node) = if nearest { waiting.pop_front() } else { waiting.pop_back() } {
            if let Some(bad) = self.met(node) {
                return Grown::Meets { bad, path: self.path(node) };
            }
            if !self.maximal.contains(&node) {
                continue;
            }
            let used = self.nodes.len().max(self.tried / TRIED_EACH);
            if used > budget || self.maximal.len() > MOST_MAXIMAL {
                return Grown::Exhausted;
            }
            self.expand(node, &mut waiting);
        }
        Grown::Closed(self.maximal.iter().map(|&n| self.nodes[n].limits.clone()).collect())
    }

    fn coarse(&self, counter: usize, count: u16) -> u16 {
        if count > 0 && !self.exact[counter] { UNBOUNDED } else { count }
    }

    fn met(&self, node: usize) -> Option<usize> {
        let limits = &self.nodes[node].limits;
        let meets = |items: &Vec<Sum>| items.iter().all(|item| item.allowed(limits));
        self.net.bads.iter().position(|bad| bad.as_ref().is_some_and(meets))
    }

    /// Rules from the root to a node, each with the index of the step it pumps from.
    fn path(&self, node: usize) -> Vec<(usize, Option<usize>)> {
        let mut nodes = vec![node];
        while let Some(parent) = self.nodes[nodes[nodes.len() - 1]].parent {
            nodes.push(parent);
        }
        nodes.reverse();
        let place = |of: usize| nodes.iter().position(|&n| n == of);
        let steps = nodes.iter().skip(1).map(|&n| (self.nodes[n].rule, self.nodes[n].pumped.and_then(place)));
        steps.collect()
    }

    fn expand(&mut self, node: usize, waiting: &mut VecDeque<usize>) {
        for state in 0..self.net.system.states {
            if self.nodes[node].limits[state] == 0 {
                continue;
            }
            for rule in self.ranges[state].clone() {
                self.follow(node, rule, waiting);
            }
        }
    }

    fn follow(&mut self, node: usize, rule: usize, waiting: &mut VecDeque<usize>) {
        self.tried += 1;
        let used = self.net.system.rules[rule];
        let Some(mut limits) = self.after(node, &used) else { return };
        if self.maximal.iter().any(|&m| covers(&self.nodes[m].limits, &limits)) {
            return;
        }
        let pumped = self.accelerate(node, &mut limits);
        self.maximal.retain(|&m| !covers(&limits, &self.nodes[m].limits));
        self.nodes.push(Node { limits, parent: Some(node), rule, pumped });
        self.maximal.push(self.nodes.len() - 1);
        waiting.push_back(self.nodes.len() - 1);
    }

    /// What a rule makes of a node; none where it can't be used.
    fn after(&self, node: usize, rule: &Rule) -> Option<Limits> {
        let before = &self.nodes[node].limits;
        if rule.read().is_some_and(|letter| before[letter] == 0) {
            return None;
        }
        let mut limits = before.clone();
        for counter in [Some(rule.from), rule.read()].into_iter().flatten() {
            if limits[counter] != UNBOUNDED {
                limits[counter] -= 1;
            }
        }
        for counter in [Some(rule.to), rule.adds()].into_iter().flatten() {
            limits[counter] = self.coarse(counter, limits[counter].saturating_add(1));
        }
        Some(limits)
    }

    /// Makes unbounded what has grown since an ancestor that lies below.
    fn accelerate(&self, from: usize, limits: &mut Limits) -> Option<usize> {
        let mut pumped = None;
        let mut ancestor = Some(from);
        while let Some(a) = ancestor {
            let below = &self.nodes[a].limits;
            if covers(limits, below) {
                for (limit, &was) in limits.iter_mut().zip(below).filter(|(limit, was)| **limit > **was) {
                    if *limit != UNBOUNDED || was != UNBOUNDED {
                        pumped = pumped.or(Some(a));
                    }
                    *limit = UNBOUNDED;
                }
            }
            ancestor = self.nodes[a].parent;
        }
        pumped
    }
}

enum Refined {
    Run(Vec<usize>),
    Exact(usize),
    Pattern,
}

/// How often the pumped parts of a path are repeated, and the longest run that is tried so.
const REPEATS: [usize; 8] = [0, 1, 2, 4, 8, 16, 32, 64];
const LONGEST_RUN: usize = 20_000;
/// The same for a path that is known to lead to the bad if only its parts are repeated often enough.
const MORE_REPEATS: [usize; 10] = [128, 256, 512, 1024, 2048, 4096, 8192, 16_384, 32_768, 65_536];
const LONGEST_GROWING: usize = 500_000;

/// Tries a path with true counts, its pumped parts repeated more and more often. Of the
/// counters that fall short, the last coarse one, nearest to the bad, shall become exact.
fn refine(net: &Net, bad: usize, path: &[(usize, Option<usize>)], exact: &[bool]) -> Refined {
    let mut short = None;
    for times in REPEATS {
        let Some(mut run) = repeated(path, times, LONGEST_RUN) else { break };
        match replay(net, bad, &run) {
            Ok(length) => {
                run.truncate(length);
                return Refined::Run(run);
            }
            Err(counters) => short = short.or(counters.into_iter().rev().find(|&c| !exact[c])),
        }
        if path.iter().all(|(_, pumped)| pumped.is_none()) {
            break;
        }
    }
    short.map_or(Refined::Pattern, Refined::Exact)
}

/// The run to a bad that a path leads to when its pumped parts are repeated often enough; the path itself if that is
/// too often.
fn growing(net: &Net, bad: usize, path: &[(usize, Option<usize>)]) -> Failure {
    let runs = MORE_REPEATS.iter().map_while(|&times| repeated(path, times, LONGEST_GROWING));
    let met = |mut run: Vec<usize>| {
        let length = replay(net, bad, &run).ok()?;
        run.truncate(length);
        Some(Failure::Coverable { bad, rules: run, whole: true })
    };
    let as_it_stands = || path.iter().map(|&(rule, _)| rule).collect();
    let pattern = || Failure::Coverable { bad, rules: as_it_stands(), whole: false };
    runs.filter_map(met).next().unwrap_or_else(pattern)
}

/// The rules of a path with its pumped parts repeated; none if they are more than the longest run.
fn repeated(path: &[(usize, Option<usize>)], times: usize, longest: usize) -> Option<Vec<usize>> {
    let mut run = Vec::new();
    let mut begins = Vec::new();
    for &(rule, pumped) in path {
        begins.push(run.len());
        run.push(rule);
        if let Some(&begin) = pumped.and_then(|p| begins.get(p)) {
            let part = run[begin..].to_vec();
            if times * part.len() > longest {
                return None;
            }
            (0..times).for_each(|_| run.extend(&part));
        }
        if run.len() > longest {
            return None;
        }
    }
    Some(run)
}

/// Plays a run, letting counts fall below 0: after how many rules it truly meets the bad, or
/// the counters that fell short, in order.
fn replay(net: &Net, bad: usize, run: &[usize]) -> Result<usize, Vec<usize>> {
    let mut counts = vec![0i64; net.system.counters()];
    counts[net.start] = 1;
    let mut short = Vec::new();
    let items: Vec<&Sum> = net.bads[bad].iter().flatten().collect();
    let met = |item: &Sum, counts: &[i64]| counts[item.counters.clone()].iter().sum::<i64>() >= item.minimum as i64;
    for (i, &rule) in run.iter().enumerate() {
        if short.is_empty() && items.iter().all(|item| met(item, &counts)) {
            return Ok(i);
        }
        let rule = &net.system.rules[rule];
        for counter in [Some(rule.from), rule.read()].into_iter().flatten() {
            counts[counter] -= 1;
            if counts[counter] < 0 {
                short.push(counter);
            }
        }
        counts[rule.to] += 1;
        rule.adds().into_iter().for_each(|counter| counts[counter] += 1);
    }
    let missed = items.iter().filter(|item| !met(item, &counts));
    short.extend(missed.flat_map(|item| item.counters.clone()));
    if short.is_empty() { Ok(run.len()) } else { Err(short) }
}

/// Makes exact counters coarse again, one by one, while the bounds still allow no bad.
fn coarsen(net: &Net, ranges: &[std::ops::Range<usize>], mut exact: Vec<bool>, mut limits: Vec<Limits>) -> Vec<Limits> {
    for counter in 0..exact.len() {
        if fitting(&limits).is_ok() {
            break;
        }
        if !std::mem::replace(&mut exact[counter], false) {
            continue;
        }
        let mut tree = Tree { net, ranges, exact: &exact, nodes: Vec::new(), maximal: Vec::new(), tried: 0 };
        match tree.grow(4 * limits.len() + 100, true) {
            Grown::Closed(fewer) if fewer.len() <= limits.len() => limits = fewer,
            _ => exact[counter] = true,
        }
    }
    limits
}
