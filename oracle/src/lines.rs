//! Weighted sums that no rule raises, found by linear constraints.
//!
//! A line gives each counter a weight. No rule may raise the weighed sum, and a bad must weigh more than the start:
//! then no run meets it. What is looked for are weights whose sum is 1 and for which the bad weighs as much as may be above
//! the start, by the simplex method, in floating numbers; what is found is made whole and checked exactly.

use crate::bounds::Sum;
use crate::explore::{Limits, Net};
use crate::limits::{self, UNBOUNDED};
use crate::weights::{Line, Needed, change, least_weight, needed};
use std::collections::{BTreeMap, BTreeSet};

/// Constraints times unknowns that are tried at most, for each unit of the budget.
const CELLS_EACH: usize = 30;
/// Steps of the simplex method that are tried at most, for each unknown and each constraint.
const STEPS_EACH: usize = 4;
/// Steps times cells of the table.
const MOST_WORK: usize = 4_000_000_000;
/// How often all weights are gone through to make them lighter.
const LIGHTENED: usize = 20;
/// What a floating number must differ from 0 by.
const TINY: f64 = 1e-9;
/// How weights are made whole: the least one that is not 0 becomes one of 1 to this.
const MOST_LEAST: usize = 60;

/// True if no rule raises the line's sum.
fn never_rises(net: &Net, line: &[u16]) -> bool {
    net.system.rules.iter().all(|rule| change(line, rule) <= 0)
}

/// Lines that settle every bad between them: one for all of them if there is one, else one for each that the others do
/// not settle. Or what was tried for the first bad without one.
pub fn find(net: &Net, budget: usize) -> Result<Vec<Line>, Tried> {
    let all: Vec<&[Sum]> = net.bads.iter().flatten().map(Vec::as_slice).collect();
    if all.is_empty() {
        return Ok(vec![vec![0; net.system.counters()]]);
    }
    if let Ok(line) = find_for(net, &all, budget) {
        return Ok(vec![line]);
    }
    let mut lines: Vec<Line> = Vec::new();
    for (bad, items) in net.bads.iter().enumerate().filter_map(|(i, bad)| Some((i, bad.as_ref()?))) {
        if lines.iter().any(|line| least_weight(line, items) > line[net.start] as u64) {
            continue;
        }
        lines.push(find_for(net, &[items], budget).map_err(|why| Tried { bad, why })?);
    }
    Ok(lines)
}

/// The bad that no line was found for, and why.
#[derive(Clone, Debug, PartialEq, Eq)]
pub struct Tried {
    pub bad: usize,
    pub why: Why,
}

#[derive(Clone, Copy, Debug, PartialEq, Eq)]
pub enum Why {
    /// As far as the simplex method tells, no weights at all that no rule raises weigh it above the start.
    NoSum,
    /// There are such weights, but none was found that are whole and no more than 1,000.
    NotWhole,
    /// So many constraints on so many weights are more than the budget allows.
    TooMany(usize, usize),
    /// The simplex method was not done after so many steps.
    TooLong(usize),
    /// With a line for it all lines have so many entries, more than a message holds.
    ManyEntries(usize),
}

/// One line that settles all these bads, or why none was found.
fn find_for(net: &Net, bads: &[&[Sum]], budget: usize) -> Result<Line, Why> {
    let problem = Problem::new(net, bads);
    let cells = problem.rows.len() * problem.unknowns;
    if cells > CELLS_EACH * budget {
        return Err(Why::TooMany(problem.rows.len(), problem.unknowns));
    }
    let found = problem.solve()?;
    let weights = &found[..net.system.counters()];
    let whole = (1..=MOST_LEAST).filter_map(|least| made_whole(weights, least));
    let line = whole.into_iter().find(|line| never_rises(net, line) && settles_all(net, line, bads));
    line.map(|line| lightened(net, line, bads)).ok_or(Why::NotWhole)
}

fn settles_all(net: &Net, line: &[u16], bads: &[&[Sum]]) -> bool {
    bads.iter().all(|items| least_weight(line, items) > line[net.start] as u64)
}

/// The same line with less weight where it needs none: every weight in turn as low as the rules that take from its
/// counter allow, while all the bads stay settled.
fn lightened(net: &Net, mut line: Line, bads: &[&[Sum]]) -> Line {
    let mut taking: Vec<Vec<usize>> = vec![Vec::new(); line.len()];
    for (i, rule) in net.system.rules.iter().enumerate() {
        [Some(rule.from), rule.read()].into_iter().flatten().for_each(|counter| taking[counter].push(i));
    }
    for _ in 0..LIGHTENED {
        let mut still = true;
        for counter in 0..line.len() {
            let weight = line[counter];
            let room = |&i: &usize| -change(&line, &net.system.rules[i]);
            let spare = taking[counter].iter().map(room).min().unwrap_or(weight as i32).min(weight as i32);
            for less in [spare, 1] {
                line[counter] = weight - less.min(spare).max(0) as u16;
                if line[counter] < weight && settles_all(net, &line, bads) {
                    still = false;
                    break;
                }
                line[counter] = weight;
            }
        }
        if still {
            break;
        }
    }
    line
}

/// Weights in proportion, the least that is not 0 as this number.
fn made_whole(weights: &[f64], least: usize) -> Option<Line> {
    let smallest = weights.iter().copied().filter(|&w| w > TINY).fold(f64::INFINITY, f64::min);
    let whole = |&weight: &f64| (weight * least as f64 / smallest).round();
    let line: Vec<f64> = weights.iter().map(whole).collect();
    line.iter().all(|&w| w <= limits::WEIGHT.1 as f64).then(|| line.iter().map(|&w| w as u16).collect())
}

/// Most of an unknown under constraints `row . x <= limit`, limits not below 0, all unknowns from 0: the counters'
/// weights, one for the lightest of each group of a bad, and how much every bad weighs above the start.
struct Problem {
    unknowns: usize,
    rows: Vec<(Vec<(usize, f64)>, f64)>,
}

impl Problem {
    fn new(net: &Net, bads: &[&[Sum]]) -> Problem {
        let counters = net.system.counters();
        let mut distinct = BTreeSet::new();
        for rule in &net.system.rules {
            let mut changes: BTreeMap<usize, i32> = BTreeMap::new();
            [Some(rule.to), rule.adds()].into_iter().flatten().for_each(|c| *changes.entry(c).or_default() += 1);
            [Some(rule.from), rule.read()].into_iter().flatten().for_each(|c| *changes.entry(c).or_default() -= 1);
            let row: Vec<(usize, i32)> = changes.into_iter().filter(|&(_, change)| change != 0).collect();
            if row.iter().any(|&(_, change)| change > 0) {
                distinct.insert(row);
            }
        }
        let float = |row: &Vec<(usize, i32)>| (row.iter().map(|&(c, change)| (c, change as f64)).collect(), 0.0);
        let mut rows: Vec<(Vec<(usize, f64)>, f64)> = distinct.iter().map(float).collect();
        rows.push(((0..counters).map(|c| (c, 1.0)).collect(), 1.0));
        let groups: usize = bads.iter().map(|items| needed(items).groups.len()).sum();
        let above = counters + groups;
        let mut lightest = counters;
        for items in bads {
            let Needed { singles, groups } = needed(items);
            let mut row: BTreeMap<usize, f64> = BTreeMap::from([(above, 1.0)]);
            *row.entry(net.start).or_default() += 1.0;
            singles.iter().for_each(|(&c, &minimum)| *row.entry(c).or_default() -= minimum as f64);
            for (group, missing) in groups {
                row.insert(lightest, -(missing as f64));
                rows.extend(group.iter().map(|&c| (vec![(lightest, 1.0), (c, -1.0)], 0.0)));
                lightest += 1;
            }
            rows.push((row.into_iter().collect(), 0.0));
        }
        Problem { unknowns: above + 1, rows }
    }

    /// The unknowns where the last one is greatest, if that is above 0. The limits are made a little wider, each by
    /// another bit, so that no step stands still; what is found is told by the limits as they are.
    fn solve(&self) -> Result<Vec<f64>, Why> {
        let mut table = Table::new(self);
        let steps = STEPS_EACH * (self.unknowns + self.rows.len());
        let steps = steps.min(MOST_WORK / (self.unknowns * self.rows.len()));
        let mut done = false;
        for _ in 0..steps {
            let Some(column) = table.entering() else {
                done = true;
                break;
            };
            let row = table.leaving(column).ok_or(Why::NoSum)?;
            table.pivot(row, column);
        }
        let found = table.unknowns(self.unknowns);
        match found[self.unknowns - 1] > TINY {
            true => Ok(found),
            false => Err(if done { Why::NoSum } else { Why::TooLong(steps) }),
        }
    }
}

/// The constraints solved for the unknowns in `basis`, as in Dantzig's tableau; the last row is what shall grow, the last
/// two columns are the limits as they are and a little wider.
struct Table {
    width: usize,
    cells: Vec<f64>,
    /// By row and by column: which unknown stands there; those behind the unknowns are what a constraint has left.
    basis: Vec<usize>,
    others: Vec<usize>,
}

impl Table {
    fn new(problem: &Problem) -> Table {
        let (n, m) = (problem.unknowns, problem.rows.len());
        let width = n + 2;
        let mut cells = vec![0.0; (m + 1) * width];
        for (i, (row, limit)) in problem.rows.iter().enumerate() {
            row.iter().for_each(|&(c, value)| cells[i * width + c] = value);
            let bit = ((i as u64 + 1).wrapping_mul(0x9E37_79B9_7F4A_7C15) >> 40) as f64 / (1u64 << 24) as f64;
            cells[i * width + n] = *limit;
            cells[i * width + n + 1] = limit + 1e-7 * (0.5 + bit);
        }
        cells[m * width + n - 1] = -1.0;
        Table { width, cells, basis: (n..n + m).collect(), others: (0..n).collect() }
    }

    fn cell(&self, row: usize, column: usize) -> f64 {
        self.cells[row * self.width + column]
    }

    /// The column that makes the last row grow most.
    fn entering(&self) -> Option<usize> {
        let last = &self.cells[self.basis.len() * self.width..][..self.width - 2];
        let (column, value) = last.iter().enumerate().min_by(|a, b| a.1.total_cmp(b.1))?;
        (*value < -TINY).then_some(column)
    }

    /// The row that ends the growth of a column first.
    fn leaving(&self, column: usize) -> Option<usize> {
        let rows = (0..self.basis.len()).filter(|&row| self.cell(row, column) > TINY);
        let most = |row: usize| self.cell(row, self.width - 1) / self.cell(row, column);
        rows.min_by(|&a, &b| most(a).total_cmp(&most(b)))
    }

    fn pivot(&mut self, row: usize, column: usize) {
        let (width, pivot) = (self.width, self.cell(row, column));
        let mut own: Vec<f64> = self.cells[row * width..][..width].iter().map(|value| value / pivot).collect();
        own[column] = 1.0 / pivot;
        for (_, line) in self.cells.chunks_mut(width).enumerate().filter(|&(i, _)| i != row) {
            let factor = line[column];
            if factor != 0.0 {
                line.iter_mut().zip(&own).for_each(|(value, own)| *value -= factor * own);
                line[column] = -factor / pivot;
            }
        }
        self.cells[row * width..][..width].copy_from_slice(&own);
        std::mem::swap(&mut self.basis[row], &mut self.others[column]);
    }

    fn unknowns(&self, count: usize) -> Vec<f64> {
        let mut found = vec![0.0; count];
        let held = self.basis.iter().enumerate().filter(|&(_, &unknown)| unknown < count);
        held.for_each(|(row, &unknown)| found[unknown] = self.cell(row, self.width - 2));
        found
    }
}

/// The highest counts of a line's start weight, as bounds; none if there are more than `most`. Counters without a
/// weight are unbounded.
pub fn bounds(net: &Net, line: &[u16], most: usize) -> Option<Vec<Limits>> {
    let heavy: Vec<usize> = (0..line.len()).filter(|&c| line[c] > 0).collect();
    let mut limits: Limits = line.iter().map(|&weight| if weight == 0 { UNBOUNDED } else { 0 }).collect();
    let mut found = Vec::new();
    fill(line, &heavy, line[net.start] as usize, &mut limits, &mut found, most).then_some(found)
}

/// Every way to spend what is left of the weight on these counters so that none of them fits once more; false if there
/// are too many.
fn fill(line: &[u16], heavy: &[usize], left: usize, limits: &mut Limits, found: &mut Vec<Limits>, most: usize) -> bool {
    let Some((&counter, others)) = heavy.split_first() else {
        let fits_more = limits.iter().zip(line).any(|(_, &weight)| weight > 0 && weight as usize <= left);
        if !fits_more {
            found.push(limits.clone());
        }
        return found.len() <= most;
    };
    let weight = line[counter] as usize;
    for count in (0..=left / weight).rev() {
        limits[counter] = count as u16;
        if !fill(line, others, left - count * weight, limits, found, most) {
            return false;
        }
    }
    limits[counter] = 0;
    true
}
