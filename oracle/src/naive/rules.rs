//! Rules by value instead of by set: one for each case of 01, sorted by the keys 01 names, repeats dropped.

use super::closed::{Pairs, both, call, classes, functions, may_match, returns};
use crate::bads::{Item, Place};
use crate::program::{Branch, Head, Pattern, Program, Row, State};
use std::collections::{BTreeMap, BTreeSet};

/// A letter as 02 writes it: the constructor, then the heads of its arguments; or C, or C + 1.
pub type Letter = Vec<usize>;

#[derive(Clone, Debug, PartialEq, Eq, PartialOrd, Ord)]
pub enum Counter {
    State(State),
    Letter(usize, Letter),
}

/// From, to, and tag and counter of the rest.
pub type Rule = (usize, usize, Option<(u32, usize)>);

pub struct Plain {
    pub counters: Vec<Counter>,
    pub rules: Vec<Rule>,
}

pub fn rows(rule: &Rule) -> Vec<(u32, u32)> {
    let mut rows = vec![(50, rule.0 as u32), (51, rule.1 as u32)];
    rows.extend(rule.2.map(|(tag, counter)| (tag, counter as u32)));
    rows
}

/// A rule with what it is sorted by: state, then function, call row, branch or class, then letter.
type Keyed = ((usize, usize, usize), Rule);

impl Plain {
    pub fn new(program: &Program, pairs: &Pairs) -> Plain {
        let mut counters: Vec<Counter> = pairs.states.iter().map(|&state| Counter::State(state)).collect();
        let mut letters = BTreeSet::new();
        for &(class, value) in &pairs.mail {
            let heads = heads(program, pairs, value);
            if heads.iter().any(BTreeSet::is_empty) {
                continue;
            }
            add_letters(&heads, &mut vec![program.head_of(value)], &mut |letter: &Letter| {
                letters.insert(Counter::Letter(class, letter.clone()));
                letters.len() <= 1024
            });
        }
        counters.extend(letters);
        let mut plain = Plain { counters, rules: Vec::new() };
        if plain.counters.len() <= 1024 {
            plain.rules = plain.all_rules(program, pairs);
        }
        plain
    }

    /// The letters of a class that a message with these heads may be, each with its counter.
    fn letters<'a>(
        &'a self,
        class: usize,
        kind: usize,
        heads: &'a [BTreeSet<usize>],
    ) -> impl Iterator<Item = usize> + 'a {
        let fits = move |letter: &Letter| {
            letter[0] == kind && letter[1..].iter().zip(heads).all(|(head, heads)| heads.contains(head))
        };
        let counters = self.counters.iter().enumerate();
        counters.filter_map(move |(i, counter)| match counter {
            Counter::Letter(c, letter) if *c == class && fits(letter) => Some(i),
            _ => None,
        })
    }

    fn number(&self, counter: Counter) -> usize {
        self.counters.iter().position(|c| *c == counter).unwrap_or(usize::MAX)
    }

    /// The counters that an item counts.
    pub fn counters_of(&self, program: &Program, item: &Item) -> Vec<usize> {
        let counted = |counter: &Counter| match (item.place, counter) {
            (Place::Head(head), Counter::State(state)) => (item.class, head) == (state.class, state.head),
            (Place::Kind(kind), Counter::Letter(class, other)) => item.class == *class && kind == other[0],
            (Place::Letter(letter), Counter::Letter(class, other)) => {
                let named: Letter = [letter.kind].into_iter().chain(letter.heads(program)).collect();
                item.class == *class && named == *other
            }
            _ => false,
        };
        (0..self.counters.len()).filter(|&i| counted(&self.counters[i])).collect()
    }

    /// The sum of the limits of an item's counters; 0 if it has none, nothing if it is unbounded.
    pub fn limit_of(&self, program: &Program, item: &Item, limits: &[u16]) -> Option<u64> {
        let limits = self.counters_of(program, item).into_iter().map(|c| limits[c]);
        limits.map(|limit| (limit != 65_535).then_some(limit as u64)).sum()
    }

    fn all_rules(&self, program: &Program, pairs: &Pairs) -> Vec<Rule> {
        let mut keyed: Vec<Keyed> = Vec::new();
        for (from, &state) in pairs.states.iter().enumerate() {
            keyed.extend(self.state_rules(program, pairs, from, state));
        }
        keyed.sort();
        let mut rules: Vec<Rule> = Vec::new();
        for (_, rule) in keyed {
            let repeated = rules.iter().rev().take_while(|other| other.0 == rule.0).any(|other| *other == rule);
            if !repeated {
                rules.push(rule);
            }
        }
        rules
    }

    fn state_rules(&self, program: &Program, pairs: &Pairs, from: usize, at: State) -> Vec<Keyed> {
        let (class, row) = (at.class, at.head);
        let to = |head: Row| self.number(Counter::State(at.at(head)));
        let into = |head: Row, back: usize| self.number(Counter::State(State { class, head, back }));
        let bodies = |name: usize, count: usize| {
            functions(program, pairs, name, count).into_iter().filter_map(|f| program.function(f))
        };
        let mut keyed = Vec::new();
        match program.head(row) {
            Some(Head::Build { rest, .. } | Head::Function { rest, .. } | Head::SelfAddress { rest, .. }) => {
                keyed.push(((from, 0, 0), (from, to(*rest), None)));
            }
            Some(Head::Call { callee, args, .. }) => {
                keyed.extend(bodies(*callee, args.len()).map(|f| ((from, f.row, 0), (from, into(f.body, row), None))));
            }
            Some(Head::GiveBack { .. }) => {
                for next in returns(pairs, at) {
                    let rest = call(program, next.head);
                    keyed.extend(rest.map(|(_, rest)| ((from, next.back, 0), (from, into(rest, next.back), None))));
                }
            }
            Some(Head::Send { target, message, rest, .. }) => {
                let values = pairs.values(*message);
                let heads_of: BTreeMap<usize, Vec<BTreeSet<usize>>> =
                    values.iter().map(|&value| (value, heads(program, pairs, value))).collect();
                for (d, value) in both(&classes(program, pairs, *target), &values) {
                    let letters = self.letters(d, program.head_of(value), &heads_of[&value]);
                    keyed.extend(letters.map(|put| ((from, d, put), (from, to(*rest), Some((53, put))))));
                }
            }
            Some(Head::Spawn { callee, rest, .. }) => {
                let new = |body: Row| {
                    Some((54, self.number(Counter::State(State { class: row, head: body, back: program.rows }))))
                };
                keyed.extend(bodies(*callee, 0).map(|f| ((from, f.row, 0), (from, to(*rest), new(f.body)))));
            }
            Some(Head::Case { value, branches }) => {
                for v in pairs.values(*value) {
                    let taken = taken(program, pairs, branches, v);
                    keyed.extend(taken.map(|(i, branch)| ((from, i, 0), (from, to(branch.body), None))));
                }
            }
            Some(Head::Receive { branches }) => {
                for v in pairs.letters(class) {
                    for (i, branch) in taken(program, pairs, branches, v) {
                        let heads = matched_heads(program, pairs, branch.pattern, v);
                        let letters = self.letters(class, program.head_of(v), &heads);
                        keyed.extend(letters.map(|read| ((from, i, read), (from, to(branch.body), Some((52, read))))));
                    }
                }
            }
            None => {}
        }
        keyed
    }
}

/// Every letter with one head of each set, none of which is empty, behind what stands there, until it is enough.
fn add_letters(heads: &[BTreeSet<usize>], letter: &mut Letter, add: &mut dyn FnMut(&Letter) -> bool) -> bool {
    let Some((first, others)) = heads.split_first() else { return add(letter) };
    first.iter().all(|&head| {
        letter.push(head);
        let more = add_letters(others, letter, add);
        letter.pop();
        more
    })
}

/// The heads that the arguments of a value may have, each by its name alone.
fn heads(program: &Program, pairs: &Pairs, value: usize) -> Vec<BTreeSet<usize>> {
    let args = program.build(value).map_or(&[][..], |(_, args)| args);
    args.iter().map(|&arg| pairs.values(arg).into_iter().map(|v| program.head_of(v)).collect()).collect()
}

/// The same of those that a pattern may match.
fn matched_heads(program: &Program, pairs: &Pairs, pattern: Row, value: usize) -> Vec<BTreeSet<usize>> {
    let (Some(Pattern::Constructor { parts, .. }), Some((_, args))) = (program.pattern(pattern), program.build(value))
    else {
        return heads(program, pairs, value);
    };
    let matched = |arg: usize, part: Row| {
        let values = pairs.values(arg).into_iter().filter(|&v| may_match(program, pairs, part, v));
        values.map(|v| program.head_of(v)).collect()
    };
    args.iter().zip(parts).map(|(&arg, &part)| matched(arg, part)).collect()
}

/// Branches that may match a value, with their index.
fn taken<'a>(
    program: &'a Program,
    pairs: &'a Pairs,
    branches: &'a [Branch],
    value: usize,
) -> impl Iterator<Item = (usize, &'a Branch)> + 'a {
    let branches = branches.iter().enumerate();
    branches.filter(move |(_, b)| may_match(program, pairs, b.pattern, value))
}
