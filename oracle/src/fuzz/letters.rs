//! Stations whose messages have arguments of several heads ((viii) of 02), stations whose letters come near the most
//! counters or pass them by far, and damage to the rows of bads that name heads.

use super::damage::{insert, odd_word, remove};
use super::generate::Rows;
use super::returns::{self, MINIMUMS};
use super::rng::Rng;
use super::row_list::RowList;
use crate::limits;
use crate::message::{self, Message};
use crate::program::Program;
use crate::tables::Tables;
use crate::verify::{self, Read};
use std::collections::BTreeSet;
use std::ops::Range;

/// A program with a routine that sends messages made of what it is given, called with several values; a process that
/// takes them apart; and perhaps a function that is never called, whose messages have arguments without values.
pub fn program(rng: &mut Rng) -> Rows {
    let mut arities = vec![0; rng.range(1, 4)];
    (0..rng.range(1, 3)).for_each(|_| arities.push(if rng.chance(1, 12) { rng.range(4, 8) } else { rng.range(1, 3) }));
    rng.shuffle(&mut arities);
    let list = RowList { rows: arities.iter().map(|&arity| (10, arity)).collect(), names: 0 };
    let constructors = arities.len();
    let mut maker = Maker { rng, arities, list };
    let (sender, params) = maker.sender();
    let taker = maker.taker();
    let hollow = maker.rng.chance(1, 2);
    if hollow {
        maker.sender();
    }
    maker.start(sender, params, taker);
    Rows { rows: maker.list.rows, names: maker.list.names, constructors, functions: 2 + usize::from(hollow) }
}

struct Maker<'r> {
    rng: &'r mut Rng,
    arities: Vec<usize>,
    list: RowList,
}

impl Maker<'_> {
    fn one_of(&mut self, names: &[usize]) -> usize {
        self.rng.pick(names).copied().unwrap_or(0)
    }

    /// A constructor without arguments, or one with some.
    fn constructor(&mut self, with_arguments: bool) -> usize {
        let all: Vec<usize> = (0..self.arities.len()).filter(|&c| (self.arities[c] > 0) == with_arguments).collect();
        self.one_of(&all)
    }

    /// A build whose arguments are some of these names, the same one twice now and then.
    fn build(&mut self, constructor: usize, from: &[usize]) -> usize {
        let args: Vec<(usize, usize)> = (0..self.arities[constructor]).map(|_| (21, self.one_of(from))).collect();
        self.list.bind(2, &[&[(20, constructor)], &args[..]].concat())
    }

    /// A function of the front: its name and its parameters.
    fn function(&mut self, params: usize) -> (usize, Vec<usize>) {
        let name = self.list.bind(11, &[(22, params)]);
        (name, (0..params).map(|_| self.list.bind(23, &[])).collect())
    }

    /// A function that sends one message or two, made of its other parameters, to its first. Gives its name and how
    /// many parameters it has.
    fn sender(&mut self) -> (usize, usize) {
        let count = self.rng.range(2, 4);
        let (name, params) = self.function(count);
        let mut values = params[1..].to_vec();
        if self.rng.chance(1, 3) {
            let constructor = self.constructor(true);
            let inner = self.build(constructor, &values);
            values.push(inner);
        }
        for _ in 0..self.rng.range(1, 2) {
            let constructor = self.constructor(true);
            let message = self.build(constructor, &values);
            self.list.bind(5, &[(21, params[0]), (21, message)]);
        }
        self.list.row(1, params[0]);
        (name, count)
    }

    /// A function without parameters that takes messages apart.
    fn taker(&mut self) -> usize {
        let (name, _) = self.function(0);
        let held = self.held();
        self.receive(&held, Some(name));
        name
    }

    /// Names to be held in patterns: the own address, a value without arguments, perhaps one with some.
    fn held(&mut self) -> Vec<usize> {
        let own = self.list.bind(7, &[]);
        let plain = self.constructor(false);
        let mut held = vec![own, self.build(plain, &[])];
        if self.rng.chance(1, 2) {
            let constructor = self.constructor(true);
            let value = self.build(constructor, &held);
            held.push(value);
        }
        held
    }

    /// A receive of some branches, each of which gives back or takes the next message.
    fn receive(&mut self, held: &[usize], again: Option<usize>) {
        let branches = self.rng.range(1, 4);
        self.list.row(9, branches);
        for _ in 0..branches {
            self.pattern(held, 1);
            let more = again.filter(|_| self.rng.chance(1, 4));
            let next = more.map(|taker| self.list.bind(4, &[(21, taker), (22, 0)]));
            let back = next.unwrap_or_else(|| self.one_of(held));
            self.list.row(1, back);
        }
    }

    /// At the top mostly a constructor with arguments; below it anything.
    fn pattern(&mut self, held: &[usize], level: usize) {
        let deep = level < limits::DEPTH && self.rng.chance(if level == 1 { 4 } else { 1 }, 5);
        match self.rng.below(10) {
            _ if deep => {
                let constructor = self.constructor(true);
                self.list.row(31, constructor);
                (0..self.arities[constructor]).for_each(|_| self.pattern(held, level + 1));
            }
            0..=1 => {
                self.list.bind(30, &[]);
            }
            2..=4 => self.list.row(32, 0),
            5..=7 => {
                let name = self.one_of(held);
                self.list.row(33, name);
            }
            _ => {
                let constructor = self.constructor(false);
                self.list.row(31, constructor);
            }
        }
    }

    /// Calls of the sender with several values for the same parameters, then a receive or the end.
    fn start(&mut self, sender: usize, params: usize, taker: usize) {
        let mut values = self.held();
        let other = self.list.bind(6, &[(21, taker)]);
        values.push(other);
        let plain = self.constructor(false);
        values.push(self.build(plain, &[]));
        if self.rng.chance(1, 5) {
            values.push(taker);
        }
        let mut last = values[0];
        for _ in 0..self.rng.range(1, 4) {
            let target = if self.rng.chance(1, 2) { values[0] } else { other };
            let args: Vec<(usize, usize)> = (1..params).map(|_| (21, self.one_of(&values))).collect();
            last = self.list.bind(4, &[&[(21, sender), (22, params), (21, target)], &args[..]].concat());
        }
        match self.rng.chance(1, 2) {
            true => self.receive(&values, None),
            false => self.list.row(1, last),
        }
    }
}

/// More heads for the arguments of messages, or messages with an argument that has no value.
pub fn add_heads(rng: &mut Rng, program: &Program, tables: &mut Tables) {
    let builds = |wanted: &dyn Fn(&[usize]) -> bool| -> Vec<usize> {
        (0..program.rows).filter(|&row| program.build(row).is_some_and(|(_, args)| wanted(args))).collect()
    };
    let hollow = builds(&|args| args.iter().any(|&arg| tables.flow[arg].is_empty()));
    let with_arguments = builds(&|args| !args.is_empty());
    let values: Vec<usize> = (0..=program.rows).filter(|&value| program.is_value(value)).collect();
    for _ in 0..rng.range(1, 4) {
        let class = rng.below(tables.mail.len());
        match rng.below(4) {
            0 => rng.pick(&hollow).into_iter().for_each(|&build| {
                tables.mail[class].insert(build);
            }),
            1 => rng.pick(&with_arguments).into_iter().for_each(|&build| {
                tables.mail[class].insert(build);
            }),
            _ => {
                let args = rng.pick(&with_arguments).and_then(|&build| program.build(build)).map(|(_, args)| args);
                let arg = args.and_then(|args| rng.pick(args));
                arg.zip(rng.pick(&values)).into_iter().for_each(|(&arg, &value)| {
                    tables.flow[arg].insert(value);
                });
            }
        }
    }
}

/// A program and the entries that make its letters many: values of names, and mail of the start.
pub struct Crowd {
    pub rows: Rows,
    pub flow: Vec<(usize, usize)>,
    pub mail: Vec<usize>,
}

/// How many heads each argument of a message is to have: as many letters as come near this number, or far more.
fn head_counts(rng: &mut Rng, near: usize) -> Vec<usize> {
    if rng.chance(1, 4) {
        let count = [4, 16, 16, 32, 64, 64, 65, 66][rng.below(8)];
        let mut counts = vec![count; rng.range(4, 8)];
        if rng.chance(1, 3) {
            let i = rng.below(counts.len());
            counts[i] = rng.below(3);
        }
        return counts;
    }
    let few = |counts: &[usize]| counts.iter().product::<usize>() + 300 < near;
    let tried = std::iter::repeat_with(|| factors(rng, near)).take(20);
    let counts: Vec<Vec<usize>> = tried.collect();
    let found = counts.iter().find(|counts| !few(counts));
    found.or(counts.first()).cloned().unwrap_or_default()
}

/// Up to eight numbers from 1 to 66 whose product is not above this one.
fn factors(rng: &mut Rng, most: usize) -> Vec<usize> {
    let mut counts = Vec::new();
    let mut left = most;
    while left > 66 || (left > 1 && counts.len() < 7 && rng.chance(1, 2)) {
        let count = rng.range(if left > 66 { 2 } else { 1 }, left.min(34));
        counts.push(count);
        left /= count;
    }
    counts.truncate(limits::ARITY - 1);
    counts.push(left);
    rng.shuffle(&mut counts);
    counts
}

/// States and letters together come near the most counters, now or formerly, or pass them by far. The messages are made
/// in a function that is never called, so that an argument may have any values or none.
pub fn crowd(rng: &mut Rng) -> Crowd {
    let most = if rng.chance(1, 3) { limits::FORMER.counters } else { limits::COUNTERS };
    let near = most - rng.range(30, 300);
    let counts = head_counts(rng, near);
    let arity = counts.len();
    let mut list = RowList { rows: vec![(10, arity)], names: 0 };
    list.rows.extend(vec![(10, 0); 63]);
    let function_row = list.rows.len();
    let unused = list.bind(11, &[(22, arity)]);
    let params: Vec<usize> = (0..arity).map(|_| list.bind(23, &[])).collect();
    let mut values: Vec<usize> = Vec::new();
    for constructor in 1..64 {
        values.push(list.rows.len());
        list.bind(2, &[(20, constructor)]);
    }
    let mut mail = Vec::new();
    let mut args_of = Vec::new();
    for i in 0..rng.range(1, 2) {
        let args: Vec<usize> = params
            .iter()
            .map(|&param| if i == 0 { param } else { rng.pick(&params).copied().unwrap_or(param) })
            .collect();
        let parts: Vec<(usize, usize)> = args.iter().map(|&arg| (21, arg)).collect();
        mail.push(list.rows.len());
        list.bind(2, &[&[(20, 0)], &parts[..]].concat());
        args_of.push(args);
    }
    list.row(1, unused);
    values.extend([mail[0], function_row]);
    let held: Vec<Vec<usize>> = counts.iter().map(|&count| some_of(rng, values.len() + 1, count)).collect();
    let letters = union(&params, &held, &args_of);
    let branches = rng.below(3);
    let others = 2 + branches;
    let wanted = (most + rng.below(4)).saturating_sub(letters + others + rng.below(2));
    let own = list.bind(7, &[]);
    (0..wanted.min(limits::NAMES.1 as usize - list.names - branches)).for_each(|_| {
        list.bind(7, &[]);
    });
    match branches {
        0 => list.row(1, own),
        _ => {
            list.row(9, branches);
            for _ in 0..branches {
                top_pattern(rng, &mut list, arity, own);
                list.row(1, own);
            }
        }
    }
    let start = list.rows.len();
    values.push(start);
    let flow = params.iter().zip(&held).flat_map(|(&param, held)| held.iter().map(move |&i| (param, i)));
    let flow = flow.map(|(param, i)| (param, values[i])).collect();
    let rows = Rows { rows: list.rows, names: list.names, constructors: 64, functions: 1 };
    Crowd { rows, flow, mail }
}

/// Any value, or the message's constructor over any arguments.
fn top_pattern(rng: &mut Rng, list: &mut RowList, arity: usize, own: usize) {
    match rng.below(4) {
        0 => list.row(32, 0),
        1 => {
            list.bind(30, &[]);
        }
        _ => {
            list.row(31, 0);
            for _ in 0..arity {
                match rng.below(12) {
                    0 => list.row(33, own),
                    1 => list.row(31, rng.range(1, 63)),
                    _ => list.row(32, 0),
                }
            }
        }
    }
}

/// So many of the numbers below a bound; fewer where there are fewer.
fn some_of(rng: &mut Rng, bound: usize, count: usize) -> Vec<usize> {
    let mut all: Vec<usize> = (0..bound).collect();
    if rng.chance(1, 2) {
        rng.shuffle(&mut all);
    }
    all.truncate(count);
    all
}

/// How many letters messages with these arguments have together, each name with what it holds; there are two at most.
/// The letters that both have are those whose arguments have a head that both have.
fn union(params: &[usize], held: &[Vec<usize>], messages: &[Vec<usize>]) -> usize {
    let heads = |arg: usize| -> BTreeSet<usize> {
        params.iter().position(|&param| param == arg).map_or(BTreeSet::new(), |i| held[i].iter().copied().collect())
    };
    let count = |args: &[usize]| args.iter().fold(1usize, |count, &arg| count.saturating_mul(heads(arg).len()));
    let all = messages.iter().fold(0usize, |all, args| all.saturating_add(count(args)));
    let [one, other] = messages else { return all };
    let both = one.iter().zip(other).map(|(&a, &b)| heads(a).intersection(&heads(b)).count());
    all.saturating_sub(both.fold(1usize, |count, both| count.saturating_mul(both)))
}

/// True if an argument of some message in the mail has several heads.
pub fn several(m: &Message) -> bool {
    let head = |value: usize| match m.program.first.get(value) {
        Some(2) => m.program.second.get(value + 1).map_or(0, |&constructor| constructor as usize),
        Some(3 | 11) => m.constructors,
        _ => m.constructors + 1,
    };
    let held = |name: u16| (0..m.flow).filter(move |&i| m.tables.first[i] == name).map(|i| head(m.tables.pair(i).1));
    let apart = |name: u16| held(name).zip(held(name).skip(1)).any(|(a, b)| a != b);
    let builds = (m.flow..m.flow + m.mail).map(|i| m.tables.pair(i).1).filter(|&v| m.program.first.get(v) == Some(&2));
    builds.into_iter().any(|build| {
        let args = (build + 2..m.rows).take_while(|&row| m.program.first[row] == 21);
        args.into_iter().any(|row| apart(m.program.second[row]))
    })
}

/// True if a bad names the heads of a letter.
pub fn named(m: &Message) -> bool {
    m.bad_rows.first.contains(&45)
}

/// The rows with tag 42 of the bads, each with how many rows with tag 45 stand behind it.
fn items(m: &Message) -> Vec<(usize, usize)> {
    let behind = |i: usize| m.bad_rows.first[i + 1..].iter().take_while(|&&tag| tag == 45).count();
    (0..m.bad_rows.len()).filter(|&i| m.bad_rows.first[i] == 42).map(|i| (i, behind(i))).collect()
}

/// Gives the item at this row another letter, with so many heads.
fn put_letter(rng: &mut Rng, m: &mut Message, (row, heads): (usize, usize), kind: usize, count: usize) {
    (0..heads).for_each(|_| remove(&mut m.bad_rows, row + 1));
    m.bad_rows.second[row] = kind as u16;
    for _ in 0..count {
        insert(&mut m.bad_rows, row + 1, 45, rng.below(m.constructors + 2) as u16);
    }
}

/// Some damage to the heads that bads name, or other ones that are right.
pub fn damaged(rng: &mut Rng, m: &mut Message, counters: usize) {
    if rng.chance(1, 5) {
        return sums(rng, m, counters);
    }
    let items = items(m);
    let Some(&item) = rng.pick(&items) else { return after_a_place(rng, m) };
    let arity = |kind: usize| m.program.second[kind] as usize;
    let constructors = 0..m.constructors.min(m.program.len());
    let with: Vec<usize> = constructors.clone().filter(|&kind| (1..=8).contains(&arity(kind))).collect();
    let plain: Vec<usize> = constructors.filter(|&kind| arity(kind) == 0).collect();
    let kind = rng.pick(&with).copied().unwrap_or(0);
    let own = with.first().map_or(0, |_| arity(kind));
    match rng.below(10) {
        0..=1 => put_letter(rng, m, item, kind, own),
        2 => put_letter(rng, m, item, kind, 0),
        3 => put_letter(rng, m, item, kind, own.saturating_sub(1).max(usize::from(own == 1) * 2)),
        4 => put_letter(rng, m, item, kind, own + 1),
        5 => {
            let other = m.constructors + rng.below(2);
            let count = rng.range(0, 2);
            put_letter(rng, m, item, other, count);
        }
        6 => {
            let count = rng.range(0, 2);
            rng.pick(&plain).copied().into_iter().for_each(|kind| put_letter(rng, m, item, kind, count));
        }
        7 => {
            put_letter(rng, m, item, kind, own);
            if own > 0 {
                let at = item.0 + 1 + rng.below(own);
                let most = (m.constructors + 2) as u16;
                m.bad_rows.second[at] = if rng.chance(1, 2) { most } else { odd_word(rng, most) };
            }
        }
        8 => {
            let at = rng.below(m.bad_rows.len() + 1);
            insert(&mut m.bad_rows, at, 45, rng.below(m.constructors + 3) as u16);
        }
        _ => after_a_place(rng, m),
    }
}

/// A head behind a row with tag 41.
fn after_a_place(rng: &mut Rng, m: &mut Message) {
    let places: Vec<usize> = (0..m.bad_rows.len()).filter(|&i| m.bad_rows.first[i] == 41).collect();
    if let Some(&at) = rng.pick(&places) {
        insert(&mut m.bad_rows, at + 1, 45, rng.below(m.constructors + 2) as u16);
    }
}

/// Every item of the bads asks for all letters of a constructor that has several, or for one of them, and their limits
/// come to about as much.
fn sums(rng: &mut Rng, m: &mut Message, counters: usize) {
    let kinds = kinds(m);
    let Some((class, kind, range)) = rng.pick(&kinds).cloned() else { return };
    let minimum = MINIMUMS[rng.below(MINIMUMS.len())];
    let mut at = 0;
    while at < m.bad_rows.len() {
        match m.bad_rows.first[at] {
            40 => m.bad_rows.second[at] = class as u16,
            41 | 42 => (m.bad_rows.first[at], m.bad_rows.second[at]) = (42, kind as u16),
            43 => m.bad_rows.second[at] = minimum,
            45 => {
                remove(&mut m.bad_rows, at);
                continue;
            }
            _ => {}
        }
        at += 1;
    }
    returns::put_limits(rng, m, range, counters);
}

/// Class, constructor and counters of each constructor with several letters in the mail of a class.
fn kinds(m: &Message) -> Vec<(usize, usize, Range<usize>)> {
    let mut read = Read::default();
    let _ = verify::inspect(&message::to_bytes(&message::write(m)), &mut read);
    let Some(system) = read.system else { return Vec::new() };
    let all: BTreeSet<(usize, usize)> = system.letters.iter().map(|&(class, letter)| (class, letter.kind)).collect();
    let ranges = all.into_iter().map(|(class, kind)| (class, kind, system.letters_of(class, kind)));
    ranges.filter(|(_, _, range)| range.len() > 1).collect()
}
