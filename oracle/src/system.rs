//! The derived system: counters and rules (refusal 9), and its words (refusal 14).

use crate::analysis::Analysis;
use crate::letters::{Letter, Letters};
use crate::message::Message;
use crate::program::{Branch, Head, Name, Row, State};
use crate::refusal::{self, Detail, Refusal};
use crate::set::Set;
use std::collections::HashMap;
use std::ops::Range;

#[derive(Clone, Copy, Debug, PartialEq, Eq)]
pub enum Effect {
    Nothing,
    Read(usize),
    Put(usize),
    New(usize),
}

#[derive(Clone, Copy, Debug, PartialEq, Eq)]
pub struct Rule {
    pub from: usize,
    pub to: usize,
    pub effect: Effect,
}

impl Rule {
    /// Its rows (tag, number).
    pub fn rows(&self) -> impl Iterator<Item = (u32, u32)> {
        let last = match self.effect {
            Effect::Nothing => None,
            Effect::Read(letter) => Some((52, letter as u32)),
            Effect::Put(letter) => Some((53, letter as u32)),
            Effect::New(state) => Some((54, state as u32)),
        };
        [(50, self.from as u32), (51, self.to as u32)].into_iter().chain(last)
    }

    fn length(&self) -> usize {
        match self.effect {
            Effect::Nothing => 2,
            _ => 3,
        }
    }

    /// The letter counter it reads.
    pub fn read(&self) -> Option<usize> {
        match self.effect {
            Effect::Read(letter) => Some(letter),
            _ => None,
        }
    }

    /// The letter counter put or the new state.
    pub fn adds(&self) -> Option<usize> {
        match self.effect {
            Effect::Put(counter) | Effect::New(counter) => Some(counter),
            _ => None,
        }
    }
}

#[derive(Clone, Debug, Default, PartialEq, Eq)]
pub struct System {
    /// The states' counters come first, in the order of the states.
    pub states: usize,
    /// (class, letter) of the letter counters, ascending.
    pub letters: Vec<(usize, Letter)>,
    /// In the written order, so by their from.
    pub rules: Vec<Rule>,
}

impl System {
    pub fn counters(&self) -> usize {
        self.states + self.letters.len()
    }

    pub fn letter(&self, class: usize, letter: Letter) -> Option<usize> {
        let i = self.letters.binary_search(&(class, letter)).ok()?;
        Some(self.states + i)
    }

    /// The counters of all letters of a kind (a constructor, C or C + 1), which stand side by side.
    pub fn letters_of(&self, class: usize, kind: usize) -> Range<usize> {
        let before = self.letters.partition_point(|(c, letter)| (*c, letter.kind) < (class, kind));
        let until = self.letters.partition_point(|(c, letter)| (*c, letter.kind) <= (class, kind));
        self.states + before..self.states + until
    }

    /// Rows of all rules.
    pub fn rows(&self) -> usize {
        self.rules.iter().map(Rule::length).sum()
    }

    pub fn words(&self) -> usize {
        4 + 2 * self.rows()
    }

    /// Ranges of rules by their from state.
    pub fn by_state(&self) -> Vec<Range<usize>> {
        let mut ranges = Vec::with_capacity(self.states);
        let mut begin = 0;
        for state in 0..self.states {
            let length = self.rules[begin..].iter().take_while(|r| r.from == state).count();
            ranges.push(begin..begin + length);
            begin += length;
        }
        ranges
    }

    /// Refusal 14, or the system written at the head of the lent words.
    pub fn write(&self, lent: &mut [u32]) -> Result<(), Refusal> {
        let (rows, words) = (self.rows(), self.words());
        if words > lent.len() {
            return Err(Refusal::new(refusal::SPACE, words, Detail::Counted(lent.len())));
        }
        let sizes = [self.states, self.letters.len(), self.rules.len(), rows];
        lent.iter_mut().zip(sizes).for_each(|(word, size)| *word = size as u32);
        for (i, (tag, number)) in self.rules.iter().flat_map(Rule::rows).enumerate() {
            lent[4 + i] = tag;
            lent[4 + rows + i] = number;
        }
        Ok(())
    }
}

/// Refusal 9 where there are more than the `most` counters, or the system of closed tables.
pub fn derive(message: &Message, a: &Analysis, most: usize) -> Result<System, Refusal> {
    let states = a.tables.states.len();
    let letters = most.checked_sub(states).and_then(|left| Letters::new(a, left));
    let Some(letters) = letters else {
        return Err(Refusal::new(refusal::COUNTERS, message.tables_at + 2, Detail::Counted(most)));
    };
    let mut system = System { states, letters: letters.counters.clone(), rules: Vec::new() };
    let mut known = Known { letters: &letters, sent: HashMap::new(), read: HashMap::new() };
    for (from, &at) in a.tables.states.iter().enumerate() {
        Derive { a, system: &mut system, known: &mut known, from, at }.state();
    }
    Ok(system)
}

/// Sets of letters that were asked for before.
struct Known<'a> {
    letters: &'a Letters,
    /// By the name of a send's message.
    sent: HashMap<Name, Set>,
    /// By class and pattern.
    read: HashMap<(usize, Row), Set>,
}

impl Known<'_> {
    fn sent(&mut self, a: &Analysis, message: Name) -> Set {
        *self.sent.entry(message).or_insert_with(|| self.letters.of(a.flow(message)))
    }

    fn read(&mut self, a: &Analysis, class: usize, pattern: Row) -> Set {
        let letters = || self.letters.read(a, pattern, &a.tables.mail_of(a.program, class));
        *self.read.entry((class, pattern)).or_insert_with(letters)
    }
}

/// Adds the rules of one state. Tables are closed, so every counter looked up is there. A function's letter has none:
/// where the mail may hold one the message is refused, and there is no rule for it.
struct Derive<'a, 'k> {
    a: &'a Analysis<'a>,
    system: &'a mut System,
    known: &'a mut Known<'k>,
    from: usize,
    at: State,
}

impl Derive<'_, '_> {
    fn state(&mut self) {
        let (a, row) = (self.a, self.at.head);
        match a.program.head(row) {
            Some(Head::Build { rest, .. } | Head::Function { rest, .. } | Head::SelfAddress { rest, .. }) => {
                self.rule(*rest, Some(Effect::Nothing))
            }
            Some(Head::Call { callee, args, .. }) => self.call(*callee, args.len()),
            Some(Head::GiveBack { .. }) => self.give_back(),
            Some(Head::Send { target, message, rest, .. }) => self.send(*target, *message, *rest),
            Some(Head::Spawn { callee, rest, .. }) => self.spawn(row, *callee, *rest),
            Some(Head::Case { value, branches }) => self.case(a.flow(*value), branches),
            Some(Head::Receive { branches }) => self.receive(branches),
            None => {}
        }
    }

    /// A rule to another head, with the same return.
    fn rule(&mut self, to: Row, effect: Option<Effect>) {
        self.rule_to(self.at.at(to), effect);
    }

    fn rule_to(&mut self, to: State, effect: Option<Effect>) {
        if let (Some(to), Some(effect)) = (self.a.tables.state(to), effect) {
            self.system.rules.push(Rule { from: self.from, to, effect });
        }
    }

    fn call(&mut self, callee: Name, count: usize) {
        for f in self.a.callees(callee, count).iter().filter_map(|f| self.a.program.function(f)) {
            self.rule_to(State { back: self.at.head, ..self.at.at(f.body) }, Some(Effect::Nothing));
        }
    }

    fn give_back(&mut self) {
        let a = self.a;
        for (_, next) in a.returns(self.at) {
            self.rule_to(next, Some(Effect::Nothing));
        }
    }

    fn send(&mut self, target: Name, message: Name, rest: Row) {
        let (letters, sent) = (self.known.letters, self.known.sent(self.a, message));
        for class in self.a.targets(target).iter() {
            for letter in letters.listed(&sent) {
                let put = self.system.letter(class, letter).map(Effect::Put);
                self.rule(rest, put);
            }
        }
    }

    fn spawn(&mut self, row: Row, callee: Name, rest: Row) {
        for f in self.a.callees(callee, 0).iter().filter_map(|f| self.a.program.function(f)) {
            let new = self.a.tables.state(self.a.program.fresh(row, f.body)).map(Effect::New);
            self.rule(rest, new);
        }
    }

    fn case(&mut self, values: &Set, branches: &[Branch]) {
        for branch in branches {
            if !self.a.matching.may(branch.pattern, values).is_empty() {
                self.rule(branch.body, Some(Effect::Nothing));
            }
        }
    }

    fn receive(&mut self, branches: &[Branch]) {
        let letters = self.known.letters;
        for branch in branches {
            let read = self.known.read(self.a, self.at.class, branch.pattern);
            for letter in letters.listed(&read) {
                let read = self.system.letter(self.at.class, letter).map(Effect::Read);
                self.rule(branch.body, read);
            }
        }
    }
}
