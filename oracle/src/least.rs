//! The least closed tables above some entries, by fixpoint.

use crate::analysis::Analysis;
use crate::program::{Branch, Head, Name, Pattern, Program, Row, State};
use crate::set::Set;
use crate::tables::Tables;
use std::collections::BTreeSet;

/// The least closed tables of a program.
pub fn least(program: &Program) -> Tables {
    close(program, Tables::empty(program))
}

/// The least closed tables that hold the given entries.
pub fn close(program: &Program, mut tables: Tables) -> Tables {
    loop {
        let mut growth = Growth::new(program, &tables);
        growth.opening();
        for &state in &tables.states {
            growth.state(state);
        }
        let next = growth.tables();
        if next == tables {
            return tables;
        }
        tables = next;
    }
}

/// One round: what the entries so far want is added to a copy.
struct Growth<'a> {
    a: Analysis<'a>,
    flow: Vec<Set>,
    mail: Vec<Set>,
    states: BTreeSet<State>,
}

impl<'a> Growth<'a> {
    fn new(program: &'a Program, tables: &'a Tables) -> Growth<'a> {
        Growth {
            a: Analysis::new(program, tables),
            flow: tables.flow.clone(),
            mail: tables.mail.clone(),
            states: tables.states.iter().copied().collect(),
        }
    }

    fn tables(self) -> Tables {
        Tables { flow: self.flow, mail: self.mail, states: self.states.into_iter().collect() }
    }

    fn opening(&mut self) {
        let program = self.a.program;
        for function in program.named() {
            self.flow[function.name].insert(function.row);
        }
        self.states.insert(program.opening());
    }

    fn holds(&mut self, name: Name, values: &Set) {
        self.flow[name] = self.flow[name].or(values);
    }

    fn yields(&mut self, at: State, name: Name, value: usize, rest: Row) {
        self.flow[name].insert(value);
        self.states.insert(at.at(rest));
    }

    fn state(&mut self, at: State) {
        let program = self.a.program;
        let (class, row) = (at.class, at.head);
        match program.head(row) {
            Some(Head::Build { name, rest, .. } | Head::Function { name, rest }) => self.yields(at, *name, row, *rest),
            Some(Head::SelfAddress { name, rest }) => self.yields(at, *name, class, *rest),
            Some(Head::Call { callee, args, .. }) => self.call(at, *callee, args),
            Some(Head::GiveBack { value }) => self.give_back(at, *value),
            Some(Head::Send { name, target, message, rest }) => self.send(at, *name, *target, *message, *rest),
            Some(Head::Spawn { name, callee, rest }) => self.spawn(at, *name, *callee, *rest),
            Some(Head::Case { value, branches }) => {
                let values = *self.a.flow(*value);
                self.branches(at, &values, branches);
            }
            Some(Head::Receive { branches }) => {
                let mail = self.a.tables.mail_of(program, class);
                self.branches(at, &mail, branches);
            }
            None => {}
        }
    }

    fn call(&mut self, at: State, callee: Name, args: &[Name]) {
        for row in self.a.callees(callee, args.len()).iter() {
            let Some(function) = self.a.program.function(row) else { continue };
            for (&param, &arg) in function.params.iter().zip(args) {
                let values = *self.a.flow(arg);
                self.holds(param, &values);
            }
            self.states.insert(State { back: at.head, ..at.at(function.body) });
        }
    }

    fn give_back(&mut self, at: State, value: Name) {
        let values = *self.a.flow(value);
        let returns: Vec<_> = self.a.returns(at).collect();
        for (name, next) in returns {
            self.holds(name, &values);
            self.states.insert(next);
        }
    }

    fn send(&mut self, at: State, name: Name, target: Name, message: Name, rest: Row) {
        let (classes, values) = (self.a.targets(target), *self.a.flow(message));
        if classes.is_empty() || values.is_empty() {
            return;
        }
        for i in classes.iter().filter_map(|class| self.a.program.class_index(class)) {
            self.mail[i] = self.mail[i].or(&values);
        }
        self.holds(name, &values);
        self.states.insert(at.at(rest));
    }

    fn spawn(&mut self, at: State, name: Name, callee: Name, rest: Row) {
        for f in self.a.callees(callee, 0).iter().filter_map(|f| self.a.program.function(f)) {
            self.flow[name].insert(at.head);
            self.states.insert(at.at(rest));
            self.states.insert(self.a.program.fresh(at.head, f.body));
        }
    }

    fn branches(&mut self, at: State, values: &Set, branches: &[Branch]) {
        for branch in branches {
            let reached = self.a.matching.may(branch.pattern, values);
            if !reached.is_empty() {
                self.spots(branch.pattern, &reached);
                self.states.insert(at.at(branch.body));
            }
        }
    }

    /// Gives the names of a pattern the values that reach their spots.
    fn spots(&mut self, pattern: Row, reached: &Set) {
        match self.a.program.pattern(pattern) {
            Some(Pattern::Name(name)) => self.holds(*name, reached),
            Some(Pattern::Constructor { parts, .. }) => {
                for (i, &part) in parts.iter().enumerate() {
                    let spot = self.spot(reached, i, part);
                    self.spots(part, &spot);
                }
            }
            _ => {}
        }
    }

    fn spot(&self, reached: &Set, argument: usize, part: Row) -> Set {
        let builds = reached.iter().filter_map(|value| self.a.program.build(value));
        let args = builds.filter_map(|(_, args)| args.get(argument));
        args.fold(Set::EMPTY, |spot, &arg| spot.or(&self.a.matching.may(part, self.a.flow(arg))))
    }
}
