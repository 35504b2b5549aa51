//! Closed tables: every entry that is wanted is there (refusal 8).

use crate::analysis::Analysis;
use crate::message::Message;
use crate::program::{Branch, Head, Name, Row, State};
use crate::refusal::{self, Detail, Refusal, Want};
use crate::set::Set;

/// Refusal 8.
pub fn check(message: &Message, a: &Analysis) -> Result<(), Refusal> {
    if let Some(want) = opening_lack(a) {
        return Err(Refusal::new(refusal::OPEN, message.tables_at, Detail::Lacks(want)));
    }
    for (i, &state) in a.tables.states.iter().enumerate() {
        if let Some(want) = (Check { a, at: state }).state() {
            let position = message.tables.at + message.flow + message.mail + i;
            return Err(Refusal::new(refusal::OPEN, position, Detail::Lacks(want)));
        }
    }
    Ok(())
}

/// Each tag 11 name holds its own row, and state (R, start).
fn opening_lack(a: &Analysis) -> Option<Want> {
    let named = a.program.named().find(|f| !a.flow(f.name).has(f.row));
    let flow = named.map(|f| Want::Flow { name: f.name, value: f.row });
    flow.or_else(|| wants_state(a, a.program.opening()))
}

fn wants_state(a: &Analysis, state: State) -> Option<Want> {
    a.tables.state(state).is_none().then_some(Want::State(state))
}

/// What one state lacks, if anything.
struct Check<'a> {
    a: &'a Analysis<'a>,
    at: State,
}

impl Check<'_> {
    fn state(&self) -> Option<Want> {
        let row = self.at.head;
        match self.a.program.head(row)? {
            Head::Build { name, rest, .. } | Head::Function { name, rest } => self.yields(*name, row, *rest),
            Head::SelfAddress { name, rest } => self.yields(*name, self.at.class, *rest),
            Head::Call { callee, args, .. } => self.call(*callee, args),
            Head::GiveBack { value } => self.give_back(*value),
            Head::Send { name, target, message, rest } => self.send(*name, *target, *message, *rest),
            Head::Spawn { name, callee, rest } => self.spawn(row, *name, *callee, *rest),
            Head::Case { value, branches } => self.branches(self.a.flow(*value), branches),
            Head::Receive { branches } => {
                self.branches(&self.a.tables.mail_of(self.a.program, self.at.class), branches)
            }
        }
    }

    /// The same process at another head, with the same return.
    fn wants_state(&self, head: Row) -> Option<Want> {
        wants_state(self.a, self.at.at(head))
    }

    fn wants_flow(&self, name: Name, value: usize) -> Option<Want> {
        (!self.a.flow(name).has(value)).then_some(Want::Flow { name, value })
    }

    fn wants_flows(&self, name: Name, values: &Set) -> Option<Want> {
        let missing = values.without(self.a.flow(name)).first();
        missing.map(|value| Want::Flow { name, value })
    }

    fn yields(&self, name: Name, value: usize, rest: Row) -> Option<Want> {
        self.wants_flow(name, value).or_else(|| self.wants_state(rest))
    }

    fn call(&self, callee: Name, args: &[Name]) -> Option<Want> {
        let callees = self.a.callees(callee, args.len());
        callees.iter().filter_map(|row| self.a.program.function(row)).find_map(|f| {
            let passed = f.params.iter().zip(args);
            let lack = passed.map(|(&p, &arg)| self.wants_flows(p, self.a.flow(arg))).find_map(|w| w);
            lack.or_else(|| wants_state(self.a, State { back: self.at.head, ..self.at.at(f.body) }))
        })
    }

    fn give_back(&self, value: Name) -> Option<Want> {
        let values = self.a.flow(value);
        self.a
            .returns(self.at)
            .find_map(|(name, next)| self.wants_flows(name, values).or_else(|| wants_state(self.a, next)))
    }

    fn send(&self, name: Name, target: Name, message: Name, rest: Row) -> Option<Want> {
        let (classes, values) = (self.a.targets(target), self.a.flow(message));
        if classes.is_empty() || values.is_empty() {
            return None;
        }
        let mail = classes.iter().find_map(|class| self.wants_mail(class, values));
        mail.or_else(|| self.wants_flows(name, values)).or_else(|| self.wants_state(rest))
    }

    fn wants_mail(&self, class: usize, values: &Set) -> Option<Want> {
        let mail = self.a.tables.mail_of(self.a.program, class);
        values.without(&mail).first().map(|value| Want::Mail { class, value })
    }

    fn spawn(&self, row: Row, name: Name, callee: Name, rest: Row) -> Option<Want> {
        let functions = self.a.callees(callee, 0);
        functions.iter().filter_map(|f| self.a.program.function(f)).find_map(|f| {
            self.yields(name, row, rest).or_else(|| wants_state(self.a, self.a.program.fresh(row, f.body)))
        })
    }

    fn branches(&self, values: &Set, branches: &[Branch]) -> Option<Want> {
        branches.iter().find_map(|branch| self.branch(values, branch))
    }

    fn branch(&self, values: &Set, branch: &Branch) -> Option<Want> {
        let reached = self.a.matching.may(branch.pattern, values);
        if reached.is_empty() {
            return None;
        }
        let lacking = self.a.matching.lacking(branch.pattern, &reached);
        let lack = lacking.and_then(|v| self.a.matching.lack(self.a.program, self.a.tables, branch.pattern, v));
        lack.or_else(|| self.wants_state(branch.body))
    }
}
