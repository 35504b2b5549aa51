//! A program with its tables and what both the closed check and the rules look up in them.

use crate::limits;
use crate::matching::Matching;
use crate::program::{Head, Name, Program, State};
use crate::set::Set;
use crate::tables::Tables;

pub struct Analysis<'a> {
    pub program: &'a Program,
    pub tables: &'a Tables,
    pub matching: Matching,
    /// Functions by number of parameters.
    by_params: Vec<Set>,
    /// Every class.
    classes: Set,
}

impl<'a> Analysis<'a> {
    pub fn new(program: &'a Program, tables: &'a Tables) -> Analysis<'a> {
        Analysis {
            program,
            tables,
            matching: Matching::new(program, tables),
            by_params: functions_by_params(program),
            classes: classes(program),
        }
    }

    pub fn flow(&self, name: Name) -> &Set {
        &self.tables.flow[name]
    }

    /// Functions that a callee may be, with this number of parameters.
    pub fn callees(&self, callee: Name, count: usize) -> Set {
        self.by_params.get(count).map_or(Set::EMPTY, |with| self.flow(callee).and(with))
    }

    /// Classes that a name may be the address of.
    pub fn targets(&self, name: Name) -> Set {
        self.flow(name).and(&self.classes)
    }

    /// States at a send that may put this value into the mail of this class, in order.
    pub fn senders(&self, class: usize, value: usize) -> impl Iterator<Item = State> + '_ {
        self.tables.states.iter().copied().filter(move |state| match self.program.head(state.head) {
            Some(Head::Send { target, message, .. }) => {
                self.targets(*target).has(class) && self.flow(*message).has(value)
            }
            _ => false,
        })
    }

    /// The call's name and where a give back leads: the call's rest, once for each return that the call has.
    pub fn returns(&self, state: State) -> impl Iterator<Item = (Name, State)> + '_ {
        let call = self.program.call(state.back);
        call.into_iter().flat_map(move |(name, rest)| {
            let calls = &self.tables.states[self.tables.states_at(state.class, state.back)];
            calls.iter().map(move |call| (name, call.at(rest)))
        })
    }
}

fn functions_by_params(program: &Program) -> Vec<Set> {
    let mut sets = vec![Set::EMPTY; limits::ARITY + 1];
    for function in &program.functions {
        sets[function.params.len()].insert(function.row);
    }
    sets
}

fn classes(program: &Program) -> Set {
    let mut classes = Set::EMPTY;
    program.classes().for_each(|class| {
        classes.insert(class);
    });
    classes
}
