//! Flow, mail and states: their entries in range and in order (refusal 7), no function in the mail (refusal 22).

use crate::message::Message;
use crate::program::{Program, State};
use crate::refusal::{self, Detail, Refusal};
use crate::set::Set;
use std::ops::Range;

#[derive(Clone, Debug, Default, PartialEq, Eq)]
pub struct Tables {
    /// Values of each name.
    pub flow: Vec<Set>,
    /// Values in the mail of each class, by the class's index.
    pub mail: Vec<Set>,
    /// In ascending order.
    pub states: Vec<State>,
}

impl Tables {
    pub fn empty(program: &Program) -> Tables {
        Tables {
            flow: vec![Set::EMPTY; program.names],
            mail: vec![Set::EMPTY; program.spawns.len() + 1],
            states: Vec::new(),
        }
    }

    pub fn state(&self, state: State) -> Option<usize> {
        self.states.binary_search(&state).ok()
    }

    /// The states of a class at a head, one for each return; they stand side by side.
    pub fn states_at(&self, class: usize, head: usize) -> Range<usize> {
        let before = |state: &State| (state.class, state.head) < (class, head);
        let not_behind = |state: &State| (state.class, state.head) <= (class, head);
        self.states.partition_point(before)..self.states.partition_point(not_behind)
    }

    pub fn mail_of(&self, program: &Program, class: usize) -> Set {
        program.class_index(class).map_or(Set::EMPTY, |i| self.mail[i])
    }

    /// True if a function is in the mail of some class.
    pub fn mails_function(&self, program: &Program) -> bool {
        program.functions.iter().any(|f| self.mail.iter().any(|mail| mail.has(f.row)))
    }

    /// Flow entries in order.
    pub fn flow_pairs(&self) -> Vec<(usize, usize)> {
        let pairs = self.flow.iter().enumerate();
        pairs.flat_map(|(name, values)| values.iter().map(move |v| (name, v)).collect::<Vec<_>>()).collect()
    }

    /// Mail entries in order.
    pub fn mail_pairs(&self, program: &Program) -> Vec<(usize, usize)> {
        let pairs = program.classes().zip(&self.mail);
        pairs.flat_map(|(class, values)| values.iter().map(move |v| (class, v)).collect::<Vec<_>>()).collect()
    }
}

/// Checks one list and hands each good entry on. An entry of two columns has 0 in the third.
struct List<'a> {
    message: &'a Message,
    from: usize,
    count: usize,
    wanted: &'static str,
}

impl List<'_> {
    fn each(
        &self,
        third: &[u16],
        in_range: impl Fn(usize, usize, usize) -> bool,
        mut keep: impl FnMut(usize, usize, usize),
    ) -> Result<(), Refusal> {
        let mut before = None;
        for i in self.from..self.from + self.count {
            let (first, second) = self.message.tables.pair(i);
            let pair = (first, second, third.get(i - self.from).map_or(0, |&number| number as usize));
            let position = self.message.tables.at + i;
            if !in_range(pair.0, pair.1, pair.2) {
                return Err(Refusal::wanted(refusal::ENTRY, position, self.wanted));
            }
            if before.is_some_and(|b| b >= pair) {
                return Err(Refusal::wanted(refusal::ENTRY, position, "an entry above the one before it in its list"));
            }
            before = Some(pair);
            keep(pair.0, pair.1, pair.2);
        }
        Ok(())
    }
}

/// Refusal 7, or the tables.
pub fn read(message: &Message, program: &Program) -> Result<Tables, Refusal> {
    let mut tables = Tables::empty(program);
    let (flow, mail, states) = (message.flow, message.mail, message.states);
    List { message, from: 0, count: flow, wanted: "a flow entry (name, value)" }.each(
        &[],
        |name, value, _| name < program.names && program.is_value(value),
        |name, value, _| {
            tables.flow[name].insert(value);
        },
    )?;
    List { message, from: flow, count: mail, wanted: "a mail entry (class, value)" }.each(
        &[],
        |class, value, _| program.is_class(class) && program.is_value(value),
        |class, value, _| {
            if let Some(i) = program.class_index(class) {
                tables.mail[i].insert(value);
            }
        },
    )?;
    List { message, from: flow + mail, count: states, wanted: "a state entry (class, head, call row or R)" }.each(
        &message.returns,
        |class, head, back| program.is_class(class) && program.is_head(head) && program.is_return(back),
        |class, head, back| tables.states.push(State { class, head, back }),
    )?;
    Ok(tables)
}

/// Refusal 22: a mail value is a function. Every entry of the list counts, whether a send wants it or not.
pub fn check_mail(message: &Message, program: &Program) -> Result<(), Refusal> {
    let mut mail = message.flow..message.flow + message.mail;
    match mail.find(|&i| program.function(message.tables.pair(i).1).is_some()) {
        Some(i) => {
            let (class, function) = message.tables.pair(i);
            let detail = Detail::Mailed { class, function };
            Err(Refusal::new(refusal::FUNCTION_MAILED, message.tables.at + i, detail))
        }
        None => Ok(()),
    }
}
