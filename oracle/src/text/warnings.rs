//! What an author should look at, though nothing is wrong in form.

use crate::analysis::Analysis;
use crate::bads::{Bad, Place};
use crate::bounds::item_counters;
use crate::program::{Branch, Head, Pattern, Row, State};
use crate::replay::Derived;
use crate::symbols::Symbols;
use std::collections::BTreeMap;

/// Warnings of closed tables, in the author's words.
pub fn warnings(derived: Derived, bads: &[Bad], symbols: &Symbols) -> Vec<String> {
    let warner = Warner { derived, symbols, analysis: Analysis::new(derived.program, derived.tables) };
    [warner.functions_sent(), warner.stops(), warner.branches(), warner.bads(bads)].concat()
}

struct Warner<'a> {
    derived: Derived<'a>,
    symbols: &'a Symbols<'a>,
    analysis: Analysis<'a>,
}

impl Warner<'_> {
    /// States without a rule that neither give back nor receive: who comes there stays.
    fn stops(&self) -> Vec<String> {
        let ranges = self.derived.system.by_state();
        let states = self.derived.tables.states.iter().zip(ranges).filter(|(_, range)| range.is_empty());
        let mut places: Vec<State> = states.map(|(&state, _)| self.place(state)).collect();
        places.dedup();
        let stops = places.into_iter().filter_map(|place| {
            let why = self.why(place.head)?;
            Some(format!("{} can't step: {why}", self.symbols.state(place)))
        });
        stops.collect()
    }

    /// A state without its return: what stands in a routine is told once, not once for each call of it.
    fn place(&self, state: State) -> State {
        self.derived.program.fresh(state.class, state.head)
    }

    /// Why nothing can step at a head, if it neither gives back nor receives.
    fn why(&self, head: Row) -> Option<String> {
        let name = |name: &usize| self.symbols.name(*name).to_string();
        match self.derived.program.head(head)? {
            Head::Call { callee, args, .. } => {
                Some(format!("{} is no function with {} parameters", name(callee), args.len()))
            }
            Head::Send { target, .. } if self.analysis.targets(*target).is_empty() => {
                Some(format!("{} is no process", name(target)))
            }
            Head::Spawn { callee, .. } => Some(format!("{} is no function without parameters", name(callee))),
            Head::Case { value, .. } => Some(format!("no branch matches what {} may be", name(value))),
            _ => None,
        }
    }

    /// Sends that may put a function into a mailbox by itself: with each of them the message is refused.
    fn functions_sent(&self) -> Vec<String> {
        let Derived { program, tables, .. } = self.derived;
        let mailed = tables.mail_pairs(program).into_iter().filter(|&(_, value)| program.function(value).is_some());
        let mut sent: BTreeMap<State, Vec<usize>> = BTreeMap::new();
        for (class, function) in mailed {
            let senders = self.analysis.senders(class, function);
            senders.for_each(|sender| sent.entry(self.place(sender)).or_default().push(function));
        }
        let told = |(sender, mut functions): (State, Vec<usize>)| {
            functions.sort_unstable();
            functions.dedup();
            let functions: Vec<String> = functions.iter().map(|&function| self.symbols.value(function)).collect();
            let (state, functions) = (self.symbols.state(sender), functions.join(" or "));
            format!("{state} may send {functions}: functions are sent inside a constructor only")
        };
        sent.into_iter().map(told).collect()
    }

    /// Branches of a case or receive that a process comes to, which no value matches there.
    fn branches(&self) -> Vec<String> {
        let mut classes: BTreeMap<Row, Vec<usize>> = BTreeMap::new();
        for state in &self.derived.tables.states {
            classes.entry(state.head).or_default().push(state.class);
        }
        classes.iter().flat_map(|(&head, classes)| self.branches_of(head, classes)).collect()
    }

    fn branches_of(&self, head: Row, classes: &[usize]) -> Vec<String> {
        let program = self.derived.program;
        let (values, branches) = match program.head(head) {
            Some(Head::Case { value, branches }) => (vec![*self.analysis.flow(*value)], branches),
            Some(Head::Receive { branches }) => {
                (classes.iter().map(|&class| self.derived.tables.mail_of(program, class)).collect(), branches)
            }
            _ => return Vec::new(),
        };
        let takes_all =
            |branch: &Branch| matches!(program.pattern(branch.pattern), Some(Pattern::Any | Pattern::Name(_)));
        let covered = branches.iter().position(takes_all).unwrap_or(branches.len());
        let never = branches.iter().enumerate().filter_map(|(i, branch)| {
            let matched = values.iter().any(|values| !self.analysis.matching.may(branch.pattern, values).is_empty());
            let why = match matched {
                true if i > covered => "never taken: a branch before it takes everything",
                true => return None,
                false => "never taken: no value that comes here matches it",
            };
            let line = self.symbols.lines.get(&branch.pattern).map_or(String::new(), |line| format!("line {line}: "));
            Some(format!("{line}branch `{}` is {why}", self.symbols.pattern(branch.pattern)))
        });
        never.collect()
    }

    /// Bads with an item that has no counter, and so is never met.
    fn bads(&self, bads: &[Bad]) -> Vec<String> {
        let Derived { program, tables, system } = self.derived;
        let without = bads.iter().enumerate().filter_map(|(i, bad)| {
            let item = bad.items.iter().find(|item| item_counters(tables, system, item).is_none())?;
            let why = match item.place {
                Place::Kind(kind) if kind == program.arities.len() => "where a function is sent that is refused",
                _ => "by the tables it never happens",
            };
            let (bad, item) = (self.symbols.bad(i), self.symbols.item(item));
            Some(format!("{bad} is never met: `{item}` has no counter, {why}"))
        });
        without.collect()
    }
}
