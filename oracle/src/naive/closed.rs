//! Closed tables as sets of pairs: every want is listed, then looked up (refusal 8).

use super::Refused;
use crate::message::Message;
use crate::program::{Branch, Head, Pattern, Program, Row, State};
use crate::refusal::Want;
use std::collections::BTreeSet;

pub struct Pairs {
    pub flow: BTreeSet<(usize, usize)>,
    pub mail: BTreeSet<(usize, usize)>,
    pub states: BTreeSet<State>,
}

impl Pairs {
    pub fn new(m: &Message) -> Pairs {
        let list = |from: usize, count: usize| (from..from + count).map(|i| m.tables.pair(i)).collect();
        let state = |(i, &back): (usize, &u16)| {
            let (class, head) = m.tables.pair(m.flow + m.mail + i);
            State { class, head, back: back as usize }
        };
        let states = m.returns.iter().enumerate().map(state).collect();
        Pairs { flow: list(0, m.flow), mail: list(m.flow, m.mail), states }
    }

    pub fn values(&self, name: usize) -> Vec<usize> {
        self.flow.range((name, 0)..=(name, usize::MAX)).map(|&(_, value)| value).collect()
    }

    pub fn letters(&self, class: usize) -> Vec<usize> {
        self.mail.range((class, 0)..=(class, usize::MAX)).map(|&(_, value)| value).collect()
    }

    fn has(&self, want: &Want) -> bool {
        match *want {
            Want::Flow { name, value } => self.flow.contains(&(name, value)),
            Want::Mail { class, value } => self.mail.contains(&(class, value)),
            Want::State(state) => self.states.contains(&state),
        }
    }
}

pub fn may_match(program: &Program, pairs: &Pairs, pattern: Row, value: usize) -> bool {
    match program.pattern(pattern) {
        Some(Pattern::Name(_) | Pattern::Any) => true,
        Some(Pattern::Held(name)) => pairs.values(*name).into_iter().any(|held| alike(program, held, value)),
        Some(Pattern::Constructor { constructor, parts }) => match program.build(value) {
            Some((built, args)) if built == *constructor => args
                .iter()
                .zip(parts)
                .all(|(&arg, &part)| pairs.values(arg).into_iter().any(|v| may_match(program, pairs, part, v))),
            _ => false,
        },
        None => false,
    }
}

/// The same class, or both build rows of one constructor.
fn alike(program: &Program, held: usize, value: usize) -> bool {
    match (program.build(held), program.build(value)) {
        (Some((one, _)), Some((other, _))) => one == other,
        _ => held == value && program.is_class(value),
    }
}

/// What the names of a pattern want of a value that may match it; a pattern and a value are looked at once.
fn spot_wants(
    program: &Program,
    pairs: &Pairs,
    pattern: Row,
    value: usize,
    seen: &mut BTreeSet<(Row, usize)>,
    wants: &mut Vec<Want>,
) {
    if !seen.insert((pattern, value)) || !may_match(program, pairs, pattern, value) {
        return;
    }
    match (program.pattern(pattern), program.build(value)) {
        (Some(Pattern::Name(name)), _) => wants.push(Want::Flow { name: *name, value }),
        (Some(Pattern::Constructor { parts, .. }), Some((_, args))) => {
            for (&arg, &part) in args.iter().zip(parts) {
                for v in pairs.values(arg) {
                    spot_wants(program, pairs, part, v, seen, wants);
                }
            }
        }
        _ => {}
    }
}

/// The functions a name may be, with this number of parameters.
pub fn functions(program: &Program, pairs: &Pairs, name: usize, count: usize) -> Vec<Row> {
    let values = pairs.values(name).into_iter();
    values.filter(|&v| program.function(v).is_some_and(|f| f.params.len() == count)).collect()
}

/// The states (c, call, b) that a give back from (c, r, call) is for.
pub fn returns(pairs: &Pairs, state: State) -> Vec<State> {
    let is_call = |other: &&State| other.class == state.class && other.head == state.back;
    pairs.states.iter().filter(is_call).copied().collect()
}

pub fn classes(program: &Program, pairs: &Pairs, name: usize) -> Vec<usize> {
    pairs.values(name).into_iter().filter(|&v| program.is_class(v)).collect()
}

/// All that one state wants.
fn wants(program: &Program, pairs: &Pairs, at: State) -> Vec<Want> {
    let (class, row) = (at.class, at.head);
    let state = |head: Row| Want::State(at.at(head));
    let holds = |name: usize, value: usize| Want::Flow { name, value };
    let all = |name: usize, from: usize| pairs.values(from).into_iter().map(move |value| holds(name, value));
    let mut wants = Vec::new();
    match program.head(row) {
        Some(Head::Build { name, rest, .. } | Head::Function { name, rest }) => {
            wants.extend([holds(*name, row), state(*rest)]);
        }
        Some(Head::SelfAddress { name, rest }) => wants.extend([holds(*name, class), state(*rest)]),
        Some(Head::Call { callee, args, .. }) => {
            for f in functions(program, pairs, *callee, args.len()).into_iter().filter_map(|f| program.function(f)) {
                f.params.iter().zip(args).for_each(|(&param, &arg)| wants.extend(all(param, arg)));
                wants.push(Want::State(State { class, head: f.body, back: row }));
            }
        }
        Some(Head::GiveBack { value }) => {
            for (name, rest, back) in
                returns(pairs, at).into_iter().filter_map(|c| Some((call(program, c.head)?, c.back))).map(flat)
            {
                wants.extend(all(name, *value));
                wants.push(Want::State(State { class, head: rest, back }));
            }
        }
        Some(Head::Send { name, target, message, rest }) => {
            for (d, value) in both(&classes(program, pairs, *target), &pairs.values(*message)) {
                wants.extend([Want::Mail { class: d, value }, holds(*name, value), state(*rest)]);
            }
        }
        Some(Head::Spawn { name, callee, rest }) => {
            for f in functions(program, pairs, *callee, 0).into_iter().filter_map(|f| program.function(f)) {
                wants.extend([
                    holds(*name, row),
                    state(*rest),
                    Want::State(State { class: row, head: f.body, back: program.rows }),
                ]);
            }
        }
        Some(Head::Case { value, branches }) => {
            branch_wants(program, pairs, branches, &pairs.values(*value), at, &mut wants)
        }
        Some(Head::Receive { branches }) => {
            branch_wants(program, pairs, branches, &pairs.letters(class), at, &mut wants)
        }
        None => {}
    }
    wants
}

/// Every pair of the two lists.
pub fn both(first: &[usize], second: &[usize]) -> Vec<(usize, usize)> {
    first.iter().flat_map(|&a| second.iter().map(move |&b| (a, b))).collect()
}

fn flat(((name, rest), back): ((usize, Row), usize)) -> (usize, Row, usize) {
    (name, rest, back)
}

/// Name and rest of a call.
pub fn call(program: &Program, row: Row) -> Option<(usize, Row)> {
    match program.head(row) {
        Some(Head::Call { name, rest, .. }) => Some((*name, *rest)),
        _ => None,
    }
}

fn branch_wants(
    program: &Program,
    pairs: &Pairs,
    branches: &[Branch],
    values: &[usize],
    at: State,
    wants: &mut Vec<Want>,
) {
    let mut seen = BTreeSet::new();
    for &value in values {
        for branch in branches {
            if may_match(program, pairs, branch.pattern, value) {
                spot_wants(program, pairs, branch.pattern, value, &mut seen, wants);
                wants.push(Want::State(at.at(branch.body)));
            }
        }
    }
}

pub fn check(m: &Message, program: &Program, pairs: &Pairs) -> Result<(), Refused> {
    let named = program.named().map(|f| Want::Flow { name: f.name, value: f.row });
    let start = Want::State(State { class: program.rows, head: program.start, back: program.rows });
    if !named.chain([start]).all(|want| pairs.has(&want)) {
        return Err((8, m.tables_at));
    }
    for (i, &state) in pairs.states.iter().enumerate() {
        if !wants(program, pairs, state).iter().all(|want| pairs.has(want)) {
            return Err((8, m.tables_at + 3 + m.flow + m.mail + i));
        }
    }
    Ok(())
}
