//! Which values a pattern may match, and which of them find their names' entries present.

use crate::program::{Name, Pattern, Program, Row};
use crate::refusal::Want;
use crate::set::Set;
use crate::tables::Tables;

/// By pattern row. A value in `may` may match; one in `held` has every entry that the
/// pattern's names want of it (of use only together with `may`).
pub struct Matching {
    may: Vec<Set>,
    held: Vec<Set>,
}

impl Matching {
    /// Parts of a pattern stand behind it, so rows from the last give parts first.
    pub fn new(program: &Program, tables: &Tables) -> Matching {
        let builds = builds_by_constructor(program);
        let mut m = Matching { may: vec![Set::EMPTY; program.rows], held: vec![Set::EMPTY; program.rows] };
        for row in (0..program.rows).rev() {
            match program.pattern(row) {
                Some(Pattern::Any) => m.set(row, Set::ALL, Set::ALL),
                Some(Pattern::Name(name)) => m.set(row, Set::ALL, tables.flow[*name]),
                Some(Pattern::Held(name)) => m.set(row, alike(program, tables, &builds, *name), Set::ALL),
                Some(Pattern::Constructor { constructor, parts }) => {
                    let (may, held) = m.constructor(program, tables, &builds[*constructor], parts);
                    m.set(row, may, held);
                }
                None => {}
            }
        }
        m
    }

    fn set(&mut self, row: Row, may: Set, held: Set) {
        self.may[row] = may;
        self.held[row] = held;
    }

    fn constructor(&self, program: &Program, tables: &Tables, builds: &[Row], parts: &[Row]) -> (Set, Set) {
        let (mut may, mut held) = (Set::EMPTY, Set::EMPTY);
        for &build in builds {
            let args = program.build(build).map_or(&[][..], |(_, args)| args);
            let mut spots = args.iter().zip(parts).map(|(&arg, &part)| (tables.flow[arg].and(&self.may[part]), part));
            if spots.clone().all(|(reached, _)| !reached.is_empty()) {
                may.insert(build);
                if spots.all(|(reached, part)| reached.within(&self.held[part])) {
                    held.insert(build);
                }
            }
        }
        (may, held)
    }

    /// Values of `from` that the pattern may match.
    pub fn may(&self, pattern: Row, from: &Set) -> Set {
        self.may[pattern].and(from)
    }

    /// Of values that may match: the first whose names lack an entry.
    pub fn lacking(&self, pattern: Row, reached: &Set) -> Option<usize> {
        reached.without(&self.held[pattern]).first()
    }

    /// The entry that is missing when `pattern` takes `value`, which may match it.
    pub fn lack(&self, program: &Program, tables: &Tables, pattern: Row, value: usize) -> Option<Want> {
        match program.pattern(pattern)? {
            Pattern::Any | Pattern::Held(_) => None,
            Pattern::Name(name) => {
                let held = tables.flow[*name].has(value);
                (!held).then_some(Want::Flow { name: *name, value })
            }
            Pattern::Constructor { parts, .. } => {
                let (_, args) = program.build(value)?;
                args.iter().zip(parts).find_map(|(&arg, &part)| {
                    let reached = tables.flow[arg].and(&self.may[part]);
                    self.lacking(part, &reached).and_then(|v| self.lack(program, tables, part, v))
                })
            }
        }
    }
}

/// Values that may equal one of a name's: the same class, or a build of the same constructor.
fn alike(program: &Program, tables: &Tables, builds: &[Vec<Row>], name: Name) -> Set {
    let mut values = Set::EMPTY;
    for value in tables.flow[name].iter() {
        match program.build(value) {
            Some((constructor, _)) => builds[constructor].iter().for_each(|&build| {
                values.insert(build);
            }),
            None if program.is_class(value) => {
                values.insert(value);
            }
            None => {}
        }
    }
    values
}

fn builds_by_constructor(program: &Program) -> Vec<Vec<Row>> {
    let mut builds = vec![Vec::new(); program.arities.len()];
    for row in 0..program.rows {
        if let Some((constructor, _)) = program.build(row) {
            builds[constructor].push(row);
        }
    }
    builds
}
