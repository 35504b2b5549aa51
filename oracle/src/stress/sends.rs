//! Messages with tens of thousands of rules, and ceilings that make the leak test work.

use super::bounds::{self, Bounds};
use super::finish::{Rows, changed};
use super::{Sample, flow, sample};
use crate::fuzz::row_list::RowList;
use crate::program::Program;
use crate::set::Set;
use crate::tables::Tables;

pub fn hostile() -> Result<Vec<Sample>, String> {
    let last_entry_wrong = |message| {
        changed(message, |m| {
            if let Some(limit) = m.entries.second.last_mut() {
                *limit = 1;
            }
        })
    };
    Ok(vec![
        sample(
            "ceilings-last-wrong",
            "8,192 ceiling entries, the last not in form",
            10,
            last_entry_wrong(sends(29, 24, 19, bounds::alike)),
        )?,
        sample(
            "ceilings-no-start",
            "256 ceilings of which none holds the start",
            11,
            sends(29, 24, 19, bounds::alike).and_then(without_start),
        )?,
        sample("rules-sends", "224 sends that each may put 240 letters", 0, sends(224, 16, 14, bounds::one))?,
        sample("rules-classes", "254 sends of an address to 251 classes each", 0, sends(254, 251, 0, bounds::one))?,
        sample(
            "rules-receives",
            "14 receives of 16 branches that each may take 64 letters, in 230 values",
            0,
            receives(bounds::one),
        )?,
        sample(
            "leak-alike",
            "255 like ceilings of 29 sends that each may put 480 letters, last the one that holds all; 13,921 rules",
            0,
            sends(29, 24, 19, bounds::alike),
        )?,
        sample(
            "leak-apart",
            "the same, each of the 255 above the others in a counter of its own",
            0,
            sends(29, 24, 19, bounds::apart),
        )?,
        sample(
            "leak-last",
            "the same as leak-alike, but the last ceiling leaks",
            13,
            sends(29, 24, 19, bounds::leaking),
        )?,
        sample("leak-sends", "255 like ceilings, 53,761 rules", 0, sends(224, 16, 14, bounds::alike))?,
        sample(
            "leak-full",
            "255 like ceilings over 512 counters, 8,192 entries in all, 65,025 rules",
            0,
            sends(254, 32, 7, bounds::alike),
        )?,
        sample("leak-wide", "17 ceilings of all 466 counters, 53,761 rules", 0, sends(224, 16, 14, bounds::wide))?,
        sample(
            "leak-receives",
            "255 like ceilings of the receives of rules-receives and half of their letters",
            0,
            receives(bounds::busy),
        )?,
        sample(
            "leak-calls",
            "255 like ceilings of 27 give backs that each may go to 23 states",
            0,
            flow::returns(22, bounds::busy),
        )?,
    ])
}

/// So many sends, one after another, of a build of each constructor and of an address to every
/// class. Classes and builds stand in a function that is never called, so that they take no states;
/// its name may be each of the classes too, which spares a state that binds another.
pub fn sends(count: usize, classes: usize, constructors: usize, bounds: impl Bounds) -> Result<Vec<u8>, String> {
    let mut list = RowList::default();
    let target = unused(&mut list, constructors, constructors, classes - 1);
    let message = list.bind(7, &[]);
    (0..count).for_each(|_| {
        list.bind(5, &[(21, target), (21, message)]);
    });
    list.row(1, target);
    let extra = move |program: &Program, tables: &mut Tables| every_letter(program, tables, target, message);
    Rows { list, constructors, functions: 1 }.finish(extra, bounds)
}

/// The target may be each class, the message each build and, by its own row, the start's address.
pub fn every_letter(program: &Program, tables: &mut Tables, target: usize, message: usize) {
    every_letter_but(program, tables, target, message, None);
}

/// The same without the letters of one build.
pub fn every_letter_but(program: &Program, tables: &mut Tables, target: usize, message: usize, but: Option<usize>) {
    tables.flow[target] = classes_of(program);
    tables.flow[target].insert(program.rows);
    builds(program).filter(|&b| Some(b) != but).for_each(|b| {
        tables.flow[message].insert(b);
    });
}

pub fn builds(program: &Program) -> impl Iterator<Item = usize> + '_ {
    (0..program.rows).filter(|&r| program.build(r).is_some())
}

/// The spawned classes.
pub fn classes_of(program: &Program) -> Set {
    let mut classes = Set::EMPTY;
    program.spawns.iter().for_each(|&class| {
        classes.insert(class);
    });
    classes
}

/// A front with constructors and a function that is never called, which has so many builds and
/// spawns: they take no states.
pub fn unused(list: &mut RowList, constructors: usize, builds: usize, spawns: usize) -> usize {
    list.rows.extend(vec![(10, 0); constructors]);
    let unused = list.bind(11, &[(22, 0)]);
    (0..spawns).for_each(|_| {
        list.bind(6, &[(21, unused)]);
    });
    (0..builds).for_each(|i| {
        list.bind(2, &[(20, i % constructors)]);
    });
    list.row(1, unused);
    unused
}

/// Receives of sixteen branches that each may take every letter.
fn receives(bounds: impl Bounds) -> Result<Vec<u8>, String> {
    let constructors = 64;
    let mut list = RowList::default();
    let idle = unused(&mut list, constructors, 230, 0);
    for _ in 0..14 {
        list.row(9, 16);
        (0..15).for_each(|_| list.rows.extend([(32, 0), (1, idle)]));
        list.row(32, 0);
    }
    list.row(1, idle);
    let extra = |program: &Program, tables: &mut Tables| {
        let own = tables.mail.len() - 1;
        builds(program).for_each(|b| {
            tables.mail[own].insert(b);
        });
    };
    Rows { list, constructors, functions: 1 }.finish(extra, bounds)
}

/// The starting state's counter taken out of every ceiling.
fn without_start(message: Vec<u8>) -> Result<Vec<u8>, String> {
    let start = {
        let mut read = crate::verify::Read::default();
        crate::verify::inspect(&message, &mut read).map_err(super::finish::refused)?;
        let (program, tables) = (read.program.as_ref(), read.tables.as_ref());
        program.zip(tables).and_then(|(p, t)| t.state(p.opening())).unwrap_or(0)
    };
    changed(Ok(message), |m| {
        let kept: Vec<usize> = (0..m.entries.len()).filter(|&i| m.entries.pair(i).0 != start).collect();
        m.entries.first = kept.iter().map(|&i| m.entries.first[i]).collect();
        m.entries.second = kept.iter().map(|&i| m.entries.second[i]).collect();
    })
}
