//! Messages at the limits of (vi): 1,536 rows, 1,024 states, 1,024 counters, 256 ceilings of 8,192 entries.

use super::bounds::{self, Bounds};
use super::finish::{Rows, bytes, changed};
use super::rows::{mail_of_start, nested_functions, nested_receives, set_last};
use super::sends::{builds, every_letter_but, unused};
use super::{Sample, sample};
use crate::fuzz::row_list::RowList;
use crate::message::Message;
use crate::program::Program;
use crate::set::Set;
use crate::tables::Tables;

pub fn hostile() -> Result<Vec<Sample>, String> {
    let receives = || nested_receives(766).finish(mail_of_start, bounds::alike);
    let wrong_row = |message| changed(message, |m| set_last(&mut m.program.first, 24));
    Ok(vec![
        sample(
            "long-receives",
            "1,536 rows: 766 receives, each in the branch of the one before, and 256 ceilings",
            0,
            receives(),
        )?,
        sample("long-last-wrong", "the same, the last row wrong", 3, wrong_row(receives()))?,
        sample(
            "long-functions",
            "510 functions, each in the body of the one before",
            0,
            nested_functions(510).finish(|_, _| (), bounds::one),
        )?,
        sample(
            "long-selves",
            "1,535 heads on end that bind one name: the deepest nest of the reader",
            4,
            Ok(selves()),
        )?,
        sample("long-states", "1,024 states and 256 ceilings of 8,192 entries", 0, states(bounds::alike))?,
        sample(
            "long-states-apart",
            "the same, each of 255 ceilings above the others in a counter of its own",
            0,
            states(bounds::apart),
        )?,
        sample(
            "long-open",
            "1,024 states without the last of them",
            8,
            changed(states(bounds::alike), |m| {
                m.tables.first.pop();
                m.tables.second.pop();
                m.returns.pop();
                m.states -= 1;
            }),
        )?,
        sample("counters-1025", "1,024 states and a letter", 9, changed(states(bounds::one), one_letter))?,
        sample(
            "function-and-counters",
            "the same with a function in the mail too",
            22,
            changed(states(bounds::one), |m| {
                one_letter(m);
                mail_first(m, 0);
            }),
        )?,
        sample(
            "function-last",
            "512 mail entries, of which the last is a function, 1,022 states and 256 ceilings",
            22,
            function_last(),
        )?,
        sample(
            "long-counters",
            "1,536 rows, 512 states and 512 letters, 256 ceilings of 8,192 entries, 187,537 rules",
            0,
            counters(bounds::alike),
        )?,
        sample(
            "long-counters-apart",
            "the same, each of 255 ceilings above the others in a counter of its own",
            0,
            counters(bounds::apart),
        )?,
        sample(
            "long-counters-leak",
            "the same as long-counters, but the last ceiling leaks",
            13,
            counters(bounds::leaking),
        )?,
        sample(
            "long-counters-limited",
            "the same as long-counters-leak, with a limit at the first state in every ceiling: none is above another everywhere",
            13,
            counters(bounds::limited),
        )?,
        sample(
            "long-counters-lettered",
            "the same as long-counters-leak, with a limit in every ceiling at a letter that no send puts",
            13,
            spared(bounds::lettered),
        )?,
        sample(
            "long-counters-halves",
            "the same as long-counters, but in place of the ceiling that holds all two that hold half of the letters each",
            13,
            counters(bounds::halves),
        )?,
        sample("long-counters-wide", "seven ceilings of all 1,024 counters", 0, counters(bounds::wide))?,
    ])
}

/// As many heads as rows allow, one the rest of the other.
fn selves() -> Vec<u8> {
    let mut list = RowList::default();
    let name = list.bind(7, &[]);
    (0..1534).for_each(|_| list.row(7, name));
    list.row(1, name);
    let rows = Rows { list, constructors: 0, functions: 0 };
    bytes(&rows.bare(&rows.any_bad()))
}

/// 1,024 states: three classes in one body of 340 heads, and the start that spawns them.
fn states(bounds: impl Bounds) -> Result<Vec<u8>, String> {
    let mut list = RowList::default();
    let work = list.bind(11, &[(22, 0)]);
    (0..339).for_each(|_| {
        list.bind(7, &[]);
    });
    list.row(1, work);
    (0..3).for_each(|_| {
        list.bind(6, &[(21, work)]);
    });
    list.row(1, work);
    Rows { list, constructors: 0, functions: 1 }.finish(|_, _| (), bounds)
}

/// A mail entry: the starting process holds its own address.
fn one_letter(m: &mut Message) {
    mail_first(m, m.rows);
}

/// The first mail entry: a value that the starting process holds.
fn mail_first(m: &mut Message, value: usize) {
    m.tables.first.insert(m.flow, m.rows as u16);
    m.tables.second.insert(m.flow, value as u16);
    m.mail += 1;
}

/// Three classes in one body of 337 builds that hold functions. The builds are all in the mail of the first class, 174
/// in that of the second; the start may hold the function of its own, which is the last entry.
fn function_last() -> Result<Vec<u8>, String> {
    let mut list = RowList::default();
    list.row(10, 2);
    let work = list.bind(11, &[(22, 0)]);
    let built: Vec<usize> = (0..337).map(|_| list.bind(2, &[(20, 0), (21, work), (21, work)])).collect();
    list.row(1, work);
    (0..3).for_each(|_| {
        list.bind(6, &[(21, work)]);
    });
    let function = list.bind(3, &[(22, 0)]);
    list.row(1, work);
    (0..3).for_each(|_| {
        list.bind(7, &[]);
    });
    list.row(1, function);
    let extra = move |program: &Program, tables: &mut Tables| {
        let all: Vec<usize> = builds(program).collect();
        let hold = |set: &mut Set, values: &[usize]| {
            values.iter().for_each(|&value| {
                set.insert(value);
            })
        };
        built[..11].iter().for_each(|&name| hold(&mut tables.flow[name], &all));
        hold(&mut tables.mail[0], &all);
        hold(&mut tables.mail[1], &all[..174]);
        let function = program.functions.last().map_or(0, |f| f.row);
        tables.mail[3].insert(function);
    };
    Rows { list, constructors: 1, functions: 1 }.finish(extra, bounds::alike)
}

/// The same with a constructor in every class's mail that nothing sends.
fn spared(bounds: impl Bounds) -> Result<Vec<u8>, String> {
    counters_with(bounds, true)
}

/// 364 sends that each may put 512 letters (eight in each of 64 classes), then 146 receives of eight letters each.
pub fn counters(bounds: impl Bounds) -> Result<Vec<u8>, String> {
    counters_with(bounds, false)
}

fn counters_with(bounds: impl Bounds, spare: bool) -> Result<Vec<u8>, String> {
    let mut list = RowList::default();
    let target = unused(&mut list, 7, 7, 63);
    let message = list.bind(7, &[]);
    (0..364).for_each(|_| {
        list.bind(5, &[(21, target), (21, message)]);
    });
    (0..146).for_each(|_| list.rows.extend([(9, 1), (32, 0)]));
    list.row(1, target);
    let extra = move |program: &Program, tables: &mut Tables| {
        let last = builds(program).last().filter(|_| spare);
        every_letter_but(program, tables, target, message, last);
        if let Some(build) = last {
            tables.mail.iter_mut().for_each(|mail| {
                mail.insert(build);
            });
        }
    };
    Rows { list, constructors: 7, functions: 1 }.finish(extra, bounds)
}
