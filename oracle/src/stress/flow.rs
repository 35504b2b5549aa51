//! Messages that make checks 8 and 9 work: patterns, calls, sends and many values.

use super::bounds::{self, Bounds};
use super::finish::{Rows, changed};
use super::{Sample, sample};
use crate::fuzz::row_list::RowList;
use crate::limits;
use crate::program::Program;
use crate::tables::Tables;

pub fn hostile() -> Result<Vec<Sample>, String> {
    Ok(vec![
        sample(
            "flow-patterns",
            "14 branches with patterns four deep over constructors of eight arguments, each of hundreds of values",
            0,
            patterns(bounds::one),
        )?,
        sample("flow-tree", "one pattern of 585 rows: four deep, eight arguments each", 0, tree())?,
        sample("flow-wide", "seven names with 495 values each, passed on by a call and a give back", 0, wide(495))?,
        sample(
            "flow-calls",
            "each of 30 calls may be of each of 30 functions, a state for each",
            0,
            calls(30, bounds::one),
        )?,
        sample(
            "flow-returns",
            "22 calls of a function in itself, and 16 give backs that each may lead to 23 states",
            0,
            returns(22, bounds::one),
        )?,
        sample("flow-params", "each of 30 calls with eight arguments may be of each of 30 functions", 0, params())?,
        sample("flow-sends", "120 sends of 28 values to 16 classes each", 0, value_sends())?,
        sample("flow-cases", "28 classes at one case of 16 deep branches over 145 values", 0, cases())?,
        sample(
            "flow-everything",
            "all of these at once, near every limit of the program and the tables",
            0,
            everything(bounds::one),
        )?,
        sample("flow-everything-wide", "the same with as many ceiling entries as may be", 0, everything(bounds::wide))?,
        sample(
            "open-at-the-end",
            "flow-everything without its last state",
            8,
            changed(everything(bounds::one), drop_last_state),
        )?,
    ])
}

fn builds(program: &Program) -> Vec<usize> {
    (0..program.rows).filter(|&r| program.build(r).is_some()).collect()
}

/// Builds without arguments.
fn plain(program: &Program) -> Vec<usize> {
    (0..program.rows).filter(|&r| program.build(r).is_some_and(|(_, args)| args.is_empty())).collect()
}

fn values(program: &Program) -> Vec<usize> {
    (0..=program.rows).filter(|&v| program.is_value(v)).collect()
}

fn hold(tables: &mut Tables, name: usize, values: &[usize]) {
    values.iter().for_each(|&value| {
        tables.flow[name].insert(value);
    });
}

/// A build of constructor 0 with these arguments.
fn big_build(list: &mut RowList, args: &[usize]) -> usize {
    let parts: Vec<(usize, usize)> = std::iter::once((20, 0)).chain(args.iter().map(|&arg| (21, arg))).collect();
    list.bind(2, &parts)
}

/// A branch whose pattern fails only at its deepest spot, or binds there; it gives back `name`.
fn deep_branch(list: &mut RowList, i: usize, name: usize) {
    for _ in 0..3 {
        list.row(31, 0);
        (0..7).for_each(|_| list.row(32, 0));
    }
    if i.is_multiple_of(2) {
        list.row(31, 2);
    } else {
        list.bind(30, &[]);
    }
    list.row(1, name);
}

/// Patterns four deep over constructors of eight arguments, each argument with hundreds of values.
fn patterns(bounds: impl Bounds) -> Result<Vec<u8>, String> {
    let mut list = RowList::default();
    list.rows.extend([(10, 8), (10, 0), (10, 0)]);
    let work = list.bind(11, &[(22, 0)]);
    let inner = list.bind(3, &[(22, 8)]);
    let params: Vec<usize> = (0..8).map(|_| list.bind(23, &[])).collect();
    (0..8).for_each(|_| {
        big_build(&mut list, &params);
    });
    list.row(9, 14);
    (0..14).for_each(|i| deep_branch(&mut list, i, work));
    list.row(1, inner);
    (0..8).for_each(|_| {
        list.bind(6, &[(21, work)]);
    });
    (0..230).for_each(|_| {
        list.bind(2, &[(20, 1)]);
    });
    list.row(1, work);
    let extra = move |program: &Program, tables: &mut Tables| {
        let builds = builds(program);
        params[..3].iter().for_each(|&param| hold(tables, param, &plain(program)));
        params[3..].iter().for_each(|&param| hold(tables, param, &builds));
        for mail in &mut tables.mail {
            builds.iter().take(56).for_each(|&b| {
                mail.insert(b);
            });
        }
        let inner = program.functions.iter().find(|f| f.params.len() == 8).map_or(0, |f| f.body);
        tables.states.extend(program.classes().map(|c| program.fresh(c, inner)));
    };
    Rows { list, constructors: 3, functions: 1 }.finish(extra, bounds)
}

/// The rows of a pattern with eight arguments at each level, constructor 1 at the deepest.
fn full_pattern(list: &mut RowList, level: usize) {
    match level {
        limits::DEPTH => list.row(31, 1),
        _ => {
            list.row(31, 0);
            (0..8).for_each(|_| full_pattern(list, level + 1));
        }
    }
}

/// One pattern as large as may be.
fn tree() -> Result<Vec<u8>, String> {
    let mut list = RowList::default();
    list.rows.extend([(10, 8), (10, 0)]);
    let work = list.bind(11, &[(22, 0)]);
    list.row(1, work);
    let small: Vec<usize> = (0..150).map(|_| list.bind(2, &[(20, 1)])).collect();
    let big: Vec<usize> = (0..12).map(|_| big_build(&mut list, &small[..8])).collect();
    list.rows.extend([(8, big[0]), (25, 1)]);
    full_pattern(&mut list, 1);
    list.row(1, work);
    let extra = move |program: &Program, tables: &mut Tables| {
        let builds = builds(program);
        big.iter().chain(&small[..12]).for_each(|&name| hold(tables, name, &builds));
    };
    Rows { list, constructors: 2, functions: 1 }.finish(extra, bounds::one)
}

/// Seven names with so many values each, passed on by a call and a give back.
pub fn wide(count: usize) -> Result<Vec<u8>, String> {
    let mut list = RowList::default();
    list.row(10, 0);
    let pass = list.bind(11, &[(22, 5)]);
    let params: Vec<usize> = (0..5).map(|_| list.bind(23, &[])).collect();
    list.row(1, params[0]);
    let built: Vec<usize> = (0..count).map(|_| list.bind(2, &[(20, 0)])).collect();
    let arg = (21, built[0]);
    list.bind(4, &[(21, pass), (22, 5), arg, arg, arg, arg, arg]);
    list.row(1, pass);
    let extra = move |program: &Program, tables: &mut Tables| hold(tables, built[0], &builds(program));
    Rows { list, constructors: 1, functions: 1 }.finish(extra, bounds::one)
}

/// Each of so many calls may be of each of as many functions, a state of the body for each.
pub fn calls(count: usize, bounds: impl Bounds) -> Result<Vec<u8>, String> {
    let mut list = RowList::default();
    let spare = list.bind(11, &[(22, 0)]);
    list.row(1, spare);
    let functions = add_functions(&mut list, count, spare);
    (0..count).for_each(|_| {
        list.bind(4, &[(21, functions[0]), (22, 0)]);
    });
    list.row(1, spare);
    let extra = move |program: &Program, tables: &mut Tables| hold(tables, functions[0], &inner_functions(program));
    Rows { list, constructors: 0, functions: 1 }.finish(extra, bounds)
}

/// So many calls of a function in itself, behind a case that may give back at once: 16 give backs, and each of them may
/// lead to what comes behind each call, with each return that the call has.
pub fn returns(count: usize, bounds: impl Bounds) -> Result<Vec<u8>, String> {
    let mut list = RowList::default();
    let own = list.bind(11, &[(22, 0)]);
    list.rows.extend([(8, own), (25, 16)]);
    (0..15).for_each(|_| list.rows.extend([(32, 0), (1, own)]));
    list.row(32, 0);
    (0..count).for_each(|_| {
        list.bind(4, &[(21, own), (22, 0)]);
    });
    list.row(1, own);
    list.bind(4, &[(21, own), (22, 0)]);
    list.row(1, own);
    Rows { list, constructors: 0, functions: 1 }.finish(|_, _| (), bounds)
}

/// Functions without parameters that give back a name.
fn add_functions(list: &mut RowList, count: usize, name: usize) -> Vec<usize> {
    let add = |_| {
        let function = list.bind(3, &[(22, 0)]);
        list.row(1, name);
        function
    };
    (0..count).map(add).collect()
}

/// Functions that are not of the front.
fn inner_functions(program: &Program) -> Vec<usize> {
    let front: Vec<usize> = program.named().map(|f| f.row).collect();
    program.functions.iter().map(|f| f.row).filter(|row| !front.contains(row)).collect()
}

/// Each of 30 calls with eight arguments may be of each of 30 functions.
fn params() -> Result<Vec<u8>, String> {
    let mut list = RowList::default();
    let spare = list.bind(11, &[(22, 0)]);
    list.row(1, spare);
    let add = |_| {
        let function = list.bind(3, &[(22, 8)]);
        (0..8).for_each(|_| {
            list.bind(23, &[]);
        });
        list.row(1, spare);
        function
    };
    let functions: Vec<usize> = (0..30).map(add).collect();
    let address = list.bind(7, &[]);
    let parts: Vec<(usize, usize)> = [(21, functions[0]), (22, 8)].into_iter().chain(vec![(21, address); 8]).collect();
    (0..30).for_each(|_| {
        list.bind(4, &parts);
    });
    list.row(1, spare);
    let extra = move |program: &Program, tables: &mut Tables| {
        let functions_of = inner_functions(program);
        hold(tables, functions[0], &functions_of);
        hold(tables, address, &functions_of[..9]);
    };
    Rows { list, constructors: 0, functions: 1 }.finish(extra, bounds::one)
}

/// Sends of two values of each of 14 letters to 16 classes.
fn value_sends() -> Result<Vec<u8>, String> {
    let letters = 14;
    let mut list = RowList::default();
    list.rows.extend(vec![(10, 0); letters]);
    let idle = list.bind(11, &[(22, 0)]);
    list.row(1, idle);
    let built: Vec<usize> = (0..letters * 2).map(|i| list.bind(2, &[(20, i % letters)])).collect();
    (0..15).for_each(|_| {
        list.bind(6, &[(21, idle)]);
    });
    let own = list.bind(7, &[]);
    (0..120).for_each(|_| {
        list.bind(5, &[(21, own), (21, built[0])]);
    });
    list.row(1, idle);
    let extra = move |program: &Program, tables: &mut Tables| {
        program.classes().for_each(|c| {
            tables.flow[own].insert(c);
        });
        hold(tables, built[0], &builds(program));
    };
    Rows { list, constructors: letters, functions: 1 }.finish(extra, bounds::one)
}

/// Many classes at one case of deep branches.
fn cases() -> Result<Vec<u8>, String> {
    let mut list = RowList::default();
    list.rows.extend([(10, 8), (10, 0), (10, 0)]);
    let work = list.bind(11, &[(22, 0)]);
    list.rows.extend([(8, work), (25, 16)]);
    (0..16).for_each(|i| deep_branch(&mut list, i, work));
    (0..28).for_each(|_| {
        list.bind(6, &[(21, work)]);
    });
    let small: Vec<usize> = (0..130).map(|_| list.bind(2, &[(20, 1)])).collect();
    (0..15).for_each(|_| {
        big_build(&mut list, &small[..8]);
    });
    list.row(1, work);
    let extra = move |program: &Program, tables: &mut Tables| {
        let builds = builds(program);
        small[..8].iter().chain([&work]).for_each(|&name| hold(tables, name, &builds));
    };
    Rows { list, constructors: 3, functions: 1 }.finish(extra, bounds::one)
}

/// Deep patterns, many values, many functions and calls, many classes and states at once.
fn everything(bounds: impl Bounds) -> Result<Vec<u8>, String> {
    let mut list = RowList::default();
    list.rows.extend([(10, 8), (10, 0), (10, 0)]);
    let work = list.bind(11, &[(22, 0)]);
    list.row(9, 16);
    (0..16).for_each(|i| deep_branch(&mut list, i, work));
    let small: Vec<usize> = (0..43).map(|_| list.bind(2, &[(20, 1)])).collect();
    (0..4).for_each(|_| {
        big_build(&mut list, &small[..8]);
    });
    let functions = add_functions(&mut list, 76, work);
    (0..76).for_each(|_| {
        list.bind(4, &[(21, functions[0]), (22, 0)]);
    });
    (0..8).for_each(|_| {
        list.bind(6, &[(21, work)]);
    });
    list.row(1, work);
    let extra = move |program: &Program, tables: &mut Tables| {
        let (builds, values, functions_of) = (builds(program), values(program), inner_functions(program));
        hold(tables, functions[0], &functions_of[..7]);
        small[..7].iter().for_each(|&name| hold(tables, name, &plain(program)));
        small[7..24].iter().for_each(|&name| hold(tables, name, &values));
        for mail in &mut tables.mail {
            builds.iter().copied().chain(program.classes()).take(56).for_each(|v| {
                mail.insert(v);
            });
        }
        let body = program.functions.iter().find(|f| f.name == work).map_or(0, |f| f.body);
        tables.states.push(program.fresh(program.rows, body));
        let bodies = program.functions.iter().skip(1).map(|f| f.body);
        tables.states.extend(bodies.flat_map(|b| program.spawns.iter().map(move |&c| program.fresh(c, b))).take(120));
    };
    Rows { list, constructors: 3, functions: 1 }.finish(extra, bounds)
}

fn drop_last_state(m: &mut crate::message::Message) {
    m.tables.first.pop();
    m.tables.second.pop();
    m.returns.pop();
    m.states -= 1;
}
