//! Messages whose letters are many: constructors with arguments of many heads ((viii) of 02).

use super::bounds::{self, Bounds};
use super::finish::{Rows, changed};
use super::{Sample, sample};
use crate::fuzz::row_list::RowList;
use crate::message::Message;
use crate::program::Program;
use crate::tables::Tables;

pub fn hostile() -> Result<Vec<Sample>, String> {
    Ok(vec![
        sample(
            "letters-product",
            "a message of eight arguments, each of 66 heads: 66 to the power of 8 letters",
            9,
            changed(product(8), all_heads),
        )?,
        sample(
            "letters-none",
            "seven arguments of 66 heads, the eighth without a value: no letter at all",
            0,
            hollow(&[66, 66, 66, 66, 66, 66, 66, 0], bounds::one),
        )?,
        sample(
            "letters-all",
            "1,024 counters, of which 1,022 are letters, and seven ceilings of all of them",
            0,
            all(30, bounds::wide),
        )?,
        sample("letters-over", "one letter more: 1,025 counters", 9, changed(all(30, bounds::one), one_head_more))?,
        sample("letters-sends", "220 sends that each may put 784 letters", 0, sends(220, bounds::one))?,
        sample("letters-leak", "the same with 256 ceilings of 8,192 entries", 0, sends(220, bounds::alike))?,
        sample(
            "letters-branches",
            "31 receives of 16 branches that each take any of 484 letters, 240,064 rules",
            0,
            branches(bounds::one),
        )?,
        sample(
            "letters-deep",
            "192 branches, half of them four deep, over 784 letters of 60 messages that have names of their own",
            0,
            deep(),
        )?,
        sample(
            "letters-rows",
            "300 messages of 900 letters each, no two the same, 961 letters in all, and 15 branches that take them apart",
            0,
            rows(),
        )?,
        sample(
            "letters-receives",
            "15 receives of 16 branches that each may take half of 729 letters, in 28 messages",
            0,
            receives(),
        )?,
    ])
}

/// A front with constructors of these arities, so many without arguments, and a function of so many parameters that is
/// never called and builds each of the latter, so that they take no states. Gives the function's name and parameters.
fn front(list: &mut RowList, arities: &[usize], others: usize, params: usize) -> (usize, Vec<usize>) {
    list.rows.extend(arities.iter().map(|&arity| (10, arity)));
    list.rows.extend(vec![(10, 0); others]);
    let unused = list.bind(11, &[(22, params)]);
    let params = (0..params).map(|_| list.bind(23, &[])).collect();
    (0..others).for_each(|i| {
        list.bind(2, &[(20, arities.len() + i)]);
    });
    (unused, params)
}

/// Builds one constructor over these names.
fn build(list: &mut RowList, constructor: usize, args: &[usize]) -> usize {
    let args: Vec<(usize, usize)> = args.iter().map(|&arg| (21, arg)).collect();
    list.bind(2, &[&[(20, constructor)], &args[..]].concat())
}

/// A message of so many times the same name is sent to oneself; the name holds the own address.
fn product(arity: usize) -> Result<Vec<u8>, String> {
    let mut list = RowList::default();
    let (unused, _) = front(&mut list, &[arity], 63, 0);
    list.row(1, unused);
    let own = list.bind(7, &[]);
    let message = build(&mut list, 0, &vec![own; arity]);
    list.bind(5, &[(21, own), (21, message)]);
    list.row(1, own);
    Rows { list, constructors: 64, functions: 1 }.finish(|_, _| (), bounds::one)
}

/// The name of the message's arguments holds every value.
fn all_heads(m: &mut Message) {
    let rows = m.program.first.iter().zip(&m.program.second);
    let own = rows.clone().find(|(tag, _)| **tag == 7).map_or(0, |(_, name)| *name);
    let values = (0..m.rows).filter(|&row| [2, 3, 11].contains(&m.program.first[row])).chain([m.rows]);
    let entries: Vec<(u16, u16)> = values.map(|value| (own, value as u16)).collect();
    add_flow(m, &entries);
}

fn add_flow(m: &mut Message, entries: &[(u16, u16)]) {
    let mut flow: Vec<(u16, u16)> = (0..m.flow).map(|i| (m.tables.first[i], m.tables.second[i])).collect();
    flow.extend(entries);
    flow.sort_unstable();
    flow.dedup();
    m.tables.first.splice(..m.flow, flow.iter().map(|entry| entry.0));
    m.tables.second.splice(..m.flow, flow.iter().map(|entry| entry.1));
    m.flow = flow.len();
}

/// A message that is built where no process comes, of arguments with so many heads each; the start waits for one.
fn hollow(heads: &[usize], bounds: impl Bounds) -> Result<Vec<u8>, String> {
    let mut list = RowList::default();
    let (unused, params) = front(&mut list, &[heads.len()], 63, heads.len());
    build(&mut list, 0, &params);
    list.row(1, unused);
    list.rows.extend([(9, 1), (32, 0), (1, unused)]);
    let heads = heads.to_vec();
    let extra = move |program: &Program, tables: &mut Tables| {
        let values: Vec<usize> = (0..=program.rows).filter(|&value| program.is_value(value)).collect();
        for (&param, &count) in params.iter().zip(&heads) {
            values.iter().take(count).for_each(|&value| insert(tables, param, value));
        }
        mail(program, tables, 0);
    };
    Rows { list, constructors: 64, functions: 1 }.finish(extra, bounds)
}

/// Two states; 31 times 32 letters of a pair and some of a box.
fn all(boxes: usize, bounds: impl Bounds) -> Result<Vec<u8>, String> {
    let mut list = RowList::default();
    let (unused, params) = front(&mut list, &[2, 1], 40, 3);
    build(&mut list, 0, &params[..2]);
    build(&mut list, 1, &params[2..]);
    list.row(1, unused);
    list.rows.extend([(9, 1), (32, 0), (1, unused)]);
    let extra = move |program: &Program, tables: &mut Tables| {
        for (&param, count) in params.iter().zip([31, 32, boxes]) {
            plain(program).take(count).for_each(|value| insert(tables, param, value));
        }
        (0..2).for_each(|constructor| mail(program, tables, constructor));
    };
    Rows { list, constructors: 42, functions: 1 }.finish(extra, bounds)
}

/// The argument of the box, the third parameter, holds another build.
fn one_head_more(m: &mut Message) {
    let params: Vec<usize> = (0..m.rows).filter(|&row| m.program.first[row] == 23).collect();
    let builds: Vec<usize> = (0..m.rows).filter(|&row| m.program.first[row] == 2).collect();
    add_flow(m, &[(m.program.second[params[2]], builds[39] as u16)]);
}

/// So many sends of a pair whose arguments have 28 heads each.
fn sends(count: usize, bounds: impl Bounds) -> Result<Vec<u8>, String> {
    let mut list = RowList::default();
    let (unused, _) = front(&mut list, &[2], 27, 0);
    list.row(1, unused);
    let own = list.bind(7, &[]);
    let message = build(&mut list, 0, &[own, own]);
    (0..count).for_each(|_| {
        list.bind(5, &[(21, own), (21, message)]);
    });
    list.row(1, own);
    let extra = move |program: &Program, tables: &mut Tables| plain(program).for_each(|b| insert(tables, own, b));
    Rows { list, constructors: 28, functions: 1 }.finish(extra, bounds)
}

/// Receives of 16 branches each, one in the last branch of the one before; the branches are as they are asked for.
fn nested(list: &mut RowList, receives: usize, last: usize, branch: impl Fn(&mut RowList, usize)) {
    for receive in 0..receives {
        list.row(9, 16);
        for i in 0..16 {
            branch(list, 16 * receive + i);
            if i < 15 {
                list.row(1, last);
            }
        }
    }
    list.row(1, last);
}

/// Branches that take any message, over the letters of one pair.
pub fn branches(bounds: impl Bounds) -> Result<Vec<u8>, String> {
    let mut list = RowList::default();
    let (unused, params) = front(&mut list, &[2], 22, 2);
    build(&mut list, 0, &params);
    list.row(1, unused);
    nested(&mut list, 31, unused, |list, _| list.row(32, 0));
    let extra = move |program: &Program, tables: &mut Tables| {
        params.iter().for_each(|&param| plain(program).for_each(|b| insert(tables, param, b)));
        mail(program, tables, 0);
    };
    Rows { list, constructors: 23, functions: 1 }.finish(extra, bounds)
}

/// Patterns four deep: a pair of a box of a box of anything, or of a held name. The messages have names of their own, each
/// with one plain value fewer than 28 and with boxes of boxes, so that no two have the same letters.
fn deep() -> Result<Vec<u8>, String> {
    let mut list = RowList::default();
    let (unused, params) = front(&mut list, &[2, 1], 27, 8);
    let inner = build(&mut list, 1, &params[..1]);
    let outer = build(&mut list, 1, &[inner]);
    let lefts: Vec<usize> = (0..30).map(|_| build(&mut list, 2, &[])).collect();
    let rights: Vec<usize> = (0..30).map(|_| build(&mut list, 3, &[])).collect();
    (0..60).for_each(|i| {
        build(&mut list, 0, &[lefts[i % 30], rights[(7 * i) % 30]]);
    });
    list.row(1, unused);
    let held = list.bind(7, &[]);
    nested(&mut list, 12, unused, |list, i| match i % 16 {
        15 => list.row(32, 0),
        n if n % 2 == 0 => list.rows.extend([(31, 0), (31, 1), (31, 1), (32, 0), (32, 0)]),
        _ => list.rows.extend([(31, 0), (32, 0), (33, held)]),
    });
    let extra = move |program: &Program, tables: &mut Tables| {
        let boxes: Vec<usize> = (0..program.rows).filter(|&r| program.build(r).is_some_and(|(c, _)| c == 1)).collect();
        plain(program).take(27).for_each(|b| insert(tables, params[0], b));
        insert(tables, inner, boxes[0]);
        insert(tables, outer, boxes[1]);
        plain(program).take(27).step_by(2).for_each(|b| insert(tables, held, b));
        for (i, &name) in lefts.iter().chain(&rights).enumerate() {
            let kept = plain(program).take(27).enumerate().filter(|(n, _)| *n != i % 27);
            kept.for_each(|(_, b)| insert(tables, name, b));
            boxes.iter().for_each(|&b| insert(tables, name, b));
        }
        mail(program, tables, 0);
    };
    Rows { list, constructors: 29, functions: 1 }.finish(extra, bounds::one)
}

/// Pairs of names that hold all plain values but one: each pair lacks other heads. One receive takes them apart.
fn rows() -> Result<Vec<u8>, String> {
    let mut list = RowList::default();
    let (unused, _) = front(&mut list, &[2], 31, 0);
    let lefts: Vec<usize> = (0..31).map(|_| build(&mut list, 1, &[])).collect();
    let rights: Vec<usize> = (0..31).map(|_| build(&mut list, 1, &[])).collect();
    (0..300).for_each(|i| {
        build(&mut list, 0, &[lefts[i % 31], rights[i / 31 * 3 % 31]]);
    });
    list.row(1, unused);
    let held = list.bind(7, &[]);
    nested(&mut list, 1, unused, |list, i| match i {
        15 => list.row(32, 0),
        _ => list.rows.extend([(31, 0), (33, held), (32, 0)]),
    });
    let extra = move |program: &Program, tables: &mut Tables| {
        for (i, &name) in lefts.iter().chain(&rights).enumerate() {
            let kept = plain(program).take(31).enumerate().filter(|(n, _)| *n != i % 31);
            kept.for_each(|(_, b)| insert(tables, name, b));
        }
        plain(program).take(31).step_by(2).for_each(|b| insert(tables, held, b));
        mail(program, tables, 0);
    };
    Rows { list, constructors: 32, functions: 1 }.finish(extra, bounds::one)
}

/// Receives whose branches take a pair apart; there are 28 builds of pairs.
fn receives() -> Result<Vec<u8>, String> {
    let mut list = RowList::default();
    let (unused, _) = front(&mut list, &[2], 26, 0);
    list.row(1, unused);
    let (left, right) = (list.bind(7, &[]), list.bind(7, &[]));
    let pairs: Vec<usize> = (0..28).map(|_| build(&mut list, 0, &[left, right])).collect();
    let held = pairs[0];
    nested(&mut list, 15, unused, |list, i| match i % 16 {
        15 => list.rows.extend([(31, 0), (32, 0), (32, 0)]),
        _ => list.rows.extend([(31, 0), (32, 0), (33, held)]),
    });
    let extra = move |program: &Program, tables: &mut Tables| {
        plain(program).for_each(|b| [left, right].into_iter().for_each(|name| insert(tables, name, b)));
        plain(program).step_by(2).for_each(|b| insert(tables, held, b));
        mail(program, tables, 0);
    };
    Rows { list, constructors: 27, functions: 1 }.finish(extra, bounds::one)
}

/// Builds without arguments.
fn plain(program: &Program) -> impl Iterator<Item = usize> + '_ {
    (0..program.rows).filter(|&r| program.build(r).is_some_and(|(_, args)| args.is_empty()))
}

fn insert(tables: &mut Tables, name: usize, value: usize) {
    tables.flow[name].insert(value);
}

/// Every build of a constructor is in the start's mail.
fn mail(program: &Program, tables: &mut Tables, constructor: usize) {
    let start = tables.mail.len() - 1;
    (0..program.rows).filter(|&r| program.build(r).is_some_and(|(c, _)| c == constructor)).for_each(|b| {
        tables.mail[start].insert(b);
    });
}
