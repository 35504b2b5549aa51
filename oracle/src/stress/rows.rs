//! Messages that make checks 3 to 7 work: rows, names, scopes, bads, entries.

use super::bounds;
use super::finish::{Rows, bytes, changed, refused};
use super::{Sample, sample};
use crate::evidence;
use crate::fuzz::row_list::RowList;
use crate::limits;
use crate::message::Columns;
use crate::program::Program;
use crate::tables::Tables;

pub fn hostile() -> Result<Vec<Sample>, String> {
    let nothing = |rows: Rows| rows.finish(|_, _| (), bounds::one);
    let wrong_row = |message| changed(message, |m| set_last(&mut m.program.first, 24));
    let again = |message| changed(message, |m| m.program.second[m.rows - 2] = 0);
    Ok(vec![
        sample(
            "rows-receives",
            "510 receives, each in the branch of the one before",
            0,
            nested_receives(510).finish(mail_of_start, bounds::one),
        )?,
        sample(
            "rows-functions",
            "340 functions, each in the body of the one before",
            0,
            nothing(nested_functions(340)),
        )?,
        sample(
            "rows-last-wrong",
            "510 nested receives, the last row wrong",
            3,
            wrong_row(nested_receives(510).finish(mail_of_start, bounds::one)),
        )?,
        sample(
            "names-again",
            "511 names, the last binder binds the first name again",
            4,
            again(nothing(bound_last())),
        )?,
        sample(
            "names-unbound",
            "511 names bound and 512 said to be",
            4,
            changed(nothing(bound_last()), |m| m.names += 1),
        )?,
        sample("scopes-far", "340 names, half of them read far from their binders", 0, nothing(far_reads()))?,
        sample(
            "scopes-last",
            "names of 113 nested functions read by the innermost; the last read is out of scope",
            5,
            Ok(out_of_scope()),
        )?,
        sample(
            "bads-full",
            "16 bads of 256 rows beside 256 ceilings, each bad not met by its last item alone",
            0,
            full_bads(false),
        )?,
        sample("bads-last-wrong", "16 bads of 256 rows, the last row wrong", 6, full_bads(true))?,
        sample(
            "entries-last-wrong",
            "4,096 flow, 512 mail and 1,024 state entries, the last not in order",
            7,
            full_entries(),
        )?,
    ])
}

pub fn set_last(column: &mut [u16], word: u16) {
    if let Some(last) = column.last_mut() {
        *last = word;
    }
}

/// A front with one function that gives itself back.
fn idle(list: &mut RowList) -> usize {
    let idle = list.bind(11, &[(22, 0)]);
    list.row(1, idle);
    idle
}

pub fn mail_of_start(program: &Program, tables: &mut Tables) {
    if let Some(mail) = tables.mail.last_mut() {
        mail.insert(program.rows);
    }
}

/// So many receives, each in the branch of the one before.
pub fn nested_receives(count: usize) -> Rows {
    let mut list = RowList::default();
    let idle = idle(&mut list);
    (0..count).for_each(|_| list.rows.extend([(9, 1), (32, 0)]));
    list.row(1, idle);
    Rows { list, constructors: 0, functions: 1 }
}

/// So many functions, each in the body of the one before and giving back the outermost name.
pub fn nested_functions(count: usize) -> Rows {
    let mut list = RowList::default();
    let idle = idle(&mut list);
    (0..count).for_each(|_| {
        list.bind(3, &[(22, 0)]);
    });
    (0..=count).for_each(|_| list.row(1, idle));
    Rows { list, constructors: 0, functions: 1 }
}

/// 511 names; the last row but one binds the last of them, and the last row reads it.
fn bound_last() -> Rows {
    let mut list = RowList::default();
    list.row(10, 0);
    idle(&mut list);
    (0..499).for_each(|_| {
        list.bind(2, &[(20, 0)]);
    });
    (0..10).for_each(|_| {
        list.bind(7, &[]);
    });
    list.row(9, 1);
    let last = list.bind(30, &[]);
    list.row(1, last);
    Rows { list, constructors: 1, functions: 1 }
}

/// As many names as may be, each read far from where it is bound.
fn far_reads() -> Rows {
    let mut list = RowList::default();
    list.row(10, 1);
    let idle = idle(&mut list);
    let own: Vec<usize> = (0..340).map(|_| list.bind(7, &[])).collect();
    own.iter().rev().take(171).for_each(|&name| {
        list.bind(2, &[(20, 0), (21, name)]);
    });
    list.row(1, idle);
    Rows { list, constructors: 1, functions: 1 }
}

/// Functions of a parameter each, one in the body of the other; the innermost body reads the
/// parameters of all, and what follows reads the innermost.
fn out_of_scope() -> Vec<u8> {
    let mut list = RowList::default();
    list.row(10, 1);
    let idle = idle(&mut list);
    let depth = 113;
    let params: Vec<usize> = (0..depth)
        .map(|_| {
            list.bind(3, &[(22, 1)]);
            list.bind(23, &[])
        })
        .collect();
    params.iter().for_each(|&param| {
        list.bind(2, &[(20, 0), (21, param)]);
    });
    (0..depth).for_each(|_| list.row(1, idle));
    list.row(1, params[depth - 1]);
    let rows = Rows { list, constructors: 1, functions: 1 };
    bytes(&rows.bare(&rows.any_bad()))
}

/// 16 bads of five items, of which the ceilings allow four and the last has no counter; perhaps the last row is wrong.
fn full_bads(wrong: bool) -> Result<Vec<u8>, String> {
    let mut list = RowList::default();
    idle(&mut list);
    let first = list.rows.len();
    (0..250).for_each(|_| {
        list.bind(7, &[]);
    });
    list.row(1, 0);
    let rows = Rows { list, constructors: 0, functions: 1 };
    let class = rows.list.rows.len();
    let item = |place: (usize, usize)| [(40, class), place, (43, 1)];
    let held = |i: usize| item((41, first + i));
    let bad = |_| [held(0), held(1), held(2), held(3), item((42, 0))].concat().into_iter().chain([(44, 0)]);
    let pairs: Vec<(usize, usize)> = (0..16).flat_map(bad).collect();
    let column = |of: fn(&(usize, usize)) -> usize| pairs.iter().map(|pair| of(pair) as u16).collect();
    changed(rows.finish(|_, _| (), bounds::alike), |m| {
        m.bads = 16;
        m.bad_rows = Columns { at: 0, first: column(|pair| pair.0), second: column(|pair| pair.1) };
        if wrong {
            set_last(&mut m.bad_rows.second, 1);
        }
    })
}

/// Tables as long as they may be, in form but for the last state, which stands twice.
fn full_entries() -> Result<Vec<u8>, String> {
    let mut list = RowList::default();
    let idle = idle(&mut list);
    (0..100).for_each(|_| {
        list.bind(6, &[(21, idle)]);
    });
    list.row(1, idle);
    let rows = Rows { list, constructors: 0, functions: 1 };
    let mut m = rows.bare(&rows.any_bad());
    let (program, _) = evidence::read(&m).map_err(refused)?;
    let values: Vec<usize> = (0..=program.rows).filter(|&v| program.is_value(v)).collect();
    let heads: Vec<usize> = (0..program.rows).filter(|&r| program.is_head(r)).collect();
    let mut tables = Tables::empty(&program);
    let flow = (0..program.names).flat_map(|name| values.iter().map(move |&v| (name, v)));
    flow.take(limits::FLOW.1 as usize).for_each(|(name, v)| {
        tables.flow[name].insert(v);
    });
    let mail = (0..tables.mail.len()).flat_map(|class| values.iter().map(move |&v| (class, v)));
    mail.take(limits::MAIL.1 as usize).for_each(|(class, v)| {
        tables.mail[class].insert(v);
    });
    let states = program.classes().flat_map(|class| heads.iter().map(move |&head| (class, head)));
    let states = states.map(|(class, head)| program.fresh(class, head));
    tables.states = states.take(limits::STATES.1 as usize - 1).collect();
    tables.states.extend(tables.states.last().copied());
    evidence::put_tables(&mut m, &program, &tables)?;
    evidence::put_bounds(&mut m, &[vec![1]]);
    Ok(bytes(&m))
}
