//! A bad that asks, again and again, at a place with very many returns ((iv) of 02).

use super::finish::{Rows, bytes, refused};
use super::{Sample, sample};
use crate::evidence;
use crate::explore::Limits;
use crate::fuzz::row_list::RowList;
use crate::least;
use crate::limits::{self, UNBOUNDED};
use crate::tables::Tables;

/// Calls of one routine, as many as rows, names and states allow.
pub const CALLS: usize = 508;
/// Items of the bad, as many as its rows allow.
const ITEMS: usize = (limits::BAD_ROWS.1 as usize - 1) / 3;
/// A limit of which two come to more than the greatest minimum.
const LIMIT: u16 = 40_000;

pub fn hostile() -> Result<Vec<Sample>, String> {
    Ok(vec![sample(
        "bads-sums",
        "a bad of 85 items, 84 of them at a place with 508 returns, beside 256 ceilings; the last alone is not met",
        0,
        sums(),
    )?])
}

/// A routine that is called so many times, and one that nothing calls.
fn rows() -> Rows {
    let mut list = RowList::default();
    let routine = list.bind(11, &[(22, 0)]);
    list.row(1, routine);
    let spare = list.bind(11, &[(22, 0)]);
    list.row(1, spare);
    (0..CALLS).for_each(|_| {
        list.bind(4, &[(21, routine), (22, 0)]);
    });
    list.row(1, routine);
    Rows { list, constructors: 0, functions: 2 }
}

/// The spare routine has a state that nothing leads to: the last item asks there.
pub fn sums() -> Result<Vec<u8>, String> {
    let rows = rows();
    let (program, _) = evidence::read(&rows.bare(&rows.any_bad())).map_err(refused)?;
    let bodies: Vec<usize> = program.functions.iter().map(|function| function.body).collect();
    let mut tables = Tables::empty(&program);
    tables.states.push(program.fresh(program.rows, bodies[1]));
    let tables = least::close(&program, tables);
    let item = |head: usize, minimum: usize| [(40, program.rows), (41, head), (43, minimum)];
    let mut bad = vec![item(bodies[0], UNBOUNDED as usize); ITEMS - 1].concat();
    bad.extend(item(bodies[1], 1));
    bad.push((44, 0));
    let mut m = rows.bare(&bad);
    evidence::put_tables(&mut m, &program, &tables)?;
    let counters = evidence::derive(&m, &program, &tables)?.counters();
    let routine = tables.states_at(program.rows, bodies[0]);
    let spare = tables.states_at(program.rows, bodies[1]);
    evidence::put_bounds(&mut m, &ceilings(counters, routine.end, spare.start));
    Ok(bytes(&m))
}

/// Like ceilings of the last states of the routine, and one that holds everything but the spare state.
fn ceilings(counters: usize, end: usize, spare: usize) -> Vec<Limits> {
    let others = limits::BOUNDS.1 as usize - 1;
    let held = (limits::BOUND_ENTRIES.1 as usize - counters) / others - 1;
    let mut narrow = vec![0; counters];
    narrow[end - held..end].fill(LIMIT);
    let mut wide = vec![UNBOUNDED; counters];
    wide[spare] = 0;
    vec![narrow; others].into_iter().chain([wide]).collect()
}
