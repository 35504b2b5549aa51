//! Honest stations near the limits of 01: least tables, and ceilings that say something.

use super::finish::{Rows, bytes, refused};
use super::{Sample, bounds, sample};
use crate::evidence;
use crate::explore::Limits;
use crate::fuzz::row_list::RowList;
use crate::least;
use crate::limits::UNBOUNDED;
use crate::program::Program;
use crate::system::System;
use crate::tables::Tables;
use crate::text::assemble::assemble;
use std::fmt::Write;

/// The largest of each kind.
pub fn honest() -> Result<Vec<Sample>, String> {
    Ok(vec![
        sample("honest-polling", "a loop that polls 28 gauges in turn, each ceiling exact", 0, polling(28))?,
        sample(
            "honest-calls",
            "112 calls of one function with 17 values, five workers beside; the start's place is exact",
            0,
            calls(112),
        )?,
        sample(
            "honest-workers",
            "eleven workers of 33 steps that are sent five letters each, any number of everything",
            0,
            workers(11),
        )?,
    ])
}

/// So many gauges, each spawned, polled and heard before the next; the ceilings are explored.
fn polling(gauges: usize) -> Result<Vec<u8>, String> {
    let mut text = "evidence ceilings.
        constructors poll/1, reading/1, low/0.
        function gauge() -> receive poll(From) -> From ! reading(low) end.
        start ->\n"
        .to_string();
    for i in 0..gauges {
        let _ = writeln!(text, "G{i} = @g{i} spawn(gauge), G{i} ! poll(self()), receive reading(X{i}) ->");
    }
    let _ = writeln!(text, "X0 {}.", "end ".repeat(gauges));
    text.push_str("bad two_readings: start holds reading >= 2.\n");
    (0..gauges.min(15)).for_each(|i| {
        let _ = writeln!(text, "bad two_polls_{i}: g{i} holds poll >= 2.");
    });
    let assembled = assemble(&text)?;
    match assembled.safe {
        true => Ok(assembled.message),
        false => Err(assembled.notes.join("\n")),
    }
}

/// So many calls of one function that gives its argument back, with 17 values in turn, and five
/// workers that are sent results.
pub fn calls(count: usize) -> Result<Vec<u8>, String> {
    let letters = 4;
    let mut list = RowList::default();
    list.rows.extend(vec![(10, 0); letters]);
    let pass = list.bind(11, &[(22, 1)]);
    let passed = list.bind(23, &[]);
    list.row(1, passed);
    let work = list.bind(11, &[(22, 0)]);
    list.row(9, 1);
    let taken = list.bind(30, &[]);
    list.row(1, taken);
    let built: Vec<usize> = (0..17).map(|i| list.bind(2, &[(20, i % letters)])).collect();
    let workers: Vec<usize> = (0..5).map(|_| list.bind(6, &[(21, work)])).collect();
    let results: Vec<usize> =
        (0..count).map(|i| list.bind(4, &[(21, pass), (22, 1), (21, built[i % built.len()])])).collect();
    workers.iter().zip(&results).for_each(|(&worker, &result)| {
        list.bind(5, &[(21, worker), (21, result)]);
    });
    list.row(1, work);
    exact_start(Rows { list, constructors: letters, functions: 2 })
}

/// Least tables, and a ceiling for each place of the starting process: one process there, any
/// number of everything else. The bad: the starting process in two places.
fn exact_start(rows: Rows) -> Result<Vec<u8>, String> {
    let mut m = rows.bare(&rows.any_bad());
    let (program, _) = evidence::read(&m).map_err(refused)?;
    let tables = least::least(&program);
    let own = tables.states.iter().filter(|state| state.class == program.rows);
    let mut places: Vec<usize> = own.map(|state| state.head).collect();
    places.dedup();
    let at = |head: usize| [(40, program.rows), (41, head), (43, 1)];
    let bad = [&at(places[0])[..], &at(places[1]), &[(44, 0)]].concat();
    m = rows.bare(&bad);
    evidence::put_tables(&mut m, &program, &tables)?;
    let system = evidence::derive(&m, &program, &tables)?;
    evidence::put_bounds(&mut m, &by_place(&program, &tables, &system));
    Ok(bytes(&m))
}

fn by_place(program: &Program, tables: &Tables, system: &System) -> Vec<Limits> {
    let own = |counter: usize| tables.states.get(counter).is_some_and(|state| state.class == program.rows);
    let others: Limits = (0..system.counters()).map(|c| if own(c) { 0 } else { UNBOUNDED }).collect();
    let bound = |counter: usize| {
        let mut limits = others.clone();
        limits[counter] = 1;
        limits
    };
    (0..system.states).filter(|&counter| own(counter)).map(bound).collect()
}

/// So many workers of one long body, each sent five letters; as many counters as may be.
fn workers(count: usize) -> Result<Vec<u8>, String> {
    let letters = 5;
    let mut list = RowList::default();
    list.rows.extend(vec![(10, 0); letters]);
    let work = list.bind(11, &[(22, 0)]);
    (0..32).for_each(|_| {
        list.bind(7, &[]);
    });
    list.row(1, work);
    let built: Vec<usize> = (0..letters).map(|letter| list.bind(2, &[(20, letter)])).collect();
    for _ in 0..count {
        let worker = list.bind(6, &[(21, work)]);
        built.iter().for_each(|&letter| {
            list.bind(5, &[(21, worker), (21, letter)]);
        });
    }
    list.row(1, work);
    Rows { list, constructors: letters, functions: 1 }.finish(|_, _| (), bounds::one)
}
