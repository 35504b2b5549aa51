//! The model's tables of cases are what this implementation writes.

mod common;

use common::{bytes, path, verdict};
use oracle::cases::{runs, verdicts};
use oracle::limits::FORMER;
use oracle::verify::verify_within;
use std::fs::read_to_string;

fn stands(table: Result<String, String>, file: &str) {
    let stored = read_to_string(path(&format!("crates/cases_oracle/specs/{file}"))).expect(file);
    assert!(table.expect("a table") == stored, "{file} is not what its source gives: write it anew (oracle/README.md)");
}

fn source(name: &str) -> String {
    read_to_string(path(&format!("oracle/tests/cases/{name}"))).expect(name)
}

#[test]
fn the_table_of_runs() {
    stands(runs::table(&source("runs.txt")), "RunCases.antt");
}

#[test]
fn the_table_of_verdicts() {
    stands(verdicts::table(&source("verdicts.txt")), "VerdictCases.antt");
}

/// Sizes, and the pairs of the two columns.
type Part<'a> = (&'a [u16], &'a [(u16, u16)]);

/// A message whose states want nothing, with these states: the start, which takes its own address and then tries to
/// spawn it so many times. With 15 it is the message of CounterCases.antt.
fn crowd(spawns: u16, states: &[(u16, u16)]) -> Vec<u8> {
    let size = 35 + 2 * spawns;
    let mut rows = vec![(10, 0), (9, 1), (30, 0)];
    rows.extend((1..=spawns).flat_map(|name| [(6, name), (21, 0)]));
    rows.extend([(8, 0), (25, 15)]);
    rows.extend([(31, 0), (1, 0)].repeat(15));
    let mut tables = vec![(0, size), (size, size)];
    tables.extend(states);
    let bads = [(40, size), (41, 1), (43, 2), (44, 0)];
    let parts: [Part; 4] =
        [(&[size, spawns + 1, 1, 0], &rows), (&[1, 4], &bads), (&[1, 1, states.len() as u16], &tables), (&[0, 0], &[])];
    let columns = |pairs: &[(u16, u16)]| {
        [pairs.iter().map(|p| p.0).collect(), pairs.iter().map(|p| p.1).collect::<Vec<_>>()].concat()
    };
    let mut words: Vec<u16> =
        parts.iter().flat_map(|(sizes, pairs)| [sizes.to_vec(), columns(pairs)].concat()).collect();
    let ceilings = words.len() - 2;
    words.splice(ceilings..ceilings, vec![size; states.len()]);
    bytes(&words)
}

/// Every class of a crowd at each of these heads.
fn crowded(spawns: u16, heads: &[u16]) -> Vec<(u16, u16)> {
    let classes = (0..spawns).map(|i| 3 + 2 * i).chain([35 + 2 * spawns]);
    classes.flat_map(|class| heads.iter().map(move |&head| (class, head))).collect()
}

/// Beside the 512 states there is a letter.
#[test]
fn over_512_counters_by_the_former_limits() {
    let heads: Vec<u16> =
        [1].into_iter().chain((0..16).map(|i| 3 + 2 * i)).chain((0..15).map(|i| 36 + 2 * i)).collect();
    let states = crowded(15, &heads);
    assert_eq!(states.len(), 512);
    let told = |states: &[(u16, u16)]| {
        let outcome = verify_within(&crowd(15, states), &mut [0; 100], &FORMER);
        (outcome.number, outcome.place)
    };
    assert_eq!(told(&states), (9, 146));
    assert_eq!(told(&states[1..]), (11, 1684));
}

/// Beside the 1,024 states there is a letter.
#[test]
fn over_1024_counters() {
    let heads: Vec<u16> = [1].into_iter().chain((0..31).map(|i| 3 + 2 * i)).collect();
    let states = crowded(31, &heads);
    assert_eq!(states.len(), 1024);
    assert_eq!(verdict(&crowd(31, &states)), (9, 210));
    assert_eq!(verdict(&crowd(31, &states[1..])), (11, 3284));
}
