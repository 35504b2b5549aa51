//! (xi) of 02: no empty name in any run of a program that passes the checks 1 to 5, safe or not.

use common::{files, station_a};
use oracle::held::{check_names, empty_name, names_read};
use oracle::machine::Machine;
use oracle::program::Program;
use oracle::{message, reader};

mod common;

/// The program of these rows, which the scopes need not let pass.
fn program(sizes: [u16; 4], rows: &[(u16, u16)]) -> Program {
    let mut words = sizes.to_vec();
    words.extend(rows.iter().map(|row| row.0));
    words.extend(rows.iter().map(|row| row.1));
    words.extend([1, 4, 40, 42, 43, 44, 0, 0, 1, 0, 0, 0, 0, 0, 0]);
    let message = message::read(&message::to_bytes(&words)).expect("whole");
    reader::read(&message).expect("rows that fit")
}

/// Process 0 makes so many steps; the name that is empty then.
fn empty_after(program: &Program, steps: usize) -> Option<usize> {
    let mut machine = Machine::new(program);
    (0..steps).for_each(|_| {
        assert_eq!(empty_name(&machine), None);
        machine.step(0).expect("a step");
    });
    empty_name(&machine).map(|(_, name)| name)
}

#[test]
fn every_example_reads_names_that_hold() {
    for folder in ["examples", "examples/hostile"] {
        for file in files(folder, "msg") {
            let message = std::fs::read(&file).unwrap();
            let numbers: Vec<usize> = (0..400).map(|i| (i * 7 + i / 5) % 4).collect();
            check_names(&message, &numbers).unwrap_or_else(|word| panic!("{file:?}: {word}"));
        }
    }
    assert_eq!(check_names(&message::to_bytes(&station_a()), &[0; 9]), Ok(true));
    assert_eq!(check_names(&[], &[0]), Ok(false));
}

#[test]
fn programs_that_5_refuses_meet_an_empty_name() {
    // f = fun () -> (x = self; x); x: the row behind the scope of x
    assert_eq!(empty_after(&program([5, 2, 0, 0], &[(3, 0), (22, 0), (7, 1), (1, 1), (1, 1)]), 1), Some(1));
    // x = self; receive { c0(y) -> x; c0(=y) -> x }: the name of a branch in the next pattern
    let receive = [(10, 1), (7, 0), (9, 2), (31, 0), (30, 1), (1, 0), (31, 0), (33, 1), (1, 0)];
    assert_eq!(empty_after(&program([9, 2, 1, 0], &receive), 1), Some(1));
    // x = self; case x of { c0(y) -> x; _ -> y }: in the next branch
    let case = [(10, 1), (7, 0), (8, 0), (25, 2), (31, 0), (30, 1), (1, 0), (32, 0), (1, 1)];
    assert_eq!(empty_after(&program([9, 2, 1, 0], &case), 2), Some(1));
}

#[test]
fn names_are_read_at_heads_and_in_held_patterns() {
    // x = self; send x x; case x of { =x -> x; c0(=x) -> x }
    let rows = [(10, 1), (7, 0), (5, 1), (21, 0), (21, 0), (8, 1), (25, 2), (33, 0), (1, 0), (31, 0), (33, 1), (1, 0)];
    let program = program([12, 2, 1, 0], &rows);
    assert_eq!(names_read(&program, 1), [0; 0]);
    assert_eq!(names_read(&program, 2), [0, 0]);
    assert_eq!(names_read(&program, 5), [1, 0, 1]);
}
