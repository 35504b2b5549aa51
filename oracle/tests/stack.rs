//! The stack that the proved code needs, which has no heap and keeps its tables there: little for a small message, and
//! for the largest the most that is promised. A thread that needs more ends the whole test by a signal.
#![cfg(feature = "proved")]

mod common;

use common::files;
use oracle::stress::{honest, sizes};
use oracle::verify::Outcome;
use oracle::{proved, verify};
use std::thread::Builder;

/// For a message of no more than `SMALL_ROWS` rows that is no worst case.
const SMALL: usize = 192 << 10;
const SMALL_ROWS: usize = 64;
/// For any message.
const LARGE: usize = 1280 << 10;
/// Words lent: more than any system needs.
const LENT: usize = oracle::limits::PLENTY;

/// The proved code's answer, from a thread with so much stack.
fn on_stack(bytes: usize, message: &[u8]) -> Outcome {
    let message = message.to_vec();
    let run = move || proved::verify(&message, &mut vec![0; LENT]);
    Builder::new().stack_size(bytes).spawn(run).unwrap().join().unwrap()
}

/// Runs the messages on such a stack; gives how many there were.
fn run(bytes: usize, messages: &[(String, Vec<u8>)]) -> usize {
    for (name, message) in messages {
        let expected = verify::verify(message, &mut vec![0; LENT]);
        assert_eq!(on_stack(bytes, message), expected, "{name}");
    }
    messages.len()
}

fn stored(folder: &str) -> Vec<(String, Vec<u8>)> {
    let read = |file: std::path::PathBuf| (file.display().to_string(), std::fs::read(file).unwrap());
    files(folder, "msg").into_iter().map(read).collect()
}

#[test]
fn a_small_message_needs_little() {
    let small = |(_, message): &(String, Vec<u8>)| sizes(message)[0] <= SMALL_ROWS;
    let messages: Vec<_> = stored("examples").into_iter().filter(small).collect();
    assert!(run(SMALL, &messages) >= 6);
}

#[test]
fn the_largest_message_needs_no_more_than_is_promised() {
    let honest = honest::honest().unwrap().into_iter().map(|sample| (sample.name, sample.message));
    run(LARGE, &[stored("examples"), stored("examples/hostile"), honest.collect()].concat());
}
