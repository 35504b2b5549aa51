//! Station A, the examples and small helpers for the tests.
#![allow(dead_code)]

use oracle::verify::verify;
use std::path::PathBuf;

pub fn station_a() -> Vec<u16> {
    let mut a = vec![10, 3, 1, 0];
    a.extend([10, 7, 2, 20, 5, 21, 21, 9, 31, 1]);
    a.extend([0, 0, 1, 0, 2, 0, 1, 1, 0, 0]);
    a.extend([1, 4, 40, 42, 43, 44, 10, 0, 2, 0]);
    a.extend([3, 1, 5]);
    a.extend([0, 1, 2, 10, 10, 10, 10, 10, 10]);
    a.extend([10, 2, 2, 2, 1, 2, 4, 7, 9]);
    a.extend([10; 5]);
    a.extend([5, 11]);
    a.extend([0, 6, 1, 6, 2, 6, 3, 5, 6, 4, 6]);
    a.extend([1, 0, 1, 0, 1, 0, 1, 1, 0, 1, 0]);
    a
}

pub fn bytes(words: &[u16]) -> Vec<u8> {
    oracle::message::to_bytes(words)
}

pub fn verdict_lent(message: &[u8], lent: usize) -> (u32, usize) {
    let outcome = verify(message, &mut vec![0; lent]);
    (outcome.number, outcome.place)
}

pub fn verdict(message: &[u8]) -> (u32, usize) {
    verdict_lent(message, 16_384)
}

/// A file or folder of the repository.
pub fn path(name: &str) -> PathBuf {
    PathBuf::from(env!("CARGO_MANIFEST_DIR")).join("..").join(name)
}

/// The files of a folder with this ending, in order.
pub fn files(folder: &str, ending: &str) -> Vec<PathBuf> {
    let entries = std::fs::read_dir(path(folder)).expect(folder).filter_map(|f| Some(f.ok()?.path()));
    let mut files: Vec<PathBuf> = entries.filter(|f| f.extension().is_some_and(|e| e == ending)).collect();
    files.sort();
    files
}

/// The stations of the examples.
pub fn examples() -> Vec<PathBuf> {
    files("examples", "station")
}

/// Name and verdict of each line of the tables in examples/README.md.
pub fn listed() -> Vec<(String, u32)> {
    let text = std::fs::read_to_string(path("examples/README.md")).expect("examples/README.md");
    let line = |line: &str| {
        let (name, rest) = line.strip_prefix("| `")?.split_once("` |")?;
        let verdict = rest.trim_end_matches(" |").rsplit("| ").next()?;
        Some((name.to_string(), verdict.split(' ').next()?.parse().ok()?))
    };
    text.lines().filter_map(line).collect()
}
