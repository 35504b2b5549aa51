//! docs/FORMAT.md takes station A apart word by word: the words of its tables are those of the message.

mod common;

use std::collections::BTreeMap;

/// The numbers of a column, if it has nothing else.
fn numbers(column: &str) -> Option<Vec<usize>> {
    column.split(',').map(|number| number.trim().parse().ok()).collect()
}

#[test]
fn station_a_stands_there_word_by_word() {
    let text = std::fs::read_to_string(common::path("docs/FORMAT.md")).expect("docs/FORMAT.md");
    let told = text.split("## Station A").nth(1).expect("a section on station A");
    let mut words = BTreeMap::new();
    for line in told.lines() {
        let columns: Vec<&str> = line.split('|').collect();
        let (Some(at), Some(values)) =
            (columns.get(1).and_then(|c| numbers(c)), columns.get(2).and_then(|c| numbers(c)))
        else {
            continue;
        };
        assert_eq!(at.len(), values.len(), "{line}");
        for (at, value) in at.into_iter().zip(values) {
            assert_eq!(words.insert(at, value as u16), None, "word {at} stands twice");
        }
    }
    let message: BTreeMap<usize, u16> = common::station_a().into_iter().enumerate().collect();
    assert_eq!(words, message);
}
