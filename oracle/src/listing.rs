//! The text that the printing program gives.

use crate::verify::{Outcome, verify};
use std::fmt::Write;

/// Number and place; if safe the four sizes, then a tag and a number a line.
pub fn listing(outcome: &Outcome, system: &[u32]) -> String {
    let mut text = format!("{} {}\n", outcome.number, outcome.place);
    if outcome.number != 0 || system.len() < 4 {
        return text;
    }
    let rows = system[3] as usize;
    let _ = writeln!(text, "{} {} {} {}", system[0], system[1], system[2], system[3]);
    for (tag, number) in system[4..4 + rows].iter().zip(&system[4 + rows..4 + 2 * rows]) {
        let _ = writeln!(text, "{tag} {number}");
    }
    text
}

/// Verifies with so many lent words and gives the text.
pub fn verified(message: &[u8], lent: usize) -> String {
    let mut system = vec![0; lent];
    let outcome = verify(message, &mut system);
    listing(&outcome, &system)
}
