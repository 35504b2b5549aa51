//! `oracle against PROGRAM SEED COUNT`: compares with a program that reads a message from
//! standard input, lends 16,384 words and prints the listing.

use super::{Answer, number, told};
use oracle::fuzz::compare::{Cases, Tally};
use oracle::listing::verified;
use oracle::{limits, verify};
use std::io::Write;
use std::process::{Command, Stdio};

/// Where the message of a difference is kept.
const KEPT: &str = "difference.msg";

fn printed(program: &str, message: &[u8]) -> Result<String, String> {
    let io = |e: std::io::Error| format!("{program}: {e}");
    let command = Command::new(program).stdin(Stdio::piped()).stdout(Stdio::piped()).spawn();
    let mut child = command.map_err(io)?;
    if let Some(mut input) = child.stdin.take() {
        // A program may stop reading early: the message is then settled by its beginning.
        let _ = input.write_all(message);
    }
    let output = child.wait_with_output().map_err(io)?;
    String::from_utf8(output.stdout).map_err(|e| format!("{program}: {e}"))
}

pub fn command(args: &[String]) -> Answer {
    let [program, seed, count] = args else { return Err("against: PROGRAM, SEED and COUNT are wanted".to_string()) };
    let mut cases = Cases::new(number(seed)?);
    let mut tally = Tally::default();
    for i in 0..number(count)? {
        let case = cases.next_case();
        let (own, other) = (verified(&case.message, limits::LENT), printed(program, &case.message)?);
        if own != other {
            std::fs::write(KEPT, &case.message).map_err(|e| e.to_string())?;
            let line = own.lines().zip(other.lines()).position(|(a, b)| a != b);
            return Err(format!("case {i}: the texts differ (line {line:?}); the message is kept in {KEPT}"));
        }
        let outcome = verify::verify(&case.message, &mut vec![0; limits::LENT]);
        tally.count(outcome.number, &case.message);
    }
    told(&tally.words())
}
