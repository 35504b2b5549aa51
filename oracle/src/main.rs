//! The `oracle` program: picks the command.

mod commands;

use commands::output::say;
use commands::{
    Answer, NO_VERDICT, against, assemble, cases, corpus, disassemble, explain, fuzz, hostile, run, time, told, verify,
};
use std::ffi::OsString;
use std::process::ExitCode;

const USAGE: &str = "oracle verify [--lend N] [--quiet] [FILE...]
    number and place; if safe the listing (- or no file: standard input). Status 0 safe, 1 refused, 2 no verdict
oracle explain [--lend N] [--station FILE] FILE
    the verdict in words, with the names of NAME.station beside NAME.msg. Status as verify
oracle run [--station FILE] [--random N] [--seed S] FILE [NUMBERS...]
    a station run step by step beside its counters (N*K is K times process N). Status 1 where a bad is met
oracle assemble [--budget N] FILE [OUT]
    text to message, with tables and weights or ceilings; what was found goes to standard error. Status as verify
oracle disassemble FILE                message to text
oracle fuzz SEED COUNT                 random messages through the proved code and `verify` (feature `proved`)
oracle fuzz-naive SEED COUNT           the same messages through `verify` and a second, naive reading
oracle against PROGRAM SEED COUNT      the same messages through a program that prints the listing
oracle time FILE...                    how long the verifier takes
oracle corpus SEED COUNT OUT           OUT.bin and OUT.txt: messages of every verdict, what is expected
oracle check-corpus BIN TXT            verifies a stored corpus anew
oracle hostile DIR                     writes worst-case messages
oracle run-cases SOURCE                the model's table of runs, with what this machine comes to
oracle verdict-cases SOURCE            the model's table of verdicts, with what this verifier answers
oracle bench [OUT]                     times of the proved code and of `verify`, a page of its own (feature `proved`)";

/// What the command answers. Only `verify` has a help of its own; as nothing is done, the status is no verdict's.
fn answer(words: &[String]) -> Answer {
    let Some((command, args)) = words.split_first() else { return Err(USAGE.to_string()) };
    match command.as_str() {
        "verify" => verify::command(args),
        _ if args.iter().any(|arg| arg == "-h" || arg == "--help") => told(&format!("{USAGE}\n")).map(|_| NO_VERDICT),
        "run" => run::command(args),
        #[cfg(feature = "proved")]
        "fuzz" => fuzz::command(args),
        #[cfg(feature = "proved")]
        "bench" => commands::bench::command(args),
        #[cfg(not(feature = "proved"))]
        "fuzz" | "bench" => Err(commands::WITHOUT_PROVED.to_string()),
        "fuzz-naive" => fuzz::naive(args),
        "against" => against::command(args),
        "time" => time::command(args),
        "run-cases" => cases::runs(args),
        "verdict-cases" => cases::verdicts(args),
        "corpus" => corpus::command(args),
        "check-corpus" => corpus::check(args),
        "hostile" => hostile::command(args),
        "explain" => explain::command(args),
        "assemble" => assemble::command(args),
        "disassemble" => disassemble::command(args),
        "-h" | "--help" | "help" => told(&format!("{USAGE}\n")),
        _ => Err(USAGE.to_string()),
    }
}

/// The words that the program is called with. One that is no text is refused: put into text it would name another file.
fn args() -> Result<Vec<String>, String> {
    let words = std::env::args_os().skip(1).map(OsString::into_string);
    words.collect::<Result<_, _>>().map_err(|word| format!("not UTF-8: {word:?}"))
}

fn main() -> ExitCode {
    let status = match std::panic::catch_unwind(|| answer(&args()?)) {
        Ok(Ok(status)) => status,
        Ok(Err(word)) => {
            say(&word);
            NO_VERDICT
        }
        Err(_) => NO_VERDICT,
    };
    ExitCode::from(status)
}
