//! `oracle assemble [--budget N] FILE [OUT]`

use super::output::{print, say};
use super::{Answer, DONE, REFUSED, file, number, read_text};
use oracle::text::assemble::{BUDGET, assemble_within};

/// Writes the message to OUT, or to standard output; words for the author go to standard error.
pub fn command(args: &[String]) -> Answer {
    let (budget, files) = match args {
        [option, budget, files @ ..] if option == "--budget" => (number(budget)?, files),
        _ => (BUDGET, args),
    };
    let (input, out) = match files {
        [input] => (file(input)?, None),
        [input, out] => (file(input)?, Some(file(out)?)),
        _ => return Err("oracle assemble [--budget N] FILE [OUT]".to_string()),
    };
    let assembled = assemble_within(&read_text(input)?, budget).map_err(|e| format!("{input}: {e}"))?;
    match out {
        Some(out) => std::fs::write(out, &assembled.message).map_err(|e| format!("{out}: {e}")),
        None => print(&assembled.message),
    }?;
    assembled.notes.iter().for_each(|note| say(&format!("{input}: {note}")));
    Ok(if assembled.safe { DONE } else { REFUSED })
}
