//! `oracle verify [--lend N] [--quiet] [--] [FILE...]`

use super::output::{print, say};
use super::{Answer, NO_VERDICT, file, lent, printable, read_bytes, status};
use oracle::explain::trade_word;
use oracle::refusal::SPACE;
use oracle::verify::{Outcome, verify};
use oracle::{limits, listing};

const HELP: &str = "oracle verify [--lend N] [--quiet] [--] [FILE...]
The verdict on the message in FILE; without a FILE, or where it is -, on standard input. For one file: number and place,
and if it is safe the system too, as document 01 prints it. For several files a line each: number, place and file.
  --lend N     lends N words for the system (16384)
  -q, --quiet  prints nothing: the status is the answer
Status: 0 each message is safe; 1 one is refused; 2 for one there is no verdict. Of several files the worst counts.
";

struct Options {
    lent: usize,
    quiet: bool,
    files: Vec<String>,
}

/// What the words ask for; none if they ask for help.
fn options(args: &[String]) -> Result<Option<Options>, String> {
    let mut options = Options { lent: limits::LENT, quiet: false, files: Vec::new() };
    let mut args = args.iter();
    while let Some(arg) = args.next() {
        match arg.as_str() {
            "--lend" => options.lent = lent(args.next())?,
            "-q" | "--quiet" => options.quiet = true,
            "-h" | "--help" => return Ok(None),
            "--" => options.files.extend(args.by_ref().cloned()),
            _ => options.files.push(file(arg)?.clone()),
        }
    }
    if options.files.is_empty() {
        options.files.push("-".to_string());
    }
    Ok(Some(options))
}

impl Options {
    /// The verdict on one file, printed; or a word on why there is none.
    fn printed(&self, file: &str) -> Result<Outcome, String> {
        let mut system = vec![0; self.lent];
        let outcome = verify(&read_bytes(file)?, &mut system);
        let text = match self.files.len() {
            1 => listing::listing(&outcome, &system),
            _ => format!("{} {} {}\n", outcome.number, outcome.place, printable(file)),
        };
        match self.quiet {
            true => Ok(outcome),
            false => print(text.as_bytes()).map(|()| outcome),
        }
    }

    /// The verdict on one file, printed and told in words; gives its status.
    fn told(&self, file: &str) -> u8 {
        let printed = self.printed(file);
        let words = printed.as_ref().map_or_else(|reason| format!("no verdict: {reason}"), words);
        match (self.quiet, self.files.len()) {
            (true, _) => {}
            (_, 1) => say(&words),
            _ => say(&format!("{}: {words}", printable(file))),
        }
        printed.map_or(NO_VERDICT, |outcome| status(outcome.number))
    }
}

/// A verdict in words.
fn words(outcome: &Outcome) -> String {
    let Outcome { number, place, .. } = outcome;
    match *number {
        0 => "safe".to_string(),
        SPACE => format!("refused: {number} {}, {place} words needed", trade_word(*number)),
        _ => format!("refused: {number} {}, word {place}", trade_word(*number)),
    }
}

pub fn command(args: &[String]) -> Answer {
    let Some(options) = options(args)? else {
        print(HELP.as_bytes())?;
        return Ok(NO_VERDICT);
    };
    Ok(options.files.iter().map(|file| options.told(file)).max().unwrap_or(NO_VERDICT))
}
