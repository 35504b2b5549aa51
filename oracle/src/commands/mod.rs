//! The commands of the `oracle` program, one file each.

pub mod against;
pub mod assemble;
#[cfg(feature = "proved")]
pub mod bench;
pub mod cases;
pub mod corpus;
pub mod disassemble;
pub mod explain;
pub mod fuzz;
pub mod hostile;
pub mod output;
pub mod run;
pub mod station;
pub mod time;
pub mod verify;

use std::io::Read;

/// What a command for the proved code says in a build that does not have it.
#[cfg(not(feature = "proved"))]
pub const WITHOUT_PROVED: &str =
    "built without the proved code: run `./staticlib`, then build with `--features proved`";

/// The status that a command ends with, or a word on what went wrong (status 2).
pub type Answer = Result<u8, String>;

/// The statuses: 0 where a message is safe, and where a command that gives no verdict has done its work.
pub const DONE: u8 = 0;
pub const REFUSED: u8 = 1;
pub const NO_VERDICT: u8 = 2;

/// The status of a verdict.
pub fn status(number: u32) -> u8 {
    if number == 0 { DONE } else { REFUSED }
}

/// Prints what a command tells.
pub fn told(text: &str) -> Answer {
    output::print(text.as_bytes()).map(|()| DONE)
}

/// Bytes of a file, or of standard input for `-`; no more than settle a verdict.
pub fn read_bytes(path: &str) -> Result<Vec<u8>, String> {
    let most = oracle::limits::LONGEST as u64 + 1;
    let mut bytes = Vec::new();
    let read = match path {
        "-" => output::input()?.take(most).read_to_end(&mut bytes),
        _ => std::fs::File::open(path).and_then(|file| file.take(most).read_to_end(&mut bytes)),
    };
    read.map(|_| bytes).map_err(|e| e.to_string())
}

/// The same, with the file's name in what went wrong.
pub fn read_message(path: &str) -> Result<Vec<u8>, String> {
    read_bytes(path).map_err(|e| format!("{}: {e}", printable(path)))
}

pub fn read_text(path: &str) -> Result<String, String> {
    let mut text = String::new();
    match path {
        "-" => output::input()?.read_to_string(&mut text).map(|_| text),
        _ => std::fs::read_to_string(path),
    }
    .map_err(|e| format!("{}: {e}", printable(path)))
}

/// A file's name with its control characters shown as ?.
pub fn printable(path: &str) -> String {
    path.chars().map(|c| if c.is_control() { '?' } else { c }).collect()
}

/// A word that names a file. One that begins with - is an option that there is none of; - alone is standard input.
pub fn file(word: &String) -> Result<&String, String> {
    match word.starts_with('-') && word != "-" {
        true => Err(format!("unknown option: {}", printable(word))),
        false => Ok(word),
    }
}

/// How many words `--lend` asks for, if the machine has room for as many. That is tried here, as later it would be no word
/// but the end of the program.
pub fn lent(word: Option<&String>) -> Result<usize, String> {
    let text = word.ok_or("--lend: a number is missing")?;
    let words = number(text)?;
    let mut room = Vec::<u32>::new();
    room.try_reserve_exact(words).map_err(|e| format!("--lend {text}: {e}"))?;
    std::hint::black_box(&room); // else nothing would be tried
    Ok(words)
}

pub fn number<T: std::str::FromStr>(text: &str) -> Result<T, String> {
    text.parse().map_err(|_| format!("{text}: not a number"))
}
