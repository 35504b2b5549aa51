//! Messages with their answers, kept outside the repository: `DELUNGKAW_CASES` names the folder that has one folder for
//! each stage of document 02. Where it is not there nothing is tried, and the test says so.

use oracle::listing::{listing, verified};
use oracle::{message, naive, refusal};
use std::path::{Path, PathBuf};

/// The folder of the requests in force, whose answers are given word for word.
const STAGE: &str = "6-vi-iii-iv-viii-x-v";
/// The same without (v): a message that goes on behind two sizes of 0 was refused there.
const BEFORE_V: &str = "5-vi-iii-iv-viii-x";
/// The same without (x) too: a message with a function in its mail gets 22 now.
const BEFORE_X: &str = "4-vi-iii-iv-viii";

fn number(stored: &str) -> u32 {
    stored.split(' ').next().and_then(|number| number.parse().ok()).expect("a number")
}

/// The stored answer as (x) has it: 22 takes the place of safe and of every refusal behind 8 where a mail value is a
/// function, at the first such entry.
fn with_x(bytes: &[u8], stored: String) -> String {
    let Ok(m) = message::read(bytes) else { return stored };
    let is_function = |&i: &usize| m.program.first.get(m.tables.pair(i).1).is_some_and(|tag| [3, 11].contains(tag));
    match (m.flow..m.flow + m.mail).find(is_function) {
        Some(i) if !(1..=refusal::OPEN).contains(&number(&stored)) => {
            format!("{} {}\n", refusal::FUNCTION_MAILED, m.tables.at + i)
        }
        _ => stored,
    }
}

/// True if bytes are left behind ceilings of two sizes 0, which (v) alone reads.
fn goes_on(bytes: &[u8], stored: &str) -> bool {
    let words = message::to_words(bytes);
    let place: usize = stored.trim().split(' ').nth(1).and_then(|place| place.parse().ok()).unwrap_or(0);
    number(stored) == refusal::LENGTH && (2..=words.len()).contains(&place) && words[place - 2..place] == [0, 0]
}

fn messages(folder: &Path) -> Vec<PathBuf> {
    let entries = std::fs::read_dir(folder).into_iter().flatten().filter_map(|file| Some(file.ok()?.path()));
    let mut files: Vec<PathBuf> = entries.filter(|file| file.extension().is_some_and(|e| e == "msg")).collect();
    files.sort();
    files
}

/// Tries a folder's messages on both readings; what a stored answer comes to now is for the caller to say, where
/// anything can be said.
fn try_stage(stage: &str, answer: impl Fn(&[u8], String) -> Option<String>) {
    let Some(cases) = std::env::var_os("DELUNGKAW_CASES") else {
        return println!("skipped: DELUNGKAW_CASES names no folder of cases");
    };
    let folder = Path::new(&cases).join(stage);
    if !folder.is_dir() {
        return println!("skipped: there is no folder {folder:?}");
    }
    let messages = messages(&folder);
    assert!(!messages.is_empty(), "no message in {folder:?}");
    for file in messages {
        let lent = std::fs::read_to_string(file.with_extension("lent"))
            .map_or(16_384, |lent| lent.trim().parse().expect("the words that are lent"));
        let stored = std::fs::read_to_string(file.with_extension("out")).expect("the stored answer");
        let message = std::fs::read(&file).expect("the message");
        let Some(answer) = answer(&message, stored) else { continue };
        assert_eq!(verified(&message, lent), answer, "{file:?}");
        let mut system = vec![0; lent];
        let outcome = naive::verify(&message, &mut system);
        assert_eq!(listing(&outcome, &system), answer, "the second reading of {file:?}");
    }
}

#[test]
fn each_stored_answer_is_given() {
    try_stage(STAGE, |_, stored| Some(stored));
}

#[test]
fn those_before_weights() {
    try_stage(BEFORE_V, |bytes, stored| (!goes_on(bytes, &stored)).then_some(stored));
}

#[test]
fn those_before_functions_by_mail_were_retired() {
    try_stage(BEFORE_X, |bytes, stored| (!goes_on(bytes, &stored)).then(|| with_x(bytes, stored)));
}
