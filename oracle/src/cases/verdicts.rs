//! The table of verdicts: number, place and, where safe, every word written.

use super::antt::{self, INDENT};
use super::parts::Parts;
use super::source::{Case, Section, sections};
use crate::message::to_bytes;
use crate::verify::verify;

/// The front of the table.
const FRONT: &str = include_str!("verdicts_front.txt");
/// Words lent beyond those needed where it is safe.
const BEYOND: usize = 2;
/// Words lent where the verdict alone is told (the front says so too).
const LENT: usize = 100;

/// The message of a case, as bytes and in the model's language.
struct Given {
    message: Vec<u8>,
    text: String,
}

fn numbers(text: &str) -> Result<Vec<usize>, String> {
    let number = |word: &str| word.parse().map_err(|_| format!("{word}: not a number"));
    text.split_whitespace().map(number).collect()
}

/// `words 1 2 3`: these words behind the section's; `byte 7`: one byte behind them; `8=12 17=1`: the section's words with others at these places; nothing: as they are.
fn given(section: &Section, parts: &Parts, case: &Case) -> Result<Given, String> {
    let mut words = parts.words();
    let name = format!("{}_words", section.name);
    if let Some(more) = case.given.strip_prefix("words") {
        let more = numbers(more)?;
        words.extend(more.iter().map(|&w| w as u16));
        let list = antt::list(&more);
        let text =
            if parts.is_empty() { format!("(to_bytes {list})") } else { format!("(to_bytes ({name} ++ {list}))") };
        return Ok(Given { message: to_bytes(&words), text });
    }
    if let Some(byte) = case.given.strip_prefix("byte") {
        let byte = numbers(byte)?;
        let mut message = to_bytes(&words);
        message.extend(byte.iter().map(|&byte| byte as u8));
        return Ok(Given { message, text: format!("(to_bytes {name} ++ {})", antt::list(&byte)) });
    }
    let pair = |edit: &str| {
        let (at, word) = edit.split_once('=').ok_or(format!("{edit}: neither `words` nor `PLACE=WORD`"))?;
        Ok((numbers(at)?[0], numbers(word)?[0]))
    };
    let edits: Vec<(usize, usize)> = case.given.split_whitespace().map(pair).collect::<Result<_, String>>()?;
    for &(at, word) in &edits {
        *words.get_mut(at).ok_or(format!("{}: no word {at}", section.name))? = word as u16;
    }
    let text = match edits.len() {
        0 => format!("(to_bytes {name})"),
        _ => format!("(to_bytes (changed {name} {}))", antt::pairs(&edits)),
    };
    Ok(Given { message: to_bytes(&words), text })
}

/// The number that a sentence begins with, worked out by hand: `16: a weight is at least 1.`
fn told_number(sentence: &str) -> Option<u32> {
    sentence.split_once(':').and_then(|(number, _)| number.parse().ok())
}

/// The two tables: verdicts alone, and whole answers of safe messages.
#[derive(Default)]
struct Tables {
    verdicts: String,
    listed: String,
}

impl Tables {
    /// A safe message goes with its listing where it is the section's own, and by its verdict alone where it is a changed one.
    fn take(&mut self, section: &Section, parts: &Parts, case: &Case) -> Result<Option<Vec<u32>>, String> {
        let Given { message, text } = given(section, parts, case)?;
        let mut lent = vec![0; 16_384];
        let outcome = verify(&message, &mut lent);
        let (sentence, name) = (antt::comment(&case.sentence, INDENT), &section.name);
        if told_number(&case.sentence).is_some_and(|number| number != outcome.number) {
            return Err(format!("{name} {}: {} at {}: {}", case.given, outcome.number, outcome.place, case.sentence));
        }
        if outcome.number == 0 && case.given.is_empty() {
            lent.truncate(4 + 2 * lent[3] as usize);
            self.listed
                .push_str(&format!("{sentence}\n{INDENT}safe {BEYOND} {name}_program {text} {name}_listing ∷\n"));
            return Ok(Some(lent));
        }
        let (number, place) = (outcome.number, outcome.place);
        if number == 0 && 4 + 2 * lent[3] as usize > LENT {
            return Err(format!("{name} {}: its system has more than {LENT} words", case.given));
        }
        let line = antt::line(&format!("at {number} {place} {text} ∷"));
        self.verdicts.push_str(&format!("{sentence}\n{line}\n"));
        Ok(None)
    }
}

/// Sizes, tags, numbers, each in lines of its own.
fn listing_definition(name: &str, words: &[u32]) -> String {
    let rows = words[3] as usize;
    let body = [&words[..4], &words[4..4 + rows], &words[4 + rows..]].map(antt::list).join(" ++\n");
    let lines: Vec<String> = body.lines().map(str::to_string).collect();
    antt::definition("", name, "List ℕ", &lines)
}

/// Both tables, from their source.
pub fn table(source: &str) -> Result<String, String> {
    let mut names = Vec::new();
    let (mut messages, mut tables) = (String::new(), Tables::default());
    for section in sections(source, "case")? {
        let parts = Parts::of(&section)?;
        if !parts.is_empty() {
            messages.push_str(&parts.definitions(&section));
            names.extend(["program", "words"].map(|part| format!("{}_{part}", section.name)));
        }
        for case in &section.cases {
            if let Some(listing) = tables.take(&section, &parts, case)? {
                let name = format!("{}_listing", section.name);
                messages.push_str(&listing_definition(&name, &listing));
                names.push(name);
            }
        }
    }
    let whole = |name: &str, kind: &str, cases: &str| {
        format!("unfoldable pub {name} : List {kind}\n{name} =\n{cases}{INDENT}[]\n\n")
    };
    let verdicts = whole("verdict_cases", "VerdictCase", &tables.verdicts);
    let listed = whole("listing_cases", "Case", &tables.listed);
    names.extend(["verdict_cases", "listing_cases"].map(str::to_string));
    Ok(format!("{FRONT}{messages}{verdicts}{listed}{}", antt::opens("verdict_cases_opens", &names)))
}
