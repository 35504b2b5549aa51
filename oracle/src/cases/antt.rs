//! Text in the language of the model.

use std::fmt::Display;

/// No line is wider, in characters.
const WIDTH: usize = 118;
/// What stands before each line of a definition's right side.
pub const INDENT: &str = "    ";

/// The words of a text, at its spaces. Those inside quotes, behind a comma and before a ∷ part nothing.
fn words(text: &str) -> Vec<String> {
    let (mut words, mut quoted) = (vec![String::new()], false);
    let mut chars = text.chars().peekable();
    while let Some(c) = chars.next() {
        let word = words.last_mut().expect("a word was begun");
        quoted ^= c == '"';
        match c {
            ' ' if !quoted && !word.ends_with(',') && chars.peek() != Some(&'∷') => words.push(String::new()),
            _ => word.push(c),
        }
    }
    words.into_iter().filter(|word| !word.is_empty()).collect()
}

/// A text in lines, each behind this beginning.
fn folded(text: &str, begin: &str) -> String {
    let mut lines: Vec<String> = Vec::new();
    for word in words(text) {
        match lines.last_mut() {
            Some(line) if line.chars().count() + 1 + word.chars().count() <= WIDTH => {
                line.push(' ');
                line.push_str(&word);
            }
            _ => lines.push(format!("{begin}{word}")),
        }
    }
    lines.join("\n")
}

/// A line of a definition's right side, on as many as it needs.
pub fn line(text: &str) -> String {
    folded(text, INDENT)
}

/// A comment of one or more lines.
pub fn comment(text: &str, indent: &str) -> String {
    folded(text, &format!("{indent}-- "))
}

/// `(a ∷ b ∷ [])`
pub fn list<T: Display>(elements: impl IntoIterator<Item = T>) -> String {
    let elements: String = elements.into_iter().map(|element| format!("{element} ∷ ")).collect();
    if elements.is_empty() { "[]".to_string() } else { format!("({elements}[])") }
}

/// A list of pairs.
pub fn pairs(pairs: &[(usize, usize)]) -> String {
    list(pairs.iter().map(|(a, b)| format!("({a}, {b})")))
}

/// A definition that computes, with the comment in front of it; the lines of its right side.
pub fn definition(comment: &str, name: &str, kind: &str, lines: &[String]) -> String {
    let gap = if comment.is_empty() { "" } else { "\n" };
    let body: Vec<String> = lines.iter().map(|text| line(text)).collect();
    format!("{comment}{gap}unfoldable pub {name} : {kind}\n{name} =\n{}\n\n", body.join("\n"))
}

/// One name that opens all these definitions, for theorems closed by computation.
pub fn opens(name: &str, definitions: &[String]) -> String {
    let comment = comment("the definitions above opened at once, for the theorems that compute the table", "");
    let opened = folded(&format!("unfolding {}", definitions.join(" ")), INDENT);
    format!("{comment}\nunfoldable pub {name} : Unit {{0}}\n{}\n{name} = tt\n", opened.trim_start())
}
