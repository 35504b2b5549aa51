//! Text to tokens. `%` begins a comment.

#[derive(Clone, Debug, PartialEq, Eq)]
pub enum Token {
    /// Begins with a small letter: a constructor, function, label or word of the syntax.
    Word(String),
    /// Begins with a capital letter or `_`: a name.
    Name(String),
    Number(usize),
    Sign(&'static str),
}

#[derive(Clone, Debug, PartialEq, Eq)]
pub struct Placed {
    pub token: Token,
    pub line: usize,
}

const SIGNS: [&str; 16] = ["->", ">=", ">", "(", ")", ",", ";", ".", ":", "=", "!", "@", "/", "{", "}", "^"];

/// All tokens, or a word on the first sign that can't be read.
pub fn tokens(text: &str) -> Result<Vec<Placed>, String> {
    let mut found = Vec::new();
    for (i, line) in text.lines().enumerate() {
        let code = line.split('%').next().unwrap_or("");
        line_tokens(code, i + 1, &mut found)?;
    }
    Ok(found)
}

fn line_tokens(mut code: &str, line: usize, found: &mut Vec<Placed>) -> Result<(), String> {
    loop {
        code = code.trim_start();
        if code.is_empty() {
            return Ok(());
        }
        let (token, length) = next(code).ok_or_else(|| format!("line {line}: can't read `{code}`"))?;
        found.push(Placed { token, line });
        code = &code[length..];
    }
}

fn next(code: &str) -> Option<(Token, usize)> {
    let first = code.chars().next()?;
    if first.is_ascii_digit() {
        let length = code.find(|c: char| !c.is_ascii_digit()).unwrap_or(code.len());
        return Some((Token::Number(code[..length].parse().ok()?), length));
    }
    if first.is_ascii_alphabetic() || first == '_' {
        let length = code.find(|c: char| !c.is_ascii_alphanumeric() && c != '_').unwrap_or(code.len());
        let word = code[..length].to_string();
        let token = if first.is_ascii_lowercase() { Token::Word(word) } else { Token::Name(word) };
        return Some((token, length));
    }
    let sign = SIGNS.into_iter().find(|sign| code.starts_with(sign))?;
    Some((Token::Sign(sign), sign.len()))
}
