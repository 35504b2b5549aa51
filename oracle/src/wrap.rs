//! Lines for a person: under 100 characters.

/// Most characters of a line.
pub const WIDTH: usize = 99;

/// Words behind a label, wrapped; lines after the first are as far in as the label is wide.
pub fn wrapped(label: &str, words: &str) -> String {
    let indent = " ".repeat(label.chars().count());
    if indent.len() > WIDTH / 2 {
        return wrapped("", &format!("{label}{words}"));
    }
    let room = WIDTH - indent.len();
    let mut lines = vec![String::new()];
    for word in words.split(' ').flat_map(|word| pieces(word, room)) {
        match lines.last_mut() {
            Some(line) if line.is_empty() => line.push_str(&word),
            Some(line) if line.chars().count() + 1 + word.chars().count() <= room => {
                line.push(' ');
                line.push_str(&word);
            }
            _ => lines.push(word),
        }
    }
    let lines = lines.iter().enumerate();
    lines.map(|(i, line)| format!("{}{line}\n", if i == 0 { label } else { &indent })).collect()
}

/// A word in pieces that fit a line.
fn pieces(word: &str, room: usize) -> Vec<String> {
    let letters: Vec<char> = word.chars().collect();
    letters.chunks(room).map(|piece| piece.iter().collect()).collect()
}

#[cfg(test)]
mod tests {
    use super::*;

    #[test]
    fn lines_are_short_and_nothing_is_lost() {
        let words = (0..60).map(|i| "w".repeat(1 + i % 17)).collect::<Vec<_>>().join(" ") + &"x".repeat(500);
        let text = wrapped("label:  ", &words);
        assert!(text.lines().all(|line| line.chars().count() <= WIDTH), "{text}");
        assert!(text.lines().skip(1).all(|line| line.starts_with("        ")), "{text}");
        let without = |text: &str| text.replace([' ', '\n'], "");
        assert_eq!(without(&text), without(&format!("label:{words}")));
        let long = wrapped(&"l".repeat(70), &words);
        assert!(long.lines().all(|line| line.chars().count() <= WIDTH), "{long}");
    }
}
