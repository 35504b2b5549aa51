//! The text that a table is made of: sections, each a station (or the parts of a message) with the cases on it.

/// A section begins with `== NAME`. Its lines up to the first case are the station; a case is a line `WORD ...: SENTENCE` with one of the
/// table's words, and the lines below it that are set in belong to its sentence.
pub struct Section {
    /// NAME as a word of the model's language, where dashes are underscores.
    pub name: String,
    pub station: Vec<String>,
    pub cases: Vec<Case>,
}

pub struct Case {
    /// What stands before the colon, without the word.
    pub given: String,
    /// What the case tells apart.
    pub sentence: String,
}

impl Section {
    /// A station's text, not the parts of a message row by row.
    pub fn is_text(&self) -> bool {
        self.station.iter().any(|line| line.starts_with("start"))
    }

    /// A comment of the model's language: the section's sentences, and a station's text set in.
    pub fn comment(&self) -> String {
        let line = |line: &String| match line.strip_prefix("% ") {
            Some(sentence) => Some(format!("-- {sentence}")),
            None if line.is_empty() || !self.is_text() => None,
            None => Some(format!("--     {line}")),
        };
        self.station.iter().filter_map(line).collect::<Vec<_>>().join("\n")
    }

    fn take(&mut self, line: &str, word: &str) -> Result<(), String> {
        match line.strip_prefix(word) {
            Some(rest) => {
                let (given, sentence) = rest.split_once(':').ok_or(format!("{line}: a colon is missing"))?;
                self.cases.push(Case { given: given.trim().to_string(), sentence: sentence.trim().to_string() });
            }
            None if self.cases.is_empty() => self.station.push(line.to_string()),
            None if line.trim().is_empty() => {}
            None => return Err(format!("{line}: neither `{word}` nor `==`")),
        }
        Ok(())
    }
}

/// The sections of a source whose cases begin with this word.
pub fn sections(text: &str, word: &str) -> Result<Vec<Section>, String> {
    let mut sections: Vec<Section> = Vec::new();
    for line in text.lines() {
        match (line.strip_prefix("== "), sections.last_mut()) {
            (Some(name), _) => {
                sections.push(Section { name: name.trim().replace('-', "_"), station: Vec::new(), cases: Vec::new() })
            }
            (None, Some(section)) => section.take(line, word)?,
            (None, None) => {}
        }
    }
    Ok(sections)
}
