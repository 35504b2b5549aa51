//! The text that a message was made of, for its names.

use super::read_text;
use oracle::message;
use oracle::text::words::Words;
use oracle::wrap::wrapped;
use std::path::Path;

/// The words of a station's text if it is that of a message, and a line for the user on them.
pub struct Names {
    pub words: Option<Words>,
    pub note: String,
}

/// The words of the named text, or of the text beside the message, with the same stem.
pub fn names(named: Option<&String>, file: &str, message: &[u8]) -> Result<Names, String> {
    let beside = Path::new(file).with_extension("station").to_string_lossy().into_owned();
    let path = match named {
        Some(path) => path,
        None if file != "-" && beside != file && Path::new(&beside).is_file() => &beside,
        None => return Ok(Names { words: None, note: String::new() }),
    };
    let unusable = |why: &str| Names { words: None, note: wrapped("names:  ", &format!("numbers only: {why}")) };
    let words = read_text(path).and_then(|text| Words::read(&text).map_err(|e| format!("{path}: {e}")));
    match (words, message::read(message)) {
        (Err(why), _) if named.is_some() => Err(why),
        (Err(why), _) => Ok(unusable(&why)),
        (Ok(words), Ok(m)) if !words.fit(&m) => Ok(unusable(&format!("{path} is the text of another program"))),
        (Ok(words), _) => Ok(Names { words: Some(words), note: String::new() }),
    }
}
