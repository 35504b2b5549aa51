//! The author's words for the numbers of a message, from the text that it was made of.

use super::ast::Station;
use super::lower::{Lowered, lower};
use super::parser::parse;
use crate::evidence;
use crate::message::Message;
use crate::program::{Program, Row};
use crate::stack::with_stack;
use crate::symbols::Symbols;
use std::collections::BTreeMap;

/// Stack for texts nested as deep as the parser allows.
pub const STACK: usize = 64 << 20;

/// The words of a text, and the rows that it comes to.
#[derive(Clone, Debug)]
pub struct Words {
    bare: Message,
    names: Vec<Option<String>>,
    constructors: Vec<String>,
    labels: BTreeMap<Row, String>,
    lines: BTreeMap<Row, usize>,
    bads: Vec<String>,
}

impl Words {
    /// The words of a text, or what is wrong in it.
    pub fn read(text: &str) -> Result<Words, String> {
        with_stack(STACK, || {
            let station = parse(text)?;
            Ok(Words::new(&station, &lower(&station)?))
        })?
    }

    pub fn new(station: &Station, lowered: &Lowered) -> Words {
        Words {
            bare: bare(station, lowered),
            names: lowered.words.clone(),
            constructors: station.constructors.iter().map(|(name, _)| name.clone()).collect(),
            labels: lowered.labels.iter().map(|(label, &row)| (row, label.clone())).collect(),
            lines: lowered.lines.clone(),
            bads: station.bads.iter().map(|bad| bad.name.clone()).collect(),
        }
    }

    /// True if a message has the very program of the text.
    pub fn fit(&self, message: &Message) -> bool {
        let sizes = |m: &Message| (m.names, m.constructors, m.functions);
        sizes(&self.bare) == sizes(message) && self.bare.program == message.program
    }

    /// The words for a message's program, where it is that of the text; the bads' names only where the bads are too.
    pub fn symbols<'a>(&self, program: &'a Program, message: &Message) -> Symbols<'a> {
        let mut symbols = Symbols::new(program);
        if !self.fit(message) {
            return symbols;
        }
        for (name, word) in symbols.names.iter_mut().zip(&self.names) {
            word.iter().for_each(|word| name.clone_from(word));
        }
        symbols.constructors.clone_from(&self.constructors);
        symbols.labels.clone_from(&self.labels);
        symbols.lines.clone_from(&self.lines);
        if (self.bare.bads, &self.bare.bad_rows) == (message.bads, &message.bad_rows) {
            symbols.bads.clone_from(&self.bads);
        }
        symbols
    }
}

/// The message of a text without tables and ceilings.
pub fn bare(station: &Station, lowered: &Lowered) -> Message {
    let sizes = (lowered.names, station.constructors.len(), station.functions.len());
    evidence::bare(sizes, &lowered.rows, station.bads.len(), &lowered.bads)
}
