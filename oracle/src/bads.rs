//! The bads: what must never be met (refusal 6).

use crate::letters::Letter;
use crate::message::Message;
use crate::program::Program;
use crate::refusal::{self, Refusal};

#[derive(Clone, Copy, Debug, PartialEq, Eq)]
pub enum Place {
    Head(usize),
    /// All letters of a constructor, of functions (C) or of addresses (C + 1).
    Kind(usize),
    /// One letter, by the heads of its arguments.
    Letter(Letter),
}

#[derive(Clone, Copy, Debug, PartialEq, Eq)]
pub struct Item {
    pub class: usize,
    pub place: Place,
    pub minimum: u16,
}

#[derive(Clone, Debug, PartialEq, Eq)]
pub struct Bad {
    /// Index of its first row.
    pub first: usize,
    pub items: Vec<Item>,
}

struct Reader<'a> {
    message: &'a Message,
    program: &'a Program,
    at: usize,
}

/// Refusal 6, or the bads in order.
pub fn read(message: &Message, program: &Program) -> Result<Vec<Bad>, Refusal> {
    let mut reader = Reader { message, program, at: 0 };
    let bads = (0..message.bads).map(|_| reader.bad()).collect::<Result<_, _>>()?;
    if reader.at < message.bad_rows.len() {
        return Err(reader.wrong("no row after the last bad"));
    }
    Ok(bads)
}

impl Reader<'_> {
    fn wrong(&self, wanted: &'static str) -> Refusal {
        Refusal::wanted(refusal::BAD, self.message.bad_rows.at + self.at, wanted)
    }

    /// The next row, or the refusal at the word past the tags.
    fn row(&self) -> Result<(usize, usize), Refusal> {
        if self.at < self.message.bad_rows.len() {
            return Ok(self.message.bad_rows.pair(self.at));
        }
        Err(self.wrong("more rows, as bads are still missing"))
    }

    fn bad(&mut self) -> Result<Bad, Refusal> {
        let first = self.at;
        let mut items = Vec::new();
        loop {
            match self.row()? {
                (44, 0) if !items.is_empty() => break,
                (40, class) if self.program.is_class(class) => items.push(self.item(class)?),
                _ if items.is_empty() => return Err(self.wrong("a row (40, class) that begins an item")),
                _ => return Err(self.wrong("a row (40, class) or (44, 0)")),
            }
        }
        self.at += 1;
        Ok(Bad { first, items })
    }

    fn item(&mut self, class: usize) -> Result<Item, Refusal> {
        self.at += 1;
        let place = match self.row()? {
            (41, head) if self.program.is_head(head) => Place::Head(head),
            (42, kind) if kind < self.program.heads() => return self.letter_item(class, kind),
            _ => return Err(self.wrong("a row (41, head) or (42, letter)")),
        };
        self.at += 1;
        self.minimum(class, place)
    }

    /// A row (45, head) for each argument, or none at all.
    fn letter_item(&mut self, class: usize, kind: usize) -> Result<Item, Refusal> {
        self.at += 1;
        let arity = self.program.arity(kind);
        if arity == 0 || self.row()?.0 != 45 {
            return self.minimum(class, Place::Kind(kind));
        }
        let mut heads = Vec::new();
        for _ in 0..arity {
            match self.row()? {
                (45, head) if head < self.program.heads() => heads.push(head),
                _ => return Err(self.wrong("a row (45, head) for each argument")),
            }
            self.at += 1;
        }
        self.minimum(class, Place::Letter(Letter::new(kind, heads)))
    }

    fn minimum(&mut self, class: usize, place: Place) -> Result<Item, Refusal> {
        let minimum = match self.row()? {
            (43, minimum) if minimum >= 1 => minimum as u16,
            _ => return Err(self.wrong("a row (43, minimum from 1)")),
        };
        self.at += 1;
        Ok(Item { class, place, minimum })
    }
}
