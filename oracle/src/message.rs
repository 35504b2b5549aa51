//! The parts of a message: sizes and two parallel columns each (refusals 1 and 2). There are four, or five where weights
//! stand in place of the ceilings.

use crate::limits::{self, Limit, Limits};
use crate::refusal::{self, Refusal};

/// Two parallel columns of one part, with the word where the first begins.
#[derive(Clone, Debug, Default, PartialEq, Eq)]
pub struct Columns {
    pub at: usize,
    pub first: Vec<u16>,
    pub second: Vec<u16>,
}

impl Columns {
    pub fn len(&self) -> usize {
        self.first.len()
    }

    pub fn is_empty(&self) -> bool {
        self.first.is_empty()
    }

    /// Entry `i` as numbers.
    pub fn pair(&self, i: usize) -> (usize, usize) {
        (self.first[i] as usize, self.second[i] as usize)
    }
}

/// A message whose lengths and sizes hold.
#[derive(Clone, Debug, Default, PartialEq, Eq)]
pub struct Message {
    pub rows: usize,
    pub names: usize,
    pub constructors: usize,
    pub functions: usize,
    pub program: Columns,
    pub bads_at: usize,
    pub bads: usize,
    pub bad_rows: Columns,
    pub tables_at: usize,
    pub flow: usize,
    pub mail: usize,
    pub states: usize,
    pub tables: Columns,
    /// For each state the call that it returns to, or R: the third array of the tables part.
    pub returns: Vec<u16>,
    pub bounds_at: usize,
    pub bounds: usize,
    pub entries: Columns,
    /// True if a fifth part follows: weights in place of ceilings.
    pub weighed: bool,
    pub weights_at: usize,
    pub lines: usize,
    pub weights: Columns,
}

impl Message {
    /// Bytes of the program part, its four sizes included.
    pub fn program_bytes(&self) -> usize {
        2 * (4 + 2 * self.rows)
    }
}

fn word(bytes: &[u8], at: usize) -> u16 {
    u16::from_le_bytes([bytes[2 * at], bytes[2 * at + 1]])
}

/// Reads one part: sizes whole, sizes within limits, columns whole.
struct PartReader<'a> {
    bytes: &'a [u8],
    words: usize,
    at: usize,
}

impl PartReader<'_> {
    /// A part whose two columns have this length, with so many words behind them.
    fn part(
        &mut self,
        limits: &[Limit],
        length: fn(&[usize]) -> usize,
        behind: fn(&[usize]) -> usize,
    ) -> Result<(Vec<usize>, Columns), Refusal> {
        let begin = self.at;
        if self.words < begin + limits.len() {
            return Err(Refusal::wanted(refusal::LENGTH, begin, "the part's sizes"));
        }
        let sizes = self.sizes(limits)?;
        let entries = length(&sizes);
        let at = begin + limits.len();
        let end = at + 2 * entries + behind(&sizes);
        if self.words < end {
            return Err(Refusal::wanted(refusal::LENGTH, begin, "the part's columns"));
        }
        self.at = end;
        Ok((sizes, self.columns(at, entries)))
    }

    fn sizes(&self, limits: &[Limit]) -> Result<Vec<usize>, Refusal> {
        let mut sizes = Vec::with_capacity(limits.len());
        for (i, &(least, most)) in limits.iter().enumerate() {
            let size = word(self.bytes, self.at + i);
            if size < least || size > most {
                return Err(Refusal::wanted(refusal::SIZE, self.at + i, "a size within its limits"));
            }
            sizes.push(size as usize);
        }
        Ok(sizes)
    }

    fn columns(&self, at: usize, entries: usize) -> Columns {
        let column = |from: usize| (from..from + entries).map(|i| word(self.bytes, i)).collect();
        Columns { at, first: column(at), second: column(at + entries) }
    }
}

/// Refusals 1 and 2, part by part.
pub fn read(bytes: &[u8]) -> Result<Message, Refusal> {
    read_within(bytes, &limits::PRESENT)
}

/// The same under these limits.
pub fn read_within(bytes: &[u8], within: &Limits) -> Result<Message, Refusal> {
    use limits::*;
    let mut reader = PartReader { bytes, words: bytes.len() / 2, at: 0 };
    let mut m = Message::default();
    let (sizes, columns) = reader.part(&[within.rows, NAMES, CONSTRUCTORS, FUNCTIONS], |s| s[0], |_| 0)?;
    (m.rows, m.names, m.constructors, m.functions) = (sizes[0], sizes[1], sizes[2], sizes[3]);
    m.program = columns;
    m.bads_at = reader.at;
    let (sizes, columns) = reader.part(&[BADS, BAD_ROWS], |s| s[1], |_| 0)?;
    m.bads = sizes[0];
    m.bad_rows = columns;
    m.tables_at = reader.at;
    let (sizes, columns) = reader.part(&[FLOW, MAIL, within.states], |s| s[0] + s[1] + s[2], |s| s[2])?;
    (m.flow, m.mail, m.states) = (sizes[0], sizes[1], sizes[2]);
    m.tables = columns;
    m.bounds_at = reader.at;
    m.returns = (m.bounds_at - m.states..m.bounds_at).map(|i| word(bytes, i)).collect();
    let (sizes, columns) = reader.part(&[BOUNDS, BOUND_ENTRIES], |s| s[1], |_| 0)?;
    m.bounds = sizes[0];
    m.entries = columns;
    m.weights_at = reader.at;
    m.weighed = m.bounds == 0 && m.entries.is_empty() && bytes.len() > 2 * reader.at;
    if m.weighed {
        let (sizes, columns) = reader.part(&[LINES, WEIGHT_ENTRIES], |s| s[1], |_| 0)?;
        m.lines = sizes[0];
        m.weights = columns;
    }
    if bytes.len() != 2 * reader.at {
        return Err(Refusal::wanted(refusal::LENGTH, reader.at, "the end of the message"));
    }
    Ok(m)
}

fn push_part(words: &mut Vec<u16>, sizes: &[usize], columns: &Columns) {
    words.extend(sizes.iter().map(|&s| s as u16));
    words.extend(&columns.first);
    words.extend(&columns.second);
}

/// Bytes of words, each little-endian.
pub fn to_bytes(words: &[u16]) -> Vec<u8> {
    words.iter().flat_map(|w| w.to_le_bytes()).collect()
}

/// Words of bytes; an odd last byte makes no word.
pub fn to_words(bytes: &[u8]) -> Vec<u16> {
    bytes.chunks_exact(2).map(|b| u16::from_le_bytes([b[0], b[1]])).collect()
}

/// The message as words again. The counts that the columns carry (rows, bad rows, bound entries) win.
pub fn write(m: &Message) -> Vec<u16> {
    let mut words = Vec::new();
    push_part(&mut words, &[m.program.len(), m.names, m.constructors, m.functions], &m.program);
    push_part(&mut words, &[m.bads, m.bad_rows.len()], &m.bad_rows);
    push_part(&mut words, &[m.flow, m.mail, m.states], &m.tables);
    words.extend(&m.returns);
    push_part(&mut words, &[m.bounds, m.entries.len()], &m.entries);
    if m.weighed {
        push_part(&mut words, &[m.lines, m.weights.len()], &m.weights);
    }
    words
}
