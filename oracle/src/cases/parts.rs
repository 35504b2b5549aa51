//! The parts of a message, as a section of the table's source gives them: a station's text, or the parts row by row.

use super::antt;
use super::source::Section;
use crate::message::{self, Message, to_bytes};
use crate::text::assemble::assemble;
use crate::verify::verify;

type Pairs = Vec<(usize, usize)>;

/// The lists of the tables, the states' third numbers by themselves.
#[derive(Default)]
struct Lists {
    flow: Pairs,
    mail: Pairs,
    states: Pairs,
    returns: Vec<usize>,
}

/// The parts that are there; a section may end with any of them, or have none.
#[derive(Default)]
pub struct Parts {
    /// Names, constructors, functions and the rows.
    program: Option<([usize; 3], Pairs)>,
    bads: Option<(usize, Pairs)>,
    tables: Option<Lists>,
    bounds: Option<(usize, Pairs)>,
    weights: Option<(usize, Pairs)>,
}

/// The numbers of `(10, 0) (7,0)`, so many in each pair of brackets.
fn numbers(text: &str, each: usize) -> Result<Vec<usize>, String> {
    let numbers: Result<Vec<usize>, _> =
        text.split(['(', ')', ',', ' ']).filter(|word| !word.is_empty()).map(|word| word.parse::<usize>()).collect();
    let numbers = numbers.ok().filter(|numbers| numbers.len().is_multiple_of(each));
    numbers.ok_or_else(|| format!("{text}: not numbers, {each} at a time"))
}

fn pairs(text: &str) -> Result<Pairs, String> {
    Ok(numbers(text, 2)?.chunks(2).map(|pair| (pair[0], pair[1])).collect())
}

impl Parts {
    /// Of a station's text, or of lines `rows V C G: ...`, `bads B: ...`, `flow: ...`, `mail: ...`, `states: ...` (of
    /// three numbers each), `ceilings K: ...`, `weights W: ...`.
    pub fn of(section: &Section) -> Result<Parts, String> {
        let told = |e: String| format!("{}: {e}", section.name);
        if section.is_text() {
            let assembled = assemble(&format!("evidence ceilings.\n{}", section.station.join("\n"))).map_err(told)?;
            let refused = |_| told("the assembled message is not whole".to_string());
            return Ok(Parts::of_message(&message::read(&assembled.message).map_err(refused)?).with_one_ceiling());
        }
        let mut parts = Parts::default();
        for line in section.station.iter().filter(|line| !line.starts_with('%') && !line.is_empty()) {
            parts.take(line).map_err(told)?;
        }
        Ok(parts)
    }

    fn of_message(m: &Message) -> Parts {
        let column =
            |c: &message::Columns, from: usize, n: usize| (from..from + n).map(|i| c.pair(i)).collect::<Pairs>();
        Parts {
            program: Some(([m.names, m.constructors, m.functions], column(&m.program, 0, m.program.len()))),
            bads: Some((m.bads, column(&m.bad_rows, 0, m.bad_rows.len()))),
            tables: Some(Lists {
                flow: column(&m.tables, 0, m.flow),
                mail: column(&m.tables, m.flow, m.mail),
                states: column(&m.tables, m.flow + m.mail, m.states),
                returns: m.returns.iter().map(|&back| back as usize).collect(),
            }),
            bounds: Some((m.bounds, column(&m.entries, 0, m.entries.len()))),
            weights: None,
        }
    }

    /// With one ceiling that leaves every counter unbounded, where that allows no bad: the model computes a short
    /// message sooner.
    fn with_one_ceiling(mut self) -> Parts {
        let mut lent = vec![0; 16_384];
        verify(&to_bytes(&self.words()), &mut lent);
        let counters = (lent[0] + lent[1]) as usize;
        let mut entries: Pairs = (0..counters).map(|counter| (counter, 65_535)).collect();
        entries.push((counters, 0));
        let found = self.bounds.replace((1, entries));
        if verify(&to_bytes(&self.words()), &mut lent).number != 0 {
            self.bounds = found;
        }
        self
    }

    fn take(&mut self, line: &str) -> Result<(), String> {
        let (word, rest) = line.split_once(':').ok_or(format!("{line}: a colon is missing"))?;
        let words: Vec<&str> = word.split_whitespace().collect();
        let size = |i: usize| -> Result<usize, String> {
            words.get(i).and_then(|w| w.parse().ok()).ok_or(format!("{line}: a size is missing"))
        };
        match words[0] {
            "rows" => self.program = Some(([size(1)?, size(2)?, size(3)?], pairs(rest)?)),
            "bads" => self.bads = Some((size(1)?, pairs(rest)?)),
            "flow" => self.tables.get_or_insert_default().flow = pairs(rest)?,
            "mail" => self.tables.get_or_insert_default().mail = pairs(rest)?,
            "states" => {
                let (numbers, tables) = (numbers(rest, 3)?, self.tables.get_or_insert_default());
                tables.states = numbers.chunks(3).map(|state| (state[0], state[1])).collect();
                tables.returns = numbers.chunks(3).map(|state| state[2]).collect();
            }
            "ceilings" => self.bounds = Some((size(1)?, pairs(rest)?)),
            "weights" => self.weights = Some((size(1)?, pairs(rest)?)),
            _ => return Err(format!("{line}: no part of a message")),
        }
        Ok(())
    }

    pub fn is_empty(&self) -> bool {
        self.program.is_none()
    }

    /// The words of the parts that are there.
    pub fn words(&self) -> Vec<u16> {
        fn put(words: &mut Vec<usize>, sizes: &[usize], pairs: &[(usize, usize)]) {
            words.extend(sizes);
            words.extend(pairs.iter().map(|pair| pair.0));
            words.extend(pairs.iter().map(|pair| pair.1));
        }
        let mut words = Vec::new();
        if let Some(([names, constructors, functions], rows)) = &self.program {
            put(&mut words, &[rows.len(), *names, *constructors, *functions], rows);
        }
        if let Some((bads, rows)) = &self.bads {
            put(&mut words, &[*bads, rows.len()], rows);
        }
        if let Some(Lists { flow, mail, states, returns }) = &self.tables {
            put(&mut words, &[flow.len(), mail.len(), states.len()], &[flow.as_slice(), mail, states].concat());
            words.extend(returns);
        }
        if let Some((bounds, entries)) = &self.bounds {
            put(&mut words, &[*bounds, entries.len()], entries);
        }
        if let Some((lines, entries)) = &self.weights {
            put(&mut words, &[*lines, entries.len()], entries);
        }
        words.iter().map(|&word| word as u16).collect()
    }

    /// The program part and all words in the model's language, below the section's text.
    pub fn definitions(&self, section: &Section) -> String {
        let Some(([names, constructors, functions], rows)) = &self.program else { return String::new() };
        let mut words = vec![vec![format!("{}_program", section.name)]];
        words.extend(self.bads.iter().map(|(bads, rows)| vec![format!("bad_words {bads}"), antt::pairs(rows)]));
        let tables = |t: &Lists| {
            let triples =
                t.states.iter().zip(&t.returns).map(|((class, head), back)| format!("({class}, {head}, {back})"));
            vec!["table_words".to_string(), antt::pairs(&t.flow), antt::pairs(&t.mail), antt::list(triples)]
        };
        words.extend(self.tables.iter().map(tables));
        words.extend(
            self.bounds.iter().map(|(bounds, entries)| vec![format!("ceiling_words {bounds}"), antt::pairs(entries)]),
        );
        words.extend(
            self.weights.iter().map(|(lines, entries)| vec![format!("weight_words {lines}"), antt::pairs(entries)]),
        );
        let last = words.len() - 1;
        for part in &mut words[..last] {
            part.last_mut().expect("no part is empty").push_str(" ++");
        }
        let program = [format!("program_words {names} {constructors} {functions}"), antt::pairs(rows)];
        antt::definition(&section.comment(), &format!("{}_program", section.name), "List ℕ", &program)
            + &antt::definition("", &format!("{}_words", section.name), "List ℕ", &words.concat())
    }
}
