//! Messages at the limits of 01, for benchmarks: honest ones, and ones made to take long.

pub mod bounds;
pub mod finish;
pub mod flow;
pub mod growth;
pub mod held;
pub mod honest;
pub mod letters;
pub mod long;
pub mod places;
pub mod rows;
pub mod sends;
pub mod sums;
pub mod weights;

use crate::message::{self, Message};

/// A message with the verdict it gets if enough words are lent.
pub struct Sample {
    pub name: String,
    pub about: &'static str,
    pub verdict: u32,
    pub message: Vec<u8>,
}

/// Names a message; a word with the name if it could not be made.
fn sample(name: &str, about: &'static str, verdict: u32, message: Result<Vec<u8>, String>) -> Result<Sample, String> {
    let message = message.map_err(|e| format!("{name}: {e}"))?;
    Ok(Sample { name: name.to_string(), about, verdict, message })
}

/// Messages that make each check work hard.
pub fn hostile() -> Result<Vec<Sample>, String> {
    let kinds = [
        rows::hostile()?,
        sums::hostile()?,
        flow::hostile()?,
        held::hostile()?,
        sends::hostile()?,
        letters::hostile()?,
        places::hostile()?,
        long::hostile()?,
        weights::hostile()?,
    ];
    Ok(kinds.into_iter().flatten().collect())
}

/// Rows, flow, mail, states, ceilings and their entries, lines and their weights of a message; zeros if it is not whole.
pub fn sizes(message: &[u8]) -> [usize; 8] {
    let sizes = |m: Message| [m.rows, m.flow, m.mail, m.states, m.bounds, m.entries.len(), m.lines, m.weights.len()];
    message::read(message).map_or([0; 8], sizes)
}
