//! A stored corpus: messages of every verdict with the words lent, and what is expected of each.
//! README.md, "The corpus", tells the form for a program in another language.

use super::compare::{Cases, Seen, Verifier, see};
use super::damage::Case;
use crate::limits;
use crate::refusal::{VERDICTS, verdict_index};

/// The first bytes of a stored corpus.
const MAGIC: &[u8; 8] = b"ORACLE01";

/// FNV-1a, 64 bits.
pub fn digest(bytes: impl Iterator<Item = u8>) -> u64 {
    bytes.fold(0xcbf2_9ce4_8422_2325, |hash, byte| (hash ^ byte as u64).wrapping_mul(0x0000_0100_0000_01b3))
}

/// The expected line of a case.
pub fn line(case: &Case, seen: &Seen) -> String {
    let lent = digest(seen.lent.iter().flat_map(|word| word.to_le_bytes()));
    let part = digest(case.message[seen.outcome.part.clone()].iter().copied());
    format!("{} {} {lent:016x} {part:016x}\n", seen.outcome.number, seen.outcome.place)
}

pub struct Corpus {
    pub cases: Vec<Case>,
    pub lines: String,
    /// By the list of all verdicts.
    pub verdicts: [usize; VERDICTS.len()],
}

impl Corpus {
    fn keep(&mut self, case: Case, seen: &Seen, verdict: usize) {
        self.verdicts[verdict] += 1;
        self.lines.push_str(&line(&case, seen));
        self.cases.push(case);
    }
}

/// Cases of one verdict that are kept: each refusal as often as the others, a third of all safe.
fn quota(verdict: usize, count: usize) -> usize {
    let others = VERDICTS.len() - 1;
    let refused = (count * 2 / 3 / others).max(1);
    if verdict == 0 { count.saturating_sub(others * refused) } else { refused }
}

/// No bytes; station A with as many words as it needs, with one too few; A and a byte more.
fn fixed() -> Vec<Case> {
    let a = include_bytes!("../../../examples/station-a.msg");
    let case = |message: Vec<u8>, lent: usize| Case { message, lent };
    vec![case(Vec::new(), 0), case(a.to_vec(), 24), case(a.to_vec(), 23), case([&a[..], &[0]].concat(), 24)]
}

/// A program without a heap has room for the longest message and the usual lent words.
fn fits(case: &Case) -> bool {
    case.message.len() <= limits::LONGEST + 1 && case.lent <= limits::LENT
}

/// So many cases, the fixed ones first; a word if some verdict never comes.
pub fn collect(seed: u64, count: usize, verifier: Verifier) -> Result<Corpus, String> {
    let mut source = Cases::new(seed);
    let mut corpus = Corpus { cases: Vec::new(), lines: String::new(), verdicts: [0; VERDICTS.len()] };
    let random = std::iter::repeat_with(|| source.next_case()).take(count.saturating_mul(200));
    for case in fixed().into_iter().chain(random) {
        if corpus.cases.len() >= count {
            break;
        }
        let seen = see(verifier, &case)?;
        let Some(verdict) = verdict_index(seen.outcome.number) else { continue };
        if fits(&case) && corpus.verdicts[verdict] < quota(verdict, count) {
            corpus.keep(case, &seen, verdict);
        }
    }
    match corpus.verdicts.iter().position(|&kept| kept == 0) {
        Some(verdict) => Err(format!("verdict {} did not come", VERDICTS[verdict])),
        None => Ok(corpus),
    }
}

/// The name, the count of cases, and the records one after another.
pub fn stream(cases: &[Case]) -> Vec<u8> {
    let mut bytes = MAGIC.to_vec();
    bytes.extend((cases.len() as u32).to_le_bytes());
    for case in cases {
        bytes.extend((case.lent as u32).to_le_bytes());
        bytes.extend((case.message.len() as u32).to_le_bytes());
        bytes.extend(&case.message);
    }
    bytes
}

/// Reads the records back; none if they are not whole, or something is left.
pub fn read(bytes: &[u8]) -> Option<Vec<Case>> {
    let mut rest = bytes.strip_prefix(MAGIC)?;
    let number = |rest: &mut &[u8]| {
        let (four, left) = rest.split_first_chunk::<4>()?;
        *rest = left;
        Some(u32::from_le_bytes(*four) as usize)
    };
    let count = number(&mut rest)?;
    let mut cases = Vec::new();
    for _ in 0..count {
        let lent = number(&mut rest)?;
        let length = number(&mut rest)?;
        let (message, left) = rest.split_at_checked(length)?;
        cases.push(Case { message: message.to_vec(), lent });
        rest = left;
    }
    rest.is_empty().then_some(cases)
}
