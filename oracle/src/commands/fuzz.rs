//! `oracle fuzz SEED COUNT` and `oracle fuzz-naive SEED COUNT`

use super::{Answer, number, told};
use oracle::fuzz::compare::{self, Tally, Verifier};
use oracle::refusal::VERDICTS;
use oracle::{naive, verify};

/// Where the message of a difference is kept.
const KEPT: &str = "difference.msg";
/// A run of so many messages fails if a verdict is missing, or if less than a third is safe.
const MANY: usize = 20_000;

/// The proved code beside `verify`.
#[cfg(feature = "proved")]
pub fn command(args: &[String]) -> Answer {
    oracle::stack::with_stack(oracle::proved::STACK, || fuzz(args, &oracle::proved::verify, &verify::verify))?
}

/// The second reading beside `verify`.
pub fn naive(args: &[String]) -> Answer {
    fuzz(args, &naive::verify, &verify::verify)
}

fn fuzz(args: &[String], first: Verifier, second: Verifier) -> Answer {
    let [seed, count] = args else { return Err("fuzz: SEED and COUNT are wanted".to_string()) };
    match compare::fuzz(number(seed)?, number(count)?, first, second) {
        Ok(tally) => complete(&tally),
        Err((case, word)) => {
            std::fs::write(KEPT, &case.message).map_err(|e| e.to_string())?;
            Err(format!("{word}\nthe message is kept: oracle explain --lend {} {KEPT}", case.lent))
        }
    }
}

fn complete(tally: &Tally) -> Answer {
    let missing = tally.verdicts.iter().position(|&seen| seen == 0);
    match missing {
        _ if tally.total() < MANY => told(&tally.words()),
        Some(verdict) => Err(format!("{}verdict {} did not come", tally.words(), VERDICTS[verdict])),
        None if 3 * tally.verdicts[0] < tally.total() => Err(format!("{}less than a third is safe", tally.words())),
        None => told(&tally.words()),
    }
}
