//! `oracle corpus SEED COUNT OUT` and `oracle check-corpus OUT`

use super::{Answer, number, told};
use oracle::fuzz::{compare, corpus};
use oracle::refusal::VERDICTS;
use oracle::verify;

pub fn command(args: &[String]) -> Answer {
    let [seed, count, out] = args else { return Err("corpus: SEED, COUNT and OUT are wanted".to_string()) };
    let made = corpus::collect(number(seed)?, number(count)?, &verify::verify)?;
    let io = |e: std::io::Error| format!("{out}: {e}");
    std::fs::write(format!("{out}.bin"), corpus::stream(&made.cases)).map_err(io)?;
    std::fs::write(format!("{out}.txt"), &made.lines).map_err(io)?;
    let verdicts: Vec<String> =
        VERDICTS.iter().zip(made.verdicts).map(|(number, n)| format!("{number}: {n}")).collect();
    told(&format!("{} cases, by verdict {}\n", made.cases.len(), verdicts.join(", ")))
}

/// Verifies every case of a stored corpus anew and compares the lines.
pub fn check(args: &[String]) -> Answer {
    let [records, expected] = args else { return Err("check-corpus: two files are wanted".to_string()) };
    let bytes = std::fs::read(records).map_err(|e| format!("{records}: {e}"))?;
    let lines = super::read_text(expected)?;
    let cases = corpus::read(&bytes).ok_or(format!("{records}: not a whole corpus"))?;
    for (i, (case, line)) in cases.iter().zip(lines.lines()).enumerate() {
        let seen = compare::see(&verify::verify, case)?;
        if corpus::line(case, &seen).trim_end() != line {
            return Err(format!("case {i}: {} where {line} is stored", corpus::line(case, &seen).trim_end()));
        }
    }
    match cases.len() == lines.lines().count() {
        true => told(&format!("{} cases as stored\n", cases.len())),
        false => Err(format!("{} cases but {} lines", cases.len(), lines.lines().count())),
    }
}
