//! A second reading of every check, as the sentences of 01 stand: sets of pairs, everything
//! enumerated, nothing clever. The form of rows is checked on its own; only then is the reader of
//! the fast verifier used to have a program to look into. If that one refuses what was found
//! right here, the verdict is `DISPUTED`, which no other verifier gives.

pub mod closed;
pub mod leak;
pub mod parts;
pub mod rows;
pub mod rules;
pub mod weights;

use crate::bads::{self, Bad};
use crate::bounds::{self, Bounds};
use crate::message::{self, Message};
use crate::program::Program;
use crate::reader;
use crate::verify::Outcome;
use closed::Pairs;
use rules::Plain;

/// A refusal's number and position.
type Refused = (u32, usize);

/// The two readings of words do not agree.
pub const DISPUTED: u32 = 99;

/// The same verdicts as `verify::verify`, slowly.
pub fn verify(bytes: &[u8], lent: &mut [u32]) -> Outcome {
    match check(bytes, lent) {
        Ok(part) => Outcome { number: 0, place: 0, part: 0..part },
        Err((number, place)) => Outcome { number, place, part: 0..0 },
    }
}

fn check(bytes: &[u8], lent: &mut [u32]) -> Result<usize, Refused> {
    const NO: Refused = (DISPUTED, 0);
    parts::lengths(bytes)?;
    let m = message::read(bytes).map_err(|_| NO)?;
    rows::check(&m)?;
    let program = reader::read(&m).map_err(|_| NO)?;
    if !parts::same_kinds(&m, &program) {
        return Err(NO);
    }
    parts::bads(&m)?;
    let bads = bads::read(&m, &program).map_err(|_| NO)?;
    parts::entries(&m)?;
    let pairs = Pairs::new(&m);
    closed::check(&m, &program, &pairs)?;
    parts::no_function_mailed(&m)?;
    let system = Plain::new(&program, &pairs);
    if system.counters.len() > 1024 {
        return Err((9, m.tables_at + 2));
    }
    if m.weighed {
        weights::check(&m, &program, &system, &bads)?;
    } else {
        parts::ceilings(&m, system.counters.len())?;
        let limits = bounds::read(&m, system.counters.len()).map_err(|_| NO)?;
        start_and_bads(&m, &program, &system, &bads, &limits)?;
        leak::check(&m, &system, &limits)?;
    }
    write(&system, lent)?;
    Ok(m.program_bytes())
}

/// Refusals 11 and 12.
fn start_and_bads(
    m: &Message,
    program: &Program,
    system: &Plain,
    bads: &[Bad],
    bounds: &Bounds,
) -> Result<(), Refused> {
    let start: Vec<u64> =
        system.counters.iter().map(|c| (*c == rules::Counter::State(program.opening())) as u64).collect();
    let under =
        |limits: &Vec<u16>| start.iter().zip(limits).all(|(&count, &limit)| limit == 65_535 || count <= limit as u64);
    if !bounds.limits.iter().any(under) {
        return Err((11, m.bounds_at));
    }
    for bad in bads {
        let met = |limits: &Vec<u16>| {
            bad.items.iter().all(|item| system.limit_of(program, item, limits).is_none_or(|l| l >= item.minimum as u64))
        };
        if bounds.limits.iter().any(met) {
            return Err((12, m.bads_at + 2 + bad.first));
        }
    }
    Ok(())
}

fn write(system: &Plain, lent: &mut [u32]) -> Result<(), Refused> {
    let rows: Vec<(u32, u32)> = system.rules.iter().flat_map(rules::rows).collect();
    let states = system.counters.iter().filter(|c| matches!(c, rules::Counter::State(..))).count();
    let mut words =
        vec![states as u32, (system.counters.len() - states) as u32, system.rules.len() as u32, rows.len() as u32];
    words.extend(rows.iter().map(|row| row.0));
    words.extend(rows.iter().map(|row| row.1));
    if words.len() > lent.len() {
        return Err((14, words.len()));
    }
    lent[..words.len()].copy_from_slice(&words);
    Ok(())
}
