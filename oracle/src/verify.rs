//! The verifier: every check of 01 and 02 in its order.

use crate::analysis::Analysis;
use crate::bads::{self, Bad};
use crate::bounds::{self, Bounds};
use crate::leak;
use crate::limits::{self, Limits};
use crate::message::{self, Message};
use crate::names;
use crate::program::Program;
use crate::reader;
use crate::refusal::Refusal;
use crate::system::{self, System};
use crate::tables::{self, Tables};
use crate::weights::{self, Weights};
use std::ops::Range;

/// Number, place and the range of the message's bytes handed to the loader.
#[derive(Clone, Debug, PartialEq, Eq)]
pub struct Outcome {
    pub number: u32,
    pub place: usize,
    pub part: Range<usize>,
}

/// What was read of a message, as far as the checks went.
#[derive(Clone, Debug, Default)]
pub struct Read {
    pub message: Option<Message>,
    pub program: Option<Program>,
    pub bads: Option<Vec<Bad>>,
    pub tables: Option<Tables>,
    pub system: Option<System>,
    pub bounds: Option<Bounds>,
    pub weights: Option<Weights>,
}

/// Every check but 14, keeping what was read.
pub fn inspect(bytes: &[u8], read: &mut Read) -> Result<(), Refusal> {
    inspect_within(bytes, read, &limits::PRESENT)
}

fn inspect_within(bytes: &[u8], read: &mut Read, within: &Limits) -> Result<(), Refusal> {
    let message = &*read.message.insert(message::read_within(bytes, within)?);
    let program = &*read.program.insert(reader::read(message)?);
    names::check(program)?;
    let bads = &*read.bads.insert(bads::read(message, program)?);
    let tables = &*read.tables.insert(tables::read(message, program)?);
    let analysis = Analysis::new(program, tables);
    crate::closed::check(message, &analysis)?;
    tables::check_mail(message, program)?;
    let system = &*read.system.insert(system::derive(message, &analysis, within.counters)?);
    let start = tables.state(program.opening()).unwrap_or(0);
    let sums: Vec<_> = bads.iter().map(|bad| bounds::bad_sums(tables, system, bad)).collect();
    if message.weighed {
        let weights = &*read.weights.insert(weights::read(message, system.counters())?);
        weights::check_rises(message, system, weights)?;
        return weights::check_light(message, weights, start, bads, &sums);
    }
    let bounds = &*read.bounds.insert(bounds::read(message, system.counters())?);
    bounds::check_start(message, bounds, start)?;
    bounds::check_bads(message, bounds, bads, &sums)?;
    leak::check(message, system, bounds)
}

fn inspect_and_write(
    bytes: &[u8],
    read: &mut Read,
    lent: &mut [u32],
    within: &Limits,
) -> Result<Range<usize>, Refusal> {
    inspect_within(bytes, read, within)?;
    if let Some(system) = &read.system {
        system.write(lent)?;
    }
    Ok(0..read.message.as_ref().map_or(0, Message::program_bytes))
}

/// Verdict of a message. Only on 0 are lent words written, and only as many as are needed.
pub fn verify(message: &[u8], system: &mut [u32]) -> Outcome {
    verify_within(message, system, &limits::PRESENT)
}

/// The same under these limits.
pub fn verify_within(message: &[u8], system: &mut [u32], within: &Limits) -> Outcome {
    match inspect_and_write(message, &mut Read::default(), system, within) {
        Ok(part) => Outcome { number: 0, place: 0, part },
        Err(refusal) => Outcome { number: refusal.number, place: refusal.position, part: 0..0 },
    }
}

/// As `verify`, with all that was read and the refusal's detail.
pub fn verify_in_detail(message: &[u8], system: &mut [u32]) -> (Read, Result<Range<usize>, Refusal>) {
    let mut read = Read::default();
    let result = inspect_and_write(message, &mut read, system, &limits::PRESENT);
    (read, result)
}
