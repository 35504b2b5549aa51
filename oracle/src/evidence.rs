//! Puts evidence behind a program: tables, then bounds (01: ceilings) or weights.

use crate::analysis::Analysis;
use crate::bads::{self, Bad};
use crate::bounds;
use crate::explore::{self, Failure, Limits, Net};
use crate::limits;
use crate::message::{Columns, Message};
use crate::names;
use crate::program::Program;
use crate::reader;
use crate::refusal::Refusal;
use crate::system::{self, System};
use crate::tables::Tables;
use crate::weights::Line;

fn columns(pairs: &[(usize, usize)]) -> Columns {
    Columns {
        at: 0,
        first: pairs.iter().map(|&(a, _)| a as u16).collect(),
        second: pairs.iter().map(|&(_, b)| b as u16).collect(),
    }
}

/// Sets the offsets of all parts from their lengths.
pub fn lay_out(m: &mut Message) {
    m.rows = m.program.len();
    m.program.at = 4;
    m.bads_at = 4 + 2 * m.program.len();
    m.bad_rows.at = m.bads_at + 2;
    m.tables_at = m.bad_rows.at + 2 * m.bad_rows.len();
    m.tables.at = m.tables_at + 3;
    m.bounds_at = m.tables.at + 2 * m.tables.len() + m.returns.len();
    m.entries.at = m.bounds_at + 2;
    m.weights_at = m.entries.at + 2 * m.entries.len();
    m.weights.at = m.weights_at + 2;
}

/// A message of rows and bad rows, without tables and bounds.
pub fn bare(
    sizes: (usize, usize, usize),
    rows: &[(usize, usize)],
    bads: usize,
    bad_rows: &[(usize, usize)],
) -> Message {
    let mut m = Message { names: sizes.0, constructors: sizes.1, functions: sizes.2, bads, ..Message::default() };
    m.program = columns(rows);
    m.bad_rows = columns(bad_rows);
    lay_out(&mut m);
    m
}

/// The program and bads of a message, if refusals 3 to 6 do not hit it.
pub fn read(m: &Message) -> Result<(Program, Vec<Bad>), Refusal> {
    let program = reader::read(m)?;
    names::check(&program)?;
    let bads = bads::read(m, &program)?;
    Ok((program, bads))
}

/// Puts tables into a message; a word if they exceed the limits.
pub fn put_tables(m: &mut Message, program: &Program, tables: &Tables) -> Result<(), String> {
    let (flow, mail) = (tables.flow_pairs(), tables.mail_pairs(program));
    let sizes = [
        (flow.len(), limits::FLOW, "flow"),
        (mail.len(), limits::MAIL, "mail"),
        (tables.states.len(), limits::STATES, "state"),
    ];
    for (size, (_, most), what) in sizes {
        if size > most as usize {
            return Err(format!("{size} {what} entries would be needed, at most {most} are allowed"));
        }
    }
    (m.flow, m.mail, m.states) = (flow.len(), mail.len(), tables.states.len());
    let states = tables.states.iter().map(|state| (state.class, state.head)).collect();
    m.tables = columns(&[flow, mail, states].concat());
    m.returns = tables.states.iter().map(|state| state.back as u16).collect();
    lay_out(m);
    Ok(())
}

/// The system of a message's tables; a word if it has too many counters.
pub fn derive(m: &Message, program: &Program, tables: &Tables) -> Result<System, String> {
    let refused = |_: Refusal| format!("more than {} counters would be needed", limits::COUNTERS);
    system::derive(m, &Analysis::new(program, tables), limits::COUNTERS).map_err(refused)
}

/// Looks for bounds of a system.
pub fn find_bounds(
    program: &Program,
    tables: &Tables,
    system: &System,
    bads: &[Bad],
    budget: usize,
) -> Result<Vec<Limits>, Failure> {
    let counters: Vec<_> = bads.iter().map(|bad| bounds::bad_sums(tables, system, bad)).collect();
    let start = tables.state(program.opening()).unwrap_or(0);
    explore::bounds(&Net { system, start, bads: &counters }, budget)
}

/// Puts bounds into a message, each closed by the count of all counters.
pub fn put_bounds(m: &mut Message, limits: &[Limits]) {
    let mut entries = Vec::new();
    for bound in limits {
        let held = bound.iter().enumerate().filter(|&(_, &limit)| limit > 0);
        entries.extend(held.map(|(counter, &limit)| (counter, limit as usize)));
        entries.push((bound.len(), 0));
    }
    (m.weighed, m.lines, m.weights) = (false, 0, Columns::default());
    m.bounds = limits.len();
    m.entries = columns(&entries);
    lay_out(m);
}

/// Entries of lines of weights, each closed by the count of all counters.
pub fn weight_entries(lines: &[Line]) -> Vec<(usize, usize)> {
    let mut entries = Vec::new();
    for line in lines {
        let held = line.iter().enumerate().filter(|&(_, &weight)| weight > 0);
        entries.extend(held.map(|(counter, &weight)| (counter, weight as usize)));
        entries.push((line.len(), 0));
    }
    entries
}

/// Puts weights into a message, in place of bounds.
pub fn put_weights(m: &mut Message, lines: &[Line]) {
    (m.bounds, m.entries) = (0, Columns::default());
    (m.weighed, m.lines) = (true, lines.len());
    m.weights = columns(&weight_entries(lines));
    lay_out(m);
}
