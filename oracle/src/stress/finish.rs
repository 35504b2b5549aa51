//! From rows to a whole message.

use super::bounds::Bounds;
use crate::evidence;
use crate::fuzz::row_list::RowList;
use crate::least;
use crate::message::{self, Message};
use crate::program::Program;
use crate::refusal::Refusal;
use crate::system::System;
use crate::tables::Tables;

/// A bad that no run meets, put there until the counters are known.
const HARMLESS: [(usize, usize); 3] = [(42, 0), (43, 1), (44, 0)];

pub fn refused(r: Refusal) -> String {
    format!("refused {} at {} ({:?})", r.number, r.position, r.detail)
}

pub fn bytes(m: &Message) -> Vec<u8> {
    message::to_bytes(&message::write(m))
}

/// Rows with how many constructors and functions stand in front.
pub struct Rows {
    pub list: RowList,
    pub constructors: usize,
    pub functions: usize,
}

impl Rows {
    /// A message with one bad, no tables and no bounds.
    pub fn bare(&self, bad: &[(usize, usize)]) -> Message {
        evidence::bare((self.list.names, self.constructors, self.functions), &self.list.rows, 1, bad)
    }

    /// A bad that stands for any: the starting process holds a letter 0.
    pub fn any_bad(&self) -> Vec<(usize, usize)> {
        [&[(40, self.list.rows.len())], &HARMLESS[..]].concat()
    }

    /// The message with the least closed tables over the extra entries, with bounds behind them,
    /// and a bad that is never met.
    pub fn finish(&self, extra: impl Fn(&Program, &mut Tables), bounds: impl Bounds) -> Result<Vec<u8>, String> {
        let mut m = self.bare(&self.any_bad());
        let (program, _) = evidence::read(&m).map_err(refused)?;
        let mut tables = Tables::empty(&program);
        extra(&program, &mut tables);
        tables.states.sort_unstable();
        tables.states.dedup();
        let tables = least::close(&program, tables);
        evidence::put_tables(&mut m, &program, &tables)?;
        let system = evidence::derive(&m, &program, &tables)?;
        let item = absent(&program, &tables, &system).ok_or("everything has a counter")?;
        let mut m = self.bare(&[item[0], item[1], (43, 1), (44, 0)]);
        evidence::put_tables(&mut m, &program, &tables)?;
        evidence::put_bounds(&mut m, &bounds(&system));
        Ok(bytes(&m))
    }
}

/// A class and a place without a counter, as rows: a bad there is never met.
fn absent(program: &Program, tables: &Tables, system: &System) -> Option<[(usize, usize); 2]> {
    let heads = (0..program.rows).filter(|&r| program.is_head(r));
    let states =
        heads.flat_map(|h| program.classes().map(move |c| (c, h))).find(|&(c, h)| tables.states_at(c, h).is_empty());
    let letters = (0..program.heads()).flat_map(|l| program.classes().map(move |c| (c, l)));
    let letter = letters.into_iter().find(|&(c, l)| system.letters_of(c, l).is_empty());
    let state = states.map(|(class, head)| [(40, class), (41, head)]);
    state.or(letter.map(|(class, letter)| [(40, class), (42, letter)]))
}

/// A message with a change.
pub fn changed(message: Result<Vec<u8>, String>, change: impl Fn(&mut Message)) -> Result<Vec<u8>, String> {
    let mut m = message::read(&message?).map_err(refused)?;
    change(&mut m);
    Ok(bytes(&m))
}
