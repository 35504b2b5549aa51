//! Lengths and sizes, bads, entries and ceilings, word by word (refusals 1, 2, 6, 7, 10).

use super::Refused;
use crate::message::Message;
use crate::program::Program;

/// Least and most of each size of a part, which sizes count the entries of its columns, and which counts a third array.
type PartSizes = (&'static [(usize, usize)], &'static [usize], Option<usize>);

/// Refusals 1 and 2.
pub fn lengths(bytes: &[u8]) -> Result<(), Refused> {
    let word = |at: usize| Some(u16::from_le_bytes([*bytes.get(2 * at)?, *bytes.get(2 * at + 1)?]) as usize);
    let parts: [PartSizes; 5] = [
        (&[(1, 1536), (1, 512), (0, 64), (0, 64)], &[0], None),
        (&[(1, 16), (4, 256)], &[1], None),
        (&[(0, 4096), (0, 512), (0, 1024)], &[0, 1, 2], Some(2)),
        (&[(0, 256), (0, 8192)], &[1], None),
        (&[(1, 16), (0, 8192)], &[1], None),
    ];
    let mut begin = 0;
    let mut before = Vec::new();
    for (i, (limits, counted, third)) in parts.into_iter().enumerate() {
        if i == 4 && (before != [0, 0] || bytes.len() == 2 * begin) {
            break;
        }
        let mut sizes = Vec::new();
        for i in 0..limits.len() {
            sizes.push(word(begin + i).ok_or((1, begin))?);
        }
        for (i, (size, (least, most))) in sizes.iter().zip(limits).enumerate() {
            if size < least || size > most {
                return Err((2, begin + i));
            }
        }
        let end =
            begin + limits.len() + 2 * counted.iter().map(|&i| sizes[i]).sum::<usize>() + third.map_or(0, |i| sizes[i]);
        if bytes.len() / 2 < end {
            return Err((1, begin));
        }
        begin = end;
        before = sizes;
    }
    if bytes.len() == 2 * begin { Ok(()) } else { Err((1, begin)) }
}

fn is_class(m: &Message, number: usize) -> bool {
    number == m.rows || (number < m.rows && m.program.first[number] == 6)
}

fn is_head(m: &Message, number: usize) -> bool {
    number < m.rows && (1..=9).contains(&m.program.first[number])
}

fn is_value(m: &Message, number: usize) -> bool {
    number == m.rows || (number < m.rows && [2, 3, 6, 11].contains(&m.program.first[number]))
}

/// Refusal 6: `step` is 0 where an item or the end may come. `heads` is how many rows with tag 45 may come: none, all
/// of them, or those that are left.
pub fn bads(m: &Message) -> Result<(), Refused> {
    let (mut whole, mut items, mut step) = (0, 0, 0);
    let mut heads: Vec<usize> = Vec::new();
    for i in 0..m.bad_rows.len() {
        let (tag, number) = m.bad_rows.pair(i);
        let right = whole < m.bads
            && match (step, tag) {
                (0, 40) => is_class(m, number),
                (0, 44) => items > 0 && number == 0,
                (1, 41) => is_head(m, number),
                (1, 42) => number <= m.constructors + 1,
                (2, 45) => heads.iter().any(|&left| left > 0) && number <= m.constructors + 1,
                (2, 43) => number >= 1 && heads.contains(&0),
                _ => false,
            };
        if !right {
            return Err((6, m.bads_at + 2 + i));
        }
        match tag {
            44 => (whole, items) = (whole + 1, 0),
            45 => heads = heads.iter().filter(|&&left| left > 0).map(|left| left - 1).collect(),
            _ => {
                step = (step + 1) % 3;
                items += (step == 0) as usize;
            }
        }
        match tag {
            41 => heads = vec![0],
            42 if number < m.constructors => heads = vec![0, m.program.second[number] as usize],
            42 => heads = vec![0],
            _ => {}
        }
    }
    if whole == m.bads { Ok(()) } else { Err((6, m.bads_at + 2 + m.bad_rows.len())) }
}

/// Refusal 7.
pub fn entries(m: &Message) -> Result<(), Refused> {
    for i in 0..m.tables.len() {
        let (first, second) = m.tables.pair(i);
        let list = (i >= m.flow) as usize + (i >= m.flow + m.mail) as usize;
        let right = match list {
            0 => first < m.names && is_value(m, second),
            1 => is_class(m, first) && is_value(m, second),
            _ => is_class(m, first) && is_head(m, second) && is_return(m, third(m, i)),
        };
        let begins = [0, m.flow, m.flow + m.mail][list] == i;
        let rises = begins || (m.tables.pair(i - 1), third(m, i - 1)) < ((first, second), third(m, i));
        if !right || !rises {
            return Err((7, m.tables_at + 3 + i));
        }
    }
    Ok(())
}

/// Refusal 22.
pub fn no_function_mailed(m: &Message) -> Result<(), Refused> {
    for i in m.flow..m.flow + m.mail {
        let value = m.tables.second[i] as usize;
        if value < m.rows && [3, 11].contains(&m.program.first[value]) {
            return Err((22, m.tables_at + 3 + i));
        }
    }
    Ok(())
}

/// The third number of an entry: that of a state, 0 in the other lists.
fn third(m: &Message, i: usize) -> usize {
    i.checked_sub(m.flow + m.mail).map_or(0, |state| m.returns[state] as usize)
}

fn is_return(m: &Message, number: usize) -> bool {
    number == m.rows || (number < m.rows && m.program.first[number] == 4)
}

/// Refusal 10.
pub fn ceilings(m: &Message, counters: usize) -> Result<(), Refused> {
    let (mut whole, mut before) = (0, None);
    for i in 0..m.entries.len() {
        let (counter, limit) = m.entries.pair(i);
        let closes = counter == counters && limit == 0;
        let holds = counter < counters && limit > 0 && before.is_none_or(|b| b < counter);
        if whole == m.bounds || !(closes || holds) {
            return Err((10, m.bounds_at + 2 + i));
        }
        (whole, before) = if closes { (whole + 1, None) } else { (whole, Some(counter)) };
    }
    if whole == m.bounds { Ok(()) } else { Err((10, m.bounds_at + 2 + m.entries.len())) }
}

/// What the tags say of a program agrees with what its reader says.
pub fn same_kinds(m: &Message, program: &Program) -> bool {
    (0..=m.rows + 1).all(|i| {
        is_class(m, i) == program.is_class(i)
            && is_value(m, i) == program.is_value(i)
            && is_head(m, i) == program.is_head(i)
    })
}
