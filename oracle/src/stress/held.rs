//! Messages that make held names (tag 33, request (iii)) work: many rows of them, over many values.

use super::bounds;
use super::finish::Rows;
use super::sends::{builds, classes_of};
use super::{Sample, sample};
use crate::fuzz::row_list::RowList;
use crate::program::Program;
use crate::tables::Tables;

pub fn hostile() -> Result<Vec<Sample>, String> {
    Ok(vec![
        sample(
            "held-tree",
            "832 held names, four and three deep, of a name with 244 values of nine constructors",
            0,
            tree(),
        )?,
        sample("held-addresses", "36 receives of 16 held names each, over a mailbox of 121 addresses", 0, addresses())?,
    ])
}

/// The rows of a pattern with eight arguments at each level, held names at the deepest.
fn held_pattern(list: &mut RowList, levels: usize, name: usize) {
    match levels {
        1 => list.row(33, name),
        _ => {
            list.row(31, 0);
            (0..8).for_each(|_| held_pattern(list, levels - 1, name));
        }
    }
}

/// One pattern of 512 held names four deep and five of 64 three deep, each of a name with all values that are built.
fn tree() -> Result<Vec<u8>, String> {
    let mut list = RowList::default();
    list.row(10, 8);
    list.rows.extend(vec![(10, 0); 8]);
    let work = list.bind(11, &[(22, 0)]);
    list.row(1, work);
    let small: Vec<usize> = (0..240).map(|i| list.bind(2, &[(20, 1 + i % 8)])).collect();
    let parts: Vec<(usize, usize)> = std::iter::once((20, 0)).chain(small[..8].iter().map(|&arg| (21, arg))).collect();
    let big: Vec<usize> = (0..4).map(|_| list.bind(2, &parts)).collect();
    list.rows.extend([(8, big[0]), (25, 6)]);
    for levels in [4, 3, 3, 3, 3, 3] {
        held_pattern(&mut list, levels, small[9]);
        list.row(1, work);
    }
    let extra = move |program: &Program, tables: &mut Tables| {
        for name in big.iter().chain(&small[..10]) {
            builds(program).for_each(|b| {
                tables.flow[*name].insert(b);
            });
        }
    };
    Rows { list, constructors: 9, functions: 1 }.finish(extra, bounds::one)
}

/// Receives of 16 held names each, one in the last branch of the one before. The name holds the start's own address,
/// which is the last of all that the start's mailbox may have.
fn addresses() -> Result<Vec<u8>, String> {
    let mut list = RowList::default();
    let work = list.bind(11, &[(22, 0)]);
    list.row(1, work);
    (0..120).for_each(|_| {
        list.bind(6, &[(21, work)]);
    });
    let own = list.bind(7, &[]);
    for _ in 0..36 {
        list.row(9, 16);
        (0..15).for_each(|_| list.rows.extend([(33, own), (1, work)]));
        list.row(33, own);
    }
    list.row(1, work);
    let extra = |program: &Program, tables: &mut Tables| {
        if let Some(mail) = tables.mail.last_mut() {
            *mail = classes_of(program);
            mail.insert(program.rows);
        }
    };
    Rows { list, constructors: 0, functions: 1 }.finish(extra, bounds::one)
}
