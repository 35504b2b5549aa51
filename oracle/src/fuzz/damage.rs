//! Ways to damage a message.

use super::build::Station;
use super::rng::Rng;
use super::{letters, returns, weights};
use crate::limits::{self, Limit};
use crate::message::{self, Columns, Message};

/// What a verifier is given.
#[derive(Clone, Debug)]
pub struct Case {
    pub message: Vec<u8>,
    pub lent: usize,
}

fn bytes(m: &Message) -> Vec<u8> {
    message::to_bytes(&message::write(m))
}

/// Enough words: just as many as are needed, some more, or many.
fn enough(rng: &mut Rng, station: &Station) -> usize {
    match rng.below(6) {
        0..=1 => station.words,
        2..=3 => station.words + rng.below(9),
        4 => station.words + rng.below(2000),
        _ => station.words.max(16_384),
    }
}

/// Too few words: one less, none, fewer than the four sizes, or any number.
fn too_few(rng: &mut Rng, station: &Station) -> usize {
    let below = station.words.saturating_sub(1);
    match rng.below(5) {
        0..=1 => below,
        2 => 0,
        3 => rng.below(5).min(below),
        _ => rng.range(0, below),
    }
}

/// The message as it is, with enough words.
pub fn whole(rng: &mut Rng, station: &Station) -> Case {
    Case { message: bytes(&station.message), lent: enough(rng, station) }
}

/// The message with some damage, or with too few words, or both.
pub fn damaged(rng: &mut Rng, station: &Station) -> Case {
    let mut m = station.message.clone();
    let times = if rng.chance(1, 8) { 2 } else { 1 };
    for _ in 0..times {
        structured(rng, &mut m, station);
    }
    let few = rng.chance(1, 10);
    let lent = if few { too_few(rng, station) } else { enough(rng, station) };
    let mut case = Case { message: bytes(&m), lent };
    match rng.below(100) {
        0..=6 => words(rng, &mut case.message),
        7..=12 => length(rng, &mut case.message),
        13..=20 => size(rng, &station.message, &mut case.message),
        21..=25 => case = Case { message: bytes(&station.message), lent: too_few(rng, station) },
        26..=29 => {
            case.message = bytes(&station.message);
            words(rng, &mut case.message);
        }
        _ => {}
    }
    case
}

/// A word that is likely to matter.
pub fn odd_word(rng: &mut Rng, near: u16) -> u16 {
    match rng.below(9) {
        0 => 0,
        1 => 65_534,
        2 => 65_535,
        3..=4 => near.wrapping_add(1),
        5..=6 => near.wrapping_sub(1),
        7 => rng.below(64) as u16,
        _ => rng.number() as u16,
    }
}

fn words(rng: &mut Rng, bytes: &mut Vec<u8>) {
    let mut words = message::to_words(bytes);
    for _ in 0..rng.range(1, 3) {
        let (i, j) = (rng.below(words.len()), rng.below(words.len()));
        match rng.below(4) {
            0 => words.swap(i, j),
            1 => words[i] = words[j],
            _ => words[i] = odd_word(rng, words[i]),
        }
    }
    *bytes = message::to_bytes(&words);
}

fn length(rng: &mut Rng, bytes: &mut Vec<u8>) {
    match rng.below(4) {
        0 => bytes.truncate(rng.below(bytes.len())),
        1 => bytes.truncate(bytes.len() - 1 - rng.below(4).min(bytes.len() - 1)),
        2 => bytes.truncate(rng.below(30).min(bytes.len())),
        _ => (0..rng.range(1, 3)).for_each(|_| bytes.push(0)),
    }
}

/// The words of all sizes with their limits.
fn size_words(m: &Message) -> Vec<(usize, Limit)> {
    let (b, t, c, w) = (m.bads_at, m.tables_at, m.bounds_at, m.weights_at);
    let sizes = [
        (0, limits::ROWS),
        (1, limits::NAMES),
        (2, limits::CONSTRUCTORS),
        (3, limits::FUNCTIONS),
        (b, limits::BADS),
        (b + 1, limits::BAD_ROWS),
        (t, limits::FLOW),
        (t + 1, limits::MAIL),
        (t + 2, limits::STATES),
        (c, limits::BOUNDS),
        (c + 1, limits::BOUND_ENTRIES),
        (w, limits::LINES),
        (w + 1, limits::WEIGHT_ENTRIES),
    ];
    sizes[..if m.weighed { 13 } else { 11 }].to_vec()
}

fn size(rng: &mut Rng, original: &Message, bytes: &mut Vec<u8>) {
    let mut words = message::to_words(bytes);
    let sizes = size_words(original);
    let (at, (least, most)) = sizes[rng.below(sizes.len())];
    if let Some(word) = words.get_mut(at) {
        *word = match rng.below(9) {
            0..=2 => most + 1,
            3 => 0,
            4 => odd_word(rng, *word),
            5 => most,
            6 => least.wrapping_sub(1),
            _ => odd_word(rng, most),
        };
    }
    *bytes = message::to_bytes(&words);
}

fn structured(rng: &mut Rng, m: &mut Message, station: &Station) {
    if m.weighed && rng.chance(1, 4) {
        return weights::damaged(rng, m, station.counters);
    }
    match rng.below(46) {
        21..=34 if m.weighed => weights::damaged(rng, m, station.counters),
        44..=45 => weights::other_evidence(rng, m, station.counters),
        32 => soup(rng, m),
        33 => deepen(rng, m),
        0..=1 => row(rng, m),
        2 => row_gone(rng, m),
        3..=5 => binder(rng, m),
        6..=8 => read(rng, m),
        9..=11 => bad(rng, m),
        12..=13 => minimum(rng, m),
        14..=17 => entry_gone(rng, m),
        18..=19 => entry_more(rng, m),
        20 => entry_wrong(rng, m),
        21..=23 => bound_gone(rng, m, station.counters),
        24..=26 => limit(rng, m, station.counters),
        27..=28 => bound_form(rng, m, station.counters),
        29 | 34 => all_limits(rng, m),
        30 => keep_bounds(rng, m, station.counters),
        35..=39 => returns::damaged(rng, m, station.counters),
        40..=43 => letters::damaged(rng, m, station.counters),
        _ => {
            m.entries = Columns::default();
            m.bounds = 0;
        }
    }
}

fn row(rng: &mut Rng, m: &mut Message) {
    const TAGS: [u16; 21] = [1, 2, 3, 4, 5, 6, 7, 8, 9, 10, 11, 20, 21, 22, 23, 24, 25, 30, 31, 32, 33];
    let i = rng.below(m.program.len());
    match rng.below(6) {
        0..=1 => m.program.first[i] = TAGS[rng.below(TAGS.len())],
        2 => row_limit(rng, m),
        _ => m.program.second[i] = odd_word(rng, m.program.second[i]),
    }
}

/// A row with a count or a number that stands at its limit, or just past it.
fn row_limit(rng: &mut Rng, m: &mut Message) {
    let rows = rows_with(m, &[9, 10, 22, 25, 20, 31, 1, 21, 33]);
    let Some(&i) = rng.pick(&rows) else { return };
    let most = match m.program.first[i] {
        9 | 25 => 16,
        10 | 22 => 8,
        20 | 31 => (m.constructors as u16).saturating_sub(1),
        _ => (m.names as u16).saturating_sub(1),
    };
    m.program.second[i] = most + rng.below(2) as u16;
}

/// Some rows at random.
fn soup(rng: &mut Rng, m: &mut Message) {
    const TAGS: [u16; 22] = [1, 1, 2, 3, 4, 5, 6, 7, 8, 9, 10, 11, 20, 21, 21, 22, 23, 25, 30, 31, 32, 33];
    let begin = rng.below(m.program.len());
    for i in begin..(begin + rng.range(1, 12)).min(m.program.len()) {
        m.program.first[i] = TAGS[rng.below(TAGS.len())];
        m.program.second[i] = rng.below(4) as u16;
    }
}

/// A pattern put into constructors of one argument, perhaps too deep.
fn deepen(rng: &mut Rng, m: &mut Message) {
    let rows = rows_with(m, &[30, 31, 32, 33]);
    let of_one: Vec<usize> =
        (0..m.constructors.min(m.program.len())).filter(|&c| m.program.pair(c) == (10, 1)).collect();
    let (Some(&i), Some(&constructor)) = (rng.pick(&rows), rng.pick(&of_one)) else { return };
    for _ in 0..rng.range(1, 4) {
        insert(&mut m.program, i, 31, constructor as u16);
    }
}

pub fn remove(columns: &mut Columns, i: usize) {
    columns.first.remove(i);
    columns.second.remove(i);
}

pub fn insert(columns: &mut Columns, i: usize, first: u16, second: u16) {
    columns.first.insert(i, first);
    columns.second.insert(i, second);
}

fn row_gone(rng: &mut Rng, m: &mut Message) {
    let i = rng.below(m.program.len());
    let (first, second) = (m.program.first[i], m.program.second[i]);
    match rng.below(3) {
        0 if m.program.len() > 1 => remove(&mut m.program, i),
        1 => insert(&mut m.program, i, first, second),
        _ => {
            let end = m.program.len();
            insert(&mut m.program, end, 1, 0);
        }
    }
}

pub fn rows_with(m: &Message, tags: &[u16]) -> Vec<usize> {
    (0..m.program.len()).filter(|&i| tags.contains(&m.program.first[i])).collect()
}

/// A binding row gets the name of another, or a name is left without a binder.
fn binder(rng: &mut Rng, m: &mut Message) {
    let rows = rows_with(m, &[2, 3, 4, 5, 6, 7, 11, 23, 30]);
    let (Some(&i), Some(&j)) = (rng.pick(&rows), rng.pick(&rows)) else { return };
    match rng.below(5) {
        0 => m.names = (m.names + 1).min(512),
        1 => m.program.second.swap(i, j),
        _ => m.program.second[i] = m.program.second[j],
    }
}

/// A reading row reads another name.
fn read(rng: &mut Rng, m: &mut Message) {
    let tags: &[u16] = if rng.chance(1, 3) { &[33] } else { &[1, 8, 21] };
    let rows = rows_with(m, tags);
    if let Some(&i) = rng.pick(&rows) {
        m.program.second[i] = match rng.chance(1, 3) {
            true => nearest_binder(m, i),
            false => rng.below(m.names) as u16,
        };
    }
}

/// The name that a pattern's row binds nearest to this row, before it or behind it.
fn nearest_binder(m: &Message, row: usize) -> u16 {
    let binders = rows_with(m, &[30]);
    binders.iter().min_by_key(|binder| binder.abs_diff(row)).map_or(0, |&binder| m.program.second[binder])
}

fn bad(rng: &mut Rng, m: &mut Message) {
    let i = rng.below(m.bad_rows.len());
    match rng.below(6) {
        0 => m.bad_rows.first[i] = 39 + rng.below(7) as u16,
        1 => m.bad_rows.second[i] = odd_word(rng, m.bad_rows.second[i]),
        2 if m.bad_rows.len() > 4 => remove(&mut m.bad_rows, i),
        3 => insert(&mut m.bad_rows, i, 44, 0),
        4 => m.bads = (m.bads + 1).min(16),
        _ => m.bads = (m.bads - 1).max(1),
    }
}

fn minimum(rng: &mut Rng, m: &mut Message) {
    let rows: Vec<usize> = (0..m.bad_rows.len()).filter(|&i| m.bad_rows.first[i] == 43).collect();
    if rng.chance(1, 2) {
        rows.iter().for_each(|&i| m.bad_rows.second[i] = 1);
    } else if let Some(&i) = rng.pick(&rows) {
        m.bad_rows.second[i] = [1, 2, 65_534, 65_535][rng.below(4)];
    }
}

/// Counts the list of table entry `i` up or down.
fn count(m: &mut Message, i: usize, by: isize) {
    let size = if i < m.flow {
        &mut m.flow
    } else if i < m.flow + m.mail {
        &mut m.mail
    } else {
        &mut m.states
    };
    *size = size.saturating_add_signed(by);
}

fn entry_gone(rng: &mut Rng, m: &mut Message) {
    if m.tables.is_empty() {
        return;
    }
    let i = spot_entry(rng, m).unwrap_or_else(|| rng.below(m.tables.len()));
    if let Some(state) = i.checked_sub(m.flow + m.mail) {
        m.returns.remove(state);
    }
    count(m, i, -1);
    remove(&mut m.tables, i);
}

/// Every other time a flow entry of a pattern's name, if there is one.
fn spot_entry(rng: &mut Rng, m: &Message) -> Option<usize> {
    let names: Vec<u16> = rows_with(m, &[30]).into_iter().map(|i| m.program.second[i]).collect();
    let entries: Vec<usize> = (0..m.flow.min(m.tables.len())).filter(|&i| names.contains(&m.tables.first[i])).collect();
    if rng.chance(1, 2) { rng.pick(&entries).copied() } else { None }
}

/// A legal entry more in its order, without what it wants.
fn entry_more(rng: &mut Rng, m: &mut Message) {
    let with_start = |mut rows: Vec<usize>| {
        rows.push(m.program.len());
        rows
    };
    let values = with_start(rows_with(m, &[2, 3, 6, 11]));
    let classes = with_start(rows_with(m, &[6]));
    let heads = rows_with(m, &[1, 2, 3, 4, 5, 6, 7, 8, 9]);
    let names: Vec<usize> = (0..m.names).collect();
    let list = rng.below(4);
    let (firsts, seconds, begin, length) = match list {
        0 => (&names, &values, 0, m.flow),
        1 => (&classes, &values, m.flow, m.mail),
        _ => (&classes, &heads, m.flow + m.mail, m.states),
    };
    let (Some(&first), Some(&second)) = (rng.pick(firsts), rng.pick(seconds)) else { return };
    if begin + length > m.tables.len() {
        return;
    }
    let calls = with_start(rows_with(m, &[4]));
    let back = rng.pick(&calls).copied().unwrap_or(0);
    let entry = |i: usize| {
        let (first, second) = m.tables.pair(i);
        (first, second, if list < 2 { back } else { m.returns[i - begin] as usize })
    };
    let before = (begin..begin + length).filter(|&i| entry(i) < (first, second, back)).count();
    let at = begin + before;
    match list {
        0 => m.flow += 1,
        1 => m.mail += 1,
        _ => {
            m.states += 1;
            m.returns.insert(before, back as u16);
        }
    }
    insert(&mut m.tables, at, first as u16, second as u16);
}

fn entry_wrong(rng: &mut Rng, m: &mut Message) {
    if m.tables.len() < 2 {
        return;
    }
    let i = rng.below(m.tables.len() - 1);
    match rng.below(5) {
        0 => {
            m.tables.first.swap(i, i + 1);
            m.tables.second.swap(i, i + 1);
        }
        1 => {
            m.tables.first[i + 1] = m.tables.first[i];
            m.tables.second[i + 1] = m.tables.second[i];
        }
        2 => m.tables.first[i] = odd_word(rng, m.tables.first[i]),
        _ => m.tables.second[i] = odd_word(rng, m.tables.second[i]),
    }
}

/// Ranges of the bounds' entries.
fn bounds(m: &Message, counters: usize) -> Vec<std::ops::Range<usize>> {
    let mut ranges = Vec::new();
    let mut begin = 0;
    for i in 0..m.entries.len() {
        if m.entries.pair(i) == (counters, 0) {
            ranges.push(begin..i + 1);
            begin = i + 1;
        }
    }
    ranges
}

fn drop_bound(m: &mut Message, range: std::ops::Range<usize>) {
    m.entries.first.drain(range.clone());
    m.entries.second.drain(range);
    m.bounds = m.bounds.saturating_sub(1);
}

pub fn bound_gone(rng: &mut Rng, m: &mut Message, counters: usize) {
    let ranges = bounds(m, counters);
    let i = if rng.chance(1, 3) { 0 } else { rng.below(ranges.len()) };
    if let Some(range) = ranges.get(i) {
        drop_bound(m, range.clone());
    }
}

/// Only a few bounds stay.
pub fn keep_bounds(rng: &mut Rng, m: &mut Message, counters: usize) {
    let mut ranges = bounds(m, counters);
    while ranges.len() > 1 && !rng.chance(1, 4) {
        let i = rng.below(ranges.len());
        drop_bound(m, ranges[i].clone());
        ranges = bounds(m, counters);
    }
}

fn limit(rng: &mut Rng, m: &mut Message, counters: usize) {
    let entries: Vec<usize> = (0..m.entries.len()).filter(|&i| m.entries.pair(i).0 < counters).collect();
    let Some(&i) = rng.pick(&entries) else { return };
    let limit = m.entries.second[i];
    m.entries.second[i] = match rng.below(6) {
        0 => 65_534,
        1 => 65_535,
        2 => limit.wrapping_add(1),
        3..=4 if limit > 1 => limit - 1,
        _ => {
            remove(&mut m.entries, i);
            return;
        }
    };
}

/// Every limit, or every unbounded one, becomes 65,534 or unbounded; perhaps every item of a bad
/// asks for as many at one state.
fn all_limits(rng: &mut Rng, m: &mut Message) {
    const NEAR: [u16; 2] = [65_534, 65_535];
    let (minimum, limit) = (NEAR[rng.below(2)], NEAR[rng.below(2)]);
    if rng.chance(2, 3) {
        ask_at_a_state(rng, m, minimum);
    }
    let least = [1, 65_535][rng.below(2)];
    m.entries.second.iter_mut().filter(|old| **old >= least).for_each(|old| *old = limit);
}

/// Every item of the bads: at least so many at one and the same state.
fn ask_at_a_state(rng: &mut Rng, m: &mut Message, minimum: u16) {
    let states: Vec<usize> = (m.flow + m.mail..m.tables.len()).collect();
    let Some(&state) = rng.pick(&states) else { return };
    ask_at(m, (m.tables.first[state], m.tables.second[state]), minimum);
}

/// Every item of the bads: at least so many of the class at the head.
pub fn ask_at(m: &mut Message, (class, head): (u16, u16), minimum: u16) {
    (0..m.bad_rows.len()).rev().for_each(|i| {
        if m.bad_rows.first[i] == 45 {
            remove(&mut m.bad_rows, i);
        }
    });
    for (tag, number) in m.bad_rows.first.iter_mut().zip(&mut m.bad_rows.second) {
        (*tag, *number) = match *tag {
            40 => (40, class),
            41 | 42 => (41, head),
            43 => (43, minimum),
            _ => (*tag, *number),
        };
    }
}

pub fn bound_form(rng: &mut Rng, m: &mut Message, counters: usize) {
    if m.entries.is_empty() {
        return;
    }
    let i = rng.below(m.entries.len());
    match rng.below(8) {
        0 => m.entries.first[i] = odd_word(rng, m.entries.first[i]),
        1 => m.entries.second[i] = odd_word(rng, m.entries.second[i]),
        2 => remove(&mut m.entries, i),
        3 => insert(&mut m.entries, i, counters as u16, 0),
        4 => m.bounds = (m.bounds + 1).min(256),
        5 => m.bounds = m.bounds.saturating_sub(1),
        6 => m.entries.first.swap(i, 0),
        _ => {
            let (first, second) = (m.entries.first[i], m.entries.second[i]);
            insert(&mut m.entries, i, first, second);
        }
    }
}
