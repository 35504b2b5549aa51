//! Weights for random stations ((v) of 02), stations at the limits of weights, and damage to weights.

use super::build::{self, Items, Station};
use super::damage::{bound_form, bound_gone, insert, keep_bounds, remove};
use super::rng::Rng;
use crate::bads::Place;
use crate::bounds::Sums;
use crate::evidence;
use crate::explore::Net;
use crate::least;
use crate::limits;
use crate::lines;
use crate::message::{self, Columns, Message};
use crate::program::Program;
use crate::reader;
use crate::system::System;
use crate::tables::Tables;
use crate::verify::{Read, inspect};
use crate::weights::{Line, change, least_weight, settles};
use std::ops::Range;

const HEAVIEST: u16 = limits::WEIGHT.1;
const MOST_LINES: usize = limits::LINES.1 as usize;
const MOST_ENTRIES: usize = limits::WEIGHT_ENTRIES.1 as usize;
const MOST_MINIMUM: usize = u16::MAX as usize;

/// An item of a bad: class, place and minimum.
type Item = (usize, Place, usize);

/// A class and place with several counters.
type Group = ((usize, Place), Range<usize>);

/// What lines are made for.
pub struct Ground<'a> {
    pub program: &'a Program,
    pub tables: &'a Tables,
    pub system: &'a System,
    pub start: usize,
}

impl Ground<'_> {
    fn sums(&self, bad: &[Item]) -> Sums {
        let sum = |&(class, place, minimum): &Item| build::sum(self.tables, self.system, class, place, minimum);
        bad.iter().map(sum).collect()
    }

    /// Rows that the bads take.
    fn rows(&self, bads: &Items) -> usize {
        let item = |item: &Item| 2 + build::place_rows(self.program, item.1).len();
        bads.iter().map(|bad| 1 + bad.iter().map(item).sum::<usize>()).sum()
    }

    /// Places with several counters: those with several returns, and constructors with several letters.
    fn groups(&self) -> Vec<Group> {
        let places = self.tables.states.iter().map(|state| (state.class, Place::Head(state.head)));
        let letters = self.system.letters.iter().map(|&(class, letter)| (class, Place::Kind(letter.kind)));
        let mut items: Vec<(usize, Place)> = places.chain(letters).collect();
        items.dedup();
        let several = |&(class, place): &(usize, Place)| {
            let sum = build::sum(self.tables, self.system, class, place, 1)?;
            (sum.counters.len() > 1).then_some(((class, place), sum.counters))
        };
        items.iter().filter_map(several).collect()
    }

    /// The weight of the item's lightest counter in a line; 0 where it has none.
    fn lightest(&self, line: &Line, &(class, place, _): &Item) -> u16 {
        let counters = build::sum(self.tables, self.system, class, place, 1).map(|sum| sum.counters);
        counters.and_then(|counters| line[counters].iter().copied().min()).unwrap_or(0)
    }
}

/// Lines, and bads that they settle, mostly by a little. None where they would pass a limit.
pub fn evidence(rng: &mut Rng, ground: &Ground, bads: &mut Items) -> Option<Vec<Line>> {
    if rng.chance(1, 2) {
        bads.iter_mut().for_each(|bad| overlap(rng, ground, bad));
    }
    let groups = ground.groups();
    let told_apart = |group: &&Group| matches!(group.0.1, Place::Kind(_));
    let letters: Vec<Group> = groups.iter().filter(told_apart).cloned().collect();
    let group = if letters.is_empty() || rng.chance(1, 4) { rng.pick(&groups) } else { rng.pick(&letters) };
    let group = group.cloned().filter(|_| rng.chance(1, 2));
    if let Some(group) = &group {
        let i = rng.below(bads.len());
        bads[i] = on_group(rng, ground, group);
    }
    while ground.rows(bads) > limits::BAD_ROWS.1 as usize {
        bads.pop();
    }
    let mut lines = if rng.chance(1, 2) { found(rng, ground, bads) } else { Vec::new() };
    let more = if rng.chance(1, 15) { MOST_LINES } else { rng.below(3) };
    while lines.len() < more || lines.is_empty() {
        let copied = rng.pick(&lines).cloned().filter(|_| rng.chance(1, 4));
        lines.push(copied.unwrap_or_else(|| lowered(rng, ground.system)));
    }
    for line in &mut lines {
        stretch(rng, line);
    }
    if let Some((_, counters)) = &group {
        lines.truncate(MOST_LINES - 1);
        lines.push(uneven(rng, ground.system, counters.clone()));
    }
    rng.shuffle(&mut lines);
    for bad in bads.iter_mut() {
        settle(rng, ground, &lines, bad);
    }
    let fits = lines.len() <= MOST_LINES && evidence::weight_entries(&lines).len() <= MOST_ENTRIES;
    (fits && !bads.is_empty() && ground.rows(bads) <= limits::BAD_ROWS.1 as usize).then_some(lines)
}

/// What the author's finder makes of the bads.
fn found(rng: &mut Rng, ground: &Ground, bads: &Items) -> Vec<Line> {
    let sums: Vec<Sums> = bads.iter().map(|bad| ground.sums(bad)).collect();
    let net = Net { system: ground.system, start: ground.start, bads: &sums };
    lines::find(&net, build::budget(rng)).unwrap_or_default()
}

/// So often all rules are gone through before weights that still rise are taken away.
const FEW_TURNS: usize = 8;

/// Any weights, lowered until no rule raises their sum.
fn lowered(rng: &mut Rng, system: &System) -> Line {
    let most = [1, 2, 5, 50, HEAVIEST as usize][rng.below(5)];
    let (some, of) = [(1, 8), (1, 2), (1, 1)][rng.below(3)];
    let any = |rng: &mut Rng| if rng.chance(some, of) { rng.range(1, most) as u16 } else { 0 };
    let mut line: Line = (0..system.counters()).map(|_| any(rng)).collect();
    lower(system, &mut line, rng.chance(1, 2));
    line
}

/// Lowers weights until no rule raises their sum: that of the state which a rule leads to first, or what it puts.
fn lower(system: &System, line: &mut Line, to_first: bool) {
    for turn in 0.. {
        let mut still = true;
        for rule in &system.rules {
            let mut up = change(line, rule);
            still &= up <= 0;
            let put = [Some(rule.to), rule.adds()];
            for counter in if to_first { put } else { [put[1], put[0]] }.into_iter().flatten() {
                let less = if turn < FEW_TURNS { up } else { up * HEAVIEST as i32 };
                let less = less.clamp(0, line[counter] as i32);
                line[counter] -= less as u16;
                up -= less;
            }
        }
        if still {
            break;
        }
    }
}

/// A line that weighs the counters of a group each by another weight, or some of them not at all.
fn uneven(rng: &mut Rng, system: &System, counters: Range<usize>) -> Line {
    let mut line = vec![HEAVIEST; system.counters()];
    if rng.chance(2, 3) {
        line[counters.clone()].fill(rng.range(1, 9) as u16);
    }
    lower(system, &mut line, true);
    let absent = rng.chance(1, 3);
    for counter in counters {
        if rng.chance(1, 2) {
            line[counter] =
                if absent { 0 } else { rng.range(1, line[counter].max(1) as usize).min(line[counter] as usize) as u16 };
        }
    }
    lower(system, &mut line, true);
    line
}

/// A bad on all counters of a group, and on single ones of them where a bad can tell these apart.
fn on_group(rng: &mut Rng, ground: &Ground, ((class, place), counters): &Group) -> Vec<Item> {
    let mut bad = vec![(*class, *place, rng.range(1, 9))];
    if let Place::Kind(kind) = place
        && ground.program.arity(*kind) > 0
    {
        for _ in 0..rng.below(4) {
            let counter = rng.range(counters.start, counters.end - 1);
            let letter = ground.system.letters[counter - ground.system.states].1;
            bad.push((*class, Place::Letter(letter), rng.range(1, 5)));
        }
    }
    rng.shuffle(&mut bad);
    bad
}

/// Now and then a multiple of the line, often the greatest.
fn stretch(rng: &mut Rng, line: &mut Line) {
    let most = HEAVIEST / line.iter().copied().max().unwrap_or(0).max(1);
    let factor = match rng.below(6) {
        0 => most,
        1 => rng.range(1, most as usize) as u16,
        _ => 1,
    };
    line.iter_mut().for_each(|weight| *weight *= factor);
}

/// An item more on counters that another one has too: the same place, one letter of a constructor, or all of them.
fn overlap(rng: &mut Rng, ground: &Ground, bad: &mut Vec<Item>) {
    let Some(&(class, place, minimum)) = rng.pick(bad) else { return };
    let place = match place {
        Place::Letter(letter) if !rng.chance(1, 4) => Place::Kind(letter.kind),
        Place::Kind(kind) if ground.program.arity(kind) > 0 => {
            let letters: Vec<usize> = ground.system.letters_of(class, kind).collect();
            rng.pick(&letters).map_or(place, |&c| Place::Letter(ground.system.letters[c - ground.system.states].1))
        }
        _ => place,
    };
    let minimum = (minimum + rng.below(4)).saturating_sub(rng.below(3)).clamp(1, MOST_MINIMUM);
    let at = rng.below(bad.len() + 1);
    bad.insert(at, (class, place, minimum));
}

/// Makes a bad that no line settles, and many that one does, such that it is settled by as little as may be, or just
/// not; where that can't be an item without a counter settles it, or none does.
fn settle(rng: &mut Rng, ground: &Ground, lines: &[Line], bad: &mut [Item]) {
    let settled = |bad: &[Item]| {
        let sums = ground.sums(bad);
        lines.iter().any(|line| settles(line, ground.start, &sums))
    };
    let wide = |&(class, place, _): &Item| {
        build::sum(ground.tables, ground.system, class, place, 1).is_some_and(|sum| sum.counters.len() > 1)
    };
    let (group, settled_now) = (bad.iter().any(wide), settled(bad));
    if settled_now && rng.chance(2, 3) || group && !settled_now && rng.chance(1, 5) {
        return;
    }
    let less = if group { 3 } else { 16 };
    for _ in 0..12 {
        let spots = lines.iter().flat_map(|line| (0..bad.len()).map(move |i| (line, i)));
        let heavy: Vec<(&Line, usize)> = spots.filter(|&(line, i)| ground.lightest(line, &bad[i]) > 0).collect();
        let Some(&(line, i)) = rng.pick(&heavy) else {
            let (class, place) = build::random_item(rng, ground.program, ground.tables, ground.system);
            let i = rng.below(bad.len());
            bad[i] = (class, place, 1);
            continue;
        };
        let mut least = just_above(ground, line, bad, i);
        if let Some(minimum) = &mut least {
            if *minimum > 1 && rng.chance(1, less) {
                *minimum -= 1;
            }
            bad[i].2 = *minimum;
        }
        if least.is_some() || settled(bad) {
            return;
        }
    }
    if !rng.chance(1, 8) {
        let without = |rng: &mut Rng| {
            let (class, place) = build::random_item(rng, ground.program, ground.tables, ground.system);
            let none = build::sum(ground.tables, ground.system, class, place, 1).is_none();
            none.then_some((class, place, rng.range(1, 3)))
        };
        if let Some(item) = (0..50).find_map(|_| without(rng)) {
            let i = rng.below(bad.len());
            bad[i] = item;
        }
    }
}

/// The least minimum of item `i` with which a line settles a bad.
fn just_above(ground: &Ground, line: &Line, bad: &[Item], i: usize) -> Option<usize> {
    let settled = |minimum: usize| {
        let mut bad = bad.to_vec();
        bad[i].2 = minimum;
        settles(line, ground.start, &ground.sums(&bad))
    };
    let (mut below, mut least) = (0, MOST_MINIMUM);
    if !settled(least) {
        return None;
    }
    while least - below > 1 {
        let middle = (below + least) / 2;
        *(if settled(middle) { &mut least } else { &mut below }) = middle;
    }
    Some(least)
}

/// Heads of the program that has as many entries as may be: 16 lines of 511 counters and the closing one.
const FULL: usize = MOST_ENTRIES / MOST_LINES - 1;
/// Places that weigh the most in a line whose bad passes 32 bits: 65 of 65,535 processes each do not.
const HEAVY: usize = 66;
/// What counts of fewer bits would take for little or nothing.
const PAST: [u64; 3] = [1 << 31, 1 << 32, 1 << 32];

/// A station at a limit of weights, or one whose bads count letters that any line may weigh.
pub fn station(rng: &mut Rng) -> Option<Station> {
    match rng.below(15) {
        0 => straight(rng, FULL, every_entry),
        1..=4 => {
            let heads = rng.range(HEAVY + 1, 84);
            straight(rng, heads, |rng, _| past_bits(rng, heads))
        }
        _ => boxes(rng),
    }
}

/// One process that goes on from head to head.
fn straight(
    rng: &mut Rng,
    heads: usize,
    weigh: impl FnOnce(&mut Rng, &Ground) -> (Vec<Line>, Items),
) -> Option<Station> {
    let mut rows: Vec<(usize, usize)> = (0..heads - 1).map(|name| (7, name)).collect();
    rows.push((1, 0));
    weighed(rng, (heads - 1, 0, 0), &rows, |_| (), weigh)
}

/// A message of these rows, over the least tables with more mail.
fn weighed(
    rng: &mut Rng,
    sizes: (usize, usize, usize),
    rows: &[(usize, usize)],
    mail: impl FnOnce(&mut Tables),
    weigh: impl FnOnce(&mut Rng, &Ground) -> (Vec<Line>, Items),
) -> Option<Station> {
    let bad = [(40, rows.len()), (42, sizes.1), (43, 2), (44, 0)];
    let mut m = evidence::bare(sizes, rows, 1, &bad);
    let (program, _) = evidence::read(&m).ok()?;
    let mut tables = least::least(&program);
    mail(&mut tables);
    let tables = least::close(&program, tables);
    evidence::put_tables(&mut m, &program, &tables).ok()?;
    let system = evidence::derive(&m, &program, &tables).ok()?;
    let start = tables.state(program.opening())?;
    let ground = Ground { program: &program, tables: &tables, system: &system, start };
    let (lines, bads) = weigh(rng, &ground);
    build::put_bads(&mut m, &program, &tables, &bads)?;
    evidence::put_weights(&mut m, &lines);
    Some(Station { message: m, words: system.words(), counters: system.counters() })
}

/// Boxes of other things each, which lie in the mail though none is sent, so that each letter weighs what it may; taken
/// by a receive at the end, or not. Bads count all of them and some of them.
fn boxes(rng: &mut Rng) -> Option<Station> {
    let things = rng.range(2, 5);
    let mut rows: Vec<(usize, usize)> = vec![(10, 0); things];
    rows.push((10, 1));
    let built: Vec<usize> = (0..things).map(|i| things + 1 + 2 * i).collect();
    rows.extend((0..things).flat_map(|i| [(2, i), (20, i)]));
    let boxed: Vec<usize> = (0..things).map(|i| built[things - 1] + 2 + 3 * i).collect();
    rows.extend((0..things).flat_map(|i| [(2, things + i), (20, things), (21, i)]));
    rows.extend(if rng.chance(1, 2) { vec![(1, 0)] } else { vec![(9, 1), (32, 0), (1, 0)] });
    let mail = |tables: &mut Tables| {
        boxed.iter().for_each(|&row| {
            tables.mail[0].insert(row);
        })
    };
    let class = rows.len();
    weighed(rng, (2 * things, things + 1, 0), &rows, mail, |rng, ground| {
        let lines: Vec<Line> = (0..rng.range(1, 2)).map(|_| box_line(rng, ground)).collect();
        let group = ((class, Place::Kind(things)), ground.system.letters_of(class, things));
        let mut bads: Items = (0..rng.range(1, 2)).map(|_| on_group(rng, ground, &group)).collect();
        bads.iter_mut().for_each(|bad| settle(rng, ground, &lines, bad));
        (lines, bads)
    })
}

/// States of one weight, and letters of any.
fn box_line(rng: &mut Rng, ground: &Ground) -> Line {
    let mut line = vec![rng.range(1, 30) as u16; ground.system.counters()];
    let absent = rng.chance(1, 3);
    for weight in &mut line[ground.system.states..] {
        *weight = if absent && rng.chance(1, 3) { 0 } else { rng.range(1, 9) as u16 };
    }
    stretch(rng, &mut line);
    line
}

/// 16 lines of every counter, each weight no more than the one before.
fn every_entry(rng: &mut Rng, ground: &Ground) -> (Vec<Line>, Items) {
    let line = |rng: &mut Rng| {
        let mut weight = [1, 2, HEAVIEST][rng.below(3)];
        let mut less = |weight: &mut u16| {
            *weight = if rng.chance(1, 40) { 1 + rng.below(*weight as usize) as u16 } else { *weight };
            *weight
        };
        (0..FULL).map(|_| less(&mut weight)).collect::<Line>()
    };
    let lines: Vec<Line> = (0..MOST_LINES).map(|_| line(rng)).collect();
    let mut bads: Items = (0..rng.range(1, 4)).map(|_| vec![(FULL, Place::Head(rng.below(FULL)), 1)]).collect();
    bads.iter_mut().for_each(|bad| settle(rng, ground, &lines, bad));
    (lines, bads)
}

/// A bad that weighs just past so many bits, by no more than the start weighs, or as much as a bad can.
fn past_bits(rng: &mut Rng, heads: usize) -> (Vec<Line>, Items) {
    let line: Line = (0..heads).map(|head| if head < HEAVY { HEAVIEST } else { 1 }).collect();
    let mut left = PAST[rng.below(PAST.len())] + rng.range(0, HEAVIEST as usize + 1) as u64;
    let mut bad = Vec::new();
    if rng.chance(1, 6) {
        left = 0;
        bad.extend((0..heads).map(|head| (heads, Place::Head(head), MOST_MINIMUM)));
    }
    for (head, &weight) in line.iter().enumerate() {
        let minimum = (left / weight as u64).min(MOST_MINIMUM as u64);
        if minimum > 0 {
            bad.push((heads, Place::Head(head), minimum as usize));
            left -= minimum * weight as u64;
        }
    }
    rng.shuffle(&mut bad);
    (vec![line; rng.range(1, 2)], vec![bad])
}

/// Some damage to weights.
pub fn damaged(rng: &mut Rng, m: &mut Message, counters: usize) {
    match rng.below(20) {
        0..=1 => minimums(rng, m),
        2..=4 => heavier_start(rng, m, counters),
        16..=18 => one_more(rng, m, counters),
        19 => m.lines = [0, 1, MOST_LINES, MOST_LINES + 1][rng.below(4)],
        5 => fewer_entries(rng, m),
        kind => {
            std::mem::swap(&mut m.entries, &mut m.weights);
            std::mem::swap(&mut m.bounds, &mut m.lines);
            match kind {
                6 => bound_gone(rng, m, counters),
                7..=8 => bound_form(rng, m, counters),
                9 => keep_bounds(rng, m, counters),
                10 => m.entries.second.iter_mut().for_each(|weight| *weight = (*weight).min(1)),
                _ => weight(rng, m, counters),
            }
            std::mem::swap(&mut m.entries, &mut m.weights);
            std::mem::swap(&mut m.bounds, &mut m.lines);
        }
    }
}

/// A weight that is a little more or less, at its limits or past them, or gone.
fn weight(rng: &mut Rng, m: &mut Message, counters: usize) {
    let entries: Vec<usize> = (0..m.entries.len()).filter(|&i| m.entries.pair(i).0 < counters).collect();
    let Some(&i) = rng.pick(&entries) else { return };
    let weight = m.entries.second[i];
    m.entries.second[i] = match rng.below(12) {
        0..=1 => HEAVIEST,
        2 => HEAVIEST + 1,
        3 => 0,
        4 => 1,
        5..=8 => weight.wrapping_add(1),
        9..=10 if weight > 1 => weight - 1,
        _ => {
            remove(&mut m.entries, i);
            return;
        }
    };
}

/// A counter that a line does not name gets a little weight there, in its order.
fn one_more(rng: &mut Rng, m: &mut Message, counters: usize) {
    let at = rng.below(m.weights.len() + 1);
    let begin = m.weights.first[..at].iter().rposition(|&counter| counter as usize == counters).map_or(0, |i| i + 1);
    let line = m.weights.first[begin..].iter().take_while(|&&counter| (counter as usize) < counters);
    let named: Vec<usize> = line.map(|&counter| counter as usize).collect();
    let others: Vec<usize> = (0..counters).filter(|counter| !named.contains(counter)).collect();
    if let Some(&counter) = rng.pick(&others) {
        let before = named.iter().filter(|&&other| other < counter).count();
        insert(&mut m.weights, begin + before, counter as u16, [1, 1, 2, HEAVIEST][rng.below(4)]);
    }
}

/// Every minimum, or one of them, is one less or one more.
fn minimums(rng: &mut Rng, m: &mut Message) {
    let mut rows: Vec<usize> = (0..m.bad_rows.len()).filter(|&i| m.bad_rows.first[i] == 43).collect();
    if rng.chance(1, 2) {
        rng.shuffle(&mut rows);
        rows.truncate(1);
    }
    let more = rng.chance(1, 4);
    for i in rows {
        let minimum = m.bad_rows.second[i];
        m.bad_rows.second[i] = if more { minimum.saturating_add(1) } else { (minimum - 1).max(1) };
    }
}

/// The start weighs more, in every line that weighs it or in one.
fn heavier_start(rng: &mut Rng, m: &mut Message, counters: usize) {
    // It may be damaged already, so it is read as a verifier reads it.
    let written = message::to_bytes(&message::write(m));
    let Ok(program) = message::read(&written).and_then(|whole| reader::read(&whole)) else { return };
    let state = |i: usize| m.tables.pair(m.flow + m.mail + i) == (program.rows, program.start);
    let Some(start) = (0..m.states).find(|&i| state(i)) else { return };
    let (one, by) = (rng.chance(1, 2), [1, 1, 2, HEAVIEST][rng.below(4)]);
    let weighed = (0..m.weights.len()).filter(|&i| m.weights.pair(i).0 == start && start < counters);
    for i in weighed.take(if one { 1 } else { MOST_LINES }).collect::<Vec<_>>() {
        m.weights.second[i] = (m.weights.second[i] + by).min(HEAVIEST);
    }
}

/// Entries end early, down to none at all.
fn fewer_entries(rng: &mut Rng, m: &mut Message) {
    let left = if rng.chance(1, 3) { 0 } else { rng.below(m.weights.len()) };
    m.weights.first.truncate(left);
    m.weights.second.truncate(left);
}

/// Weights behind ceilings, ceilings before weights, or none of both.
pub fn other_evidence(rng: &mut Rng, m: &mut Message, counters: usize) {
    let close = || Columns { at: 0, first: vec![counters as u16], second: vec![0] };
    match rng.below(5) {
        0 => (m.bounds, m.entries) = (1, close()),
        1 => (m.bounds, m.entries) = (rng.below(2), Columns::default()),
        2 => (m.bounds, m.entries) = (0, close()),
        3 => (m.weighed, m.lines, m.weights) = (true, 1, close()),
        _ => (m.weighed, m.lines, m.weights) = (!m.weighed, rng.below(2), Columns::default()),
    }
}

/// True if two items of a bad have a place or a constructor in common.
pub fn overlapping(m: &Message) -> bool {
    let rows: Vec<(usize, usize)> = (0..m.bad_rows.len()).map(|i| m.bad_rows.pair(i)).collect();
    rows.split(|row| row.0 == 44).any(|bad| {
        let mut places: Vec<_> =
            bad.windows(2).filter(|pair| pair[0].0 == 40).map(|pair| (pair[0].1, pair[1])).collect();
        let count = places.len();
        places.sort_unstable();
        places.dedup();
        places.len() < count
    })
}

/// True if some bad weighs more in some line than 32 bits hold.
pub fn passes_32_bits(m: &Message, bytes: &[u8]) -> bool {
    let minimums = (0..m.bad_rows.len()).filter(|&i| m.bad_rows.first[i] == 43).map(|i| m.bad_rows.second[i] as u64);
    let heaviest = m.weights.second.iter().copied().max().unwrap_or(0) as u64;
    if minimums.sum::<u64>() * heaviest <= u32::MAX as u64 {
        return false;
    }
    let mut read = Read::default();
    let _ = inspect(bytes, &mut read);
    let Read { bads: Some(bads), tables: Some(tables), system: Some(system), weights: Some(weights), .. } = &read
    else {
        return false;
    };
    let sums = bads.iter().filter_map(|bad| crate::bounds::bad_sums(tables, system, bad)).collect::<Vec<_>>();
    weights.lines.iter().any(|line| sums.iter().any(|items| least_weight(line, items) > u32::MAX as u64))
}
