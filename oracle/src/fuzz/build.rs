//! A random station with its evidence: a whole message, most of them safe.

use super::generate;
use super::letters::{self, Crowd};
use super::rng::Rng;
use super::weights::{self, Ground};
use crate::bads::{Bad, Item, Place};
use crate::bounds::{self, Sum, item_counters};
use crate::evidence;
use crate::explore::Limits;
use crate::least;
use crate::letters::Letter;
use crate::limits::{self, UNBOUNDED};
use crate::message::Message;
use crate::program::{Head, Name, Program, State};
use crate::set::Set;
use crate::stress::{flow, honest};
use crate::system::System;
use crate::tables::Tables;
use crate::verify::{self, Read};

/// A message, the words its system needs if it is safe, and the numbers of its bounds.
#[derive(Clone, Debug)]
pub struct Station {
    pub message: Message,
    pub words: usize,
    pub counters: usize,
}

/// How large a program to make; small ones most often.
fn size(rng: &mut Rng) -> usize {
    match rng.below(100) {
        0..=24 => rng.range(4, 30),
        25..=79 => rng.range(20, 90),
        80..=96 => rng.range(60, 200),
        97..=98 => rng.range(150, 500),
        _ => rng.range(400, 1500),
    }
}

/// Stations near the limits, which chance does not reach: honest ones and those with the most flow.
pub fn large() -> Result<Vec<Station>, String> {
    let samples = honest::honest()?.into_iter().chain(flow::hostile()?);
    samples.filter(|sample| sample.verdict == 0).map(|sample| known(&sample.message)).collect()
}

/// The station of a message that is safe.
fn known(message: &[u8]) -> Result<Station, String> {
    let mut read = Read::default();
    verify::inspect(message, &mut read).map_err(|r| format!("refused {} at {}", r.number, r.position))?;
    let (message, system) = read.message.zip(read.system).ok_or("not all parts were read")?;
    Ok(Station { message, words: system.words(), counters: system.counters() })
}

/// A random station; tries until the limits are kept.
pub fn station(rng: &mut Rng) -> Station {
    loop {
        let made = match rng.below(80) {
            78..=79 => weights::station(rng),
            0..=3 => {
                let mailing = rng.chance(1, 3);
                let rows = generate::crowded(rng, mailing);
                finish(rng, &rows, true, |rng, program| random_tables(rng, program, mailing))
            }
            4..=6 => {
                let Crowd { rows, flow, mail } = letters::crowd(rng);
                finish(rng, &rows, true, |_, program| Some(crowd_tables(program, &flow, &mail)))
            }
            7..=28 => {
                let rows = letters::program(rng);
                finish(rng, &rows, true, letter_tables)
            }
            _ => {
                let (mailing, size) = (rng.chance(1, 7), size(rng));
                let rows = generate::program(rng, size, mailing);
                finish(rng, &rows, false, |rng, program| random_tables(rng, program, mailing))
            }
        };
        if let Some(station) = made {
            return station;
        }
    }
}

/// Tables, bads and bounds for a program. Where too many counters are wanted a station that has them is kept.
fn finish(
    rng: &mut Rng,
    rows: &generate::Rows,
    crowded: bool,
    tables: impl FnOnce(&mut Rng, &Program) -> Option<Tables>,
) -> Option<Station> {
    let sizes = (rows.names, rows.constructors, rows.functions);
    let mut m = evidence::bare(sizes, &rows.rows, 1, &[(40, rows.rows.len()), (42, 0), (43, 1), (44, 0)]);
    let (program, _) = evidence::read(&m).ok()?;
    let tables = tables(rng, &program)?;
    evidence::put_tables(&mut m, &program, &tables).ok()?;
    let Ok(system) = evidence::derive(&m, &program, &tables) else {
        return crowded.then(|| Station { message: uncounted(m), words: 0, counters: 0 });
    };
    let mut bads = random_bads(rng, &program, &tables, &system);
    let read = put_bads(&mut m, &program, &tables, &bads)?;
    if rng.chance(2, 5) {
        let start = tables.state(program.opening())?;
        let ground = Ground { program: &program, tables: &tables, system: &system, start };
        let lines = weights::evidence(rng, &ground, &mut bads)?;
        put_bads(&mut m, &program, &tables, &bads)?;
        evidence::put_weights(&mut m, &lines);
        return Some(Station { message: m, words: system.words(), counters: system.counters() });
    }
    let mut limits = match evidence::find_bounds(&program, &tables, &system, &read, budget(rng)) {
        Ok(limits) => limits,
        Err(_) => {
            let limits = any_bounds(rng, &program, &tables, &system);
            if !rng.chance(1, 12) {
                make_harmless(rng, &mut bads, &limits, &program, &tables, &system)?;
                put_bads(&mut m, &program, &tables, &bads)?;
            }
            limits
        }
    };
    if rng.chance(1, 4) {
        add_lower(rng, &mut limits);
    }
    if rng.chance(1, 4) {
        rng.shuffle(&mut limits);
    }
    evidence::put_bounds(&mut m, &limits);
    Some(Station { message: m, words: system.words(), counters: system.counters() })
}

/// The least tables above these values of names and of the start's mail.
fn crowd_tables(program: &Program, flow: &[(usize, usize)], mail: &[usize]) -> Tables {
    let mut tables = Tables::empty(program);
    flow.iter().for_each(|&(name, value)| {
        tables.flow[name].insert(value);
    });
    let start = tables.mail.len() - 1;
    mail.iter().for_each(|&value| {
        tables.mail[start].insert(value);
    });
    least::close(program, tables)
}

/// Random tables, mostly with more heads for the arguments of messages.
fn letter_tables(rng: &mut Rng, program: &Program) -> Option<Tables> {
    let tables = random_tables(rng, program, false)?;
    let mut more = tables.clone();
    if rng.chance(2, 3) {
        letters::add_heads(rng, program, &mut more);
    }
    let more = least::close(program, more);
    Some(if more.mails_function(program) { tables } else { more })
}

/// The least tables or larger ones. Functions are in the mail exactly where they are wanted there, by a send or as
/// entries that nothing wants; none where a program sends them all the same.
fn random_tables(rng: &mut Rng, program: &Program, mailing: bool) -> Option<Tables> {
    let least = least::least(program);
    if !mailing && least.mails_function(program) {
        return None;
    }
    let mut tables = if rng.chance(1, 3) { with_extra(rng, program, least.clone()) } else { least.clone() };
    if !mailing && tables.mails_function(program) {
        return Some(least);
    }
    if mailing && (!tables.mails_function(program) || rng.chance(1, 4)) {
        let functions: Vec<usize> = program.functions.iter().map(|f| f.row).collect();
        (0..rng.range(1, 3)).for_each(|_| insert(rng, tables.mail.as_mut_slice(), &functions));
        tables = least::close(program, tables);
    }
    Some(tables)
}

/// Bounds under those that are there: no rule leads out of them that does not lead out of these.
fn add_lower(rng: &mut Rng, limits: &mut Vec<Limits>) {
    let width = limits.iter().map(|l| 1 + l.iter().filter(|&&limit| limit > 0).count()).max().unwrap_or(1);
    let room = (limits::BOUNDS.1 as usize).min(limits::BOUND_ENTRIES.1 as usize / width).saturating_sub(limits.len());
    let most = if rng.chance(1, 10) { room } else { room.min(6) };
    for _ in 0..rng.range(0, most) {
        let mut lower = limits[rng.below(limits.len())].clone();
        for _ in 0..rng.range(0, 3) {
            let i = rng.below(lower.len());
            lower[i] = [0, lower[i] / 2, lower[i].saturating_sub(1)][rng.below(3)];
        }
        limits.push(lower);
    }
}

/// So many bounds are many.
pub const MANY_BOUNDS: usize = 100;
/// Limits about the unbounded one, where a step up or down is most easily wrong.
const HIGH: [u16; 3] = [UNBOUNDED - 2, UNBOUNDED - 1, UNBOUNDED];

/// A random station with many bounds: its own, and copies of these with one limit changed. None where there is no room.
pub fn alike(rng: &mut Rng) -> Option<Station> {
    let mut station = station(rng);
    let own = bounds::read(&station.message, station.counters).ok()?.limits;
    let width = own.iter().map(|l| 2 + l.iter().filter(|&&limit| limit > 0).count()).max()?;
    let most = (limits::BOUNDS.1 as usize).min(limits::BOUND_ENTRIES.1 as usize / width);
    if most < MANY_BOUNDS || own.len() >= most {
        return None;
    }
    let count = rng.range(MANY_BOUNDS.max(own.len()), most);
    let raised = rng.chance(1, 3);
    let mut all = own.clone();
    while all.len() < count {
        let copied = rng.below(own.len());
        all.push(changed(rng, &own[copied], raised));
    }
    if rng.chance(1, 2) {
        rng.shuffle(&mut all);
    }
    evidence::put_bounds(&mut station.message, &all);
    Some(station)
}

/// A copy with one limit changed: lower, about the unbounded where it is unbounded, or any of these where it may rise.
fn changed(rng: &mut Rng, bound: &Limits, raised: bool) -> Limits {
    let mut copy = bound.clone();
    let i = rng.below(copy.len());
    copy[i] = match rng.below(4) {
        0..=1 if raised || copy[i] == UNBOUNDED => HIGH[rng.below(HIGH.len())],
        2 if raised => copy[i].saturating_add(1),
        3 => copy[i] / 2,
        _ => copy[i].saturating_sub(1),
    };
    copy
}

/// Too many counters: some bound that no one reads.
fn uncounted(mut m: Message) -> Message {
    evidence::put_bounds(&mut m, &[vec![1]]);
    m
}

/// Some entries more than are needed, and what they want.
fn with_extra(rng: &mut Rng, program: &Program, tables: Tables) -> Tables {
    let values: Vec<usize> = (0..=program.rows).filter(|&v| program.is_value(v)).collect();
    let mut more = tables.clone();
    let most = if rng.chance(1, 8) { 150 } else { 3 };
    for _ in 0..rng.range(1, most) {
        add_entry(rng, program, &values, &mut more);
    }
    if rng.chance(1, 10) {
        let full = if rng.chance(1, 2) { rng.pick_mut(&mut more.flow) } else { rng.pick_mut(&mut more.mail) };
        full.into_iter().for_each(|set| {
            values.iter().for_each(|&v| {
                set.insert(v);
            })
        });
    }
    least::close(program, more)
}

/// One entry in one of the lists.
fn add_entry(rng: &mut Rng, program: &Program, values: &[usize], tables: &mut Tables) {
    match rng.below(7) {
        0 => insert(rng, tables.flow.as_mut_slice(), values),
        1 => insert(rng, tables.mail.as_mut_slice(), values),
        2 => {
            let builds = builds(rng, program, tables);
            insert(rng, tables.mail.as_mut_slice(), &builds);
        }
        3..=4 => add_state(rng, program, tables),
        _ => add_looked_at(rng, program, tables),
    }
}

/// One of the values into one of the sets.
fn insert(rng: &mut Rng, sets: &mut [Set], values: &[usize]) {
    if let (Some(set), Some(&value)) = (rng.pick_mut(sets), rng.pick(values)) {
        set.insert(value);
    }
}

/// Builds; half the time only those with an argument that has no value, which no constructor pattern may match.
fn builds(rng: &mut Rng, program: &Program, tables: &Tables) -> Vec<usize> {
    let hollow = rng.chance(1, 2);
    let wanted = |args: &[Name]| !hollow || args.iter().any(|&arg| tables.flow[arg].is_empty());
    (0..program.rows).filter(|&row| program.build(row).is_some_and(|(_, args)| wanted(args))).collect()
}

/// A value that some head of a state looks for: a build for a case, a class for a target, a function for a callee.
fn add_looked_at(rng: &mut Rng, program: &Program, tables: &mut Tables) {
    let builds = builds(rng, program, tables);
    let looked_at = |row: usize| match program.head(row)? {
        Head::Case { value, .. } => Some((*value, builds.clone())),
        Head::Send { target, .. } => Some((*target, program.classes().collect())),
        Head::Call { callee, .. } | Head::Spawn { callee, .. } => {
            Some((*callee, program.functions.iter().map(|f| f.row).collect()))
        }
        _ => None,
    };
    let heads: Vec<usize> = tables.states.iter().map(|state| state.head).collect();
    let found = (0..heads.len()).find_map(|_| looked_at(*rng.pick(&heads)?));
    if let Some((name, values)) = found {
        insert(rng, &mut tables.flow[name..=name], &values);
    }
}

/// A state with any return: at a build, at any head, at a give back, or where a state stands already.
fn add_state(rng: &mut Rng, program: &Program, tables: &mut Tables) {
    let classes: Vec<usize> = program.classes().collect();
    let heads: Vec<usize> = match rng.below(4) {
        0 => builds(rng, program, tables),
        1 => (0..program.rows).filter(|&row| program.is_head(row)).collect(),
        2 => (0..program.rows).filter(|&row| matches!(program.head(row), Some(Head::GiveBack { .. }))).collect(),
        _ => tables.states.iter().map(|state| state.head).collect(),
    };
    let calls: Vec<usize> = (0..program.rows).filter(|&row| program.call(row).is_some()).collect();
    let back = rng.pick(&calls).copied().filter(|_| !rng.chance(1, 3)).unwrap_or(program.rows);
    let (Some(&class), Some(&head)) = (rng.pick(&classes), rng.pick(&heads)) else { return };
    let state = State { class, head, back };
    if let Err(i) = tables.states.binary_search(&state) {
        tables.states.insert(i, state);
    }
}

/// Items of each bad: class, then place as a row, then minimum.
pub type Items = Vec<Vec<(usize, Place, usize)>>;

fn random_bads(rng: &mut Rng, program: &Program, tables: &Tables, system: &System) -> Items {
    let count = if rng.chance(1, 20) { rng.range(1, 16) } else { rng.range(1, 3) };
    let items = |rng: &mut Rng| if rng.chance(1, 20) { rng.range(1, 5) } else { rng.range(1, 2) };
    let one = |rng: &mut Rng| {
        let (class, place) = random_item(rng, program, tables, system);
        let minimum = match rng.below(6) {
            0 => 1,
            1..=3 => 2,
            4 => rng.range(2, 5),
            _ => rng.range(1, 65_535),
        };
        (class, place, minimum)
    };
    (0..count).map(|_| (0..items(rng)).map(|_| one(rng)).collect()).collect()
}

/// The rows of an item that say where.
pub fn place_rows(program: &Program, place: Place) -> Vec<(usize, usize)> {
    match place {
        Place::Head(head) => vec![(41, head)],
        Place::Kind(kind) => vec![(42, kind)],
        Place::Letter(letter) => {
            [(42, letter.kind)].into_iter().chain(letter.heads(program).map(|head| (45, head))).collect()
        }
    }
}

/// Puts bads into the message and reads them back.
pub fn put_bads(m: &mut Message, program: &Program, tables: &Tables, bads: &Items) -> Option<Vec<Bad>> {
    let mut rows = Vec::new();
    for bad in bads {
        for &(class, place, minimum) in bad {
            rows.push((40, class));
            rows.extend(place_rows(program, place));
            rows.push((43, minimum));
        }
        rows.push((44, 0));
    }
    let sizes = (m.names, m.constructors, m.functions);
    let program_rows: Vec<_> = (0..m.rows).map(|i| m.program.pair(i)).collect();
    let mut next = evidence::bare(sizes, &program_rows, bads.len(), &rows);
    evidence::put_tables(&mut next, program, tables).ok()?;
    *m = next;
    crate::bads::read(m, program).ok()
}

/// An item as a sum of counters, if it has any.
pub fn sum(tables: &Tables, system: &System, class: usize, place: Place, minimum: usize) -> Option<Sum> {
    let item = Item { class, place, minimum: minimum as u16 };
    item_counters(tables, system, &item).map(|counters| Sum { counters, minimum: item.minimum })
}

/// Changes one item of each bad that a bound allows so that none does.
fn make_harmless(
    rng: &mut Rng,
    bads: &mut Items,
    limits: &[Limits],
    program: &Program,
    tables: &Tables,
    system: &System,
) -> Option<()> {
    for bad in bads {
        let allowed = limits.iter().any(|l| {
            bad.iter().all(|&(class, place, minimum)| {
                sum(tables, system, class, place, minimum).is_some_and(|sum| sum.allowed(l))
            })
        });
        if allowed {
            let i = rng.below(bad.len());
            bad[i] = (0..50).find_map(|_| harmless_item(rng, limits, program, tables, system))?;
        }
    }
    Some(())
}

/// An item without a counter, or one whose minimum lies above every limit.
fn harmless_item(
    rng: &mut Rng,
    limits: &[Limits],
    program: &Program,
    tables: &Tables,
    system: &System,
) -> Option<(usize, Place, usize)> {
    let (class, place) = random_item(rng, program, tables, system);
    match sum(tables, system, class, place, 1) {
        None => Some((class, place, rng.range(1, 3))),
        Some(Sum { counters, .. }) => {
            let limits = || limits.iter().map(|l| &l[counters.clone()]);
            let most = limits().map(|l| l.iter().map(|&limit| limit as usize).sum::<usize>()).max().unwrap_or(0);
            let bounded = !limits().any(|l| l.contains(&UNBOUNDED));
            (bounded && most < UNBOUNDED as usize).then_some((class, place, most + 1))
        }
    }
}

/// Class and place of an item: one that has a counter, or any.
pub fn random_item(rng: &mut Rng, program: &Program, tables: &Tables, system: &System) -> (usize, Place) {
    let classes: Vec<usize> = program.classes().collect();
    let class = rng.pick(&classes).copied().unwrap_or(program.rows);
    match rng.below(6) {
        0 => {
            let kind = rng.below(program.heads());
            let arity = program.arity(kind);
            let heads: Vec<usize> = (0..arity).map(|_| rng.below(program.heads())).collect();
            let told_apart = arity > 0 && rng.chance(1, 2);
            (class, if told_apart { Place::Letter(Letter::new(kind, heads)) } else { Place::Kind(kind) })
        }
        1 => {
            let heads: Vec<usize> = (0..program.rows).filter(|&r| program.is_head(r)).collect();
            (class, Place::Head(rng.pick(&heads).copied().unwrap_or(program.start)))
        }
        2..=3 if !system.letters.is_empty() => {
            let (class, letter) = system.letters[rng.below(system.letters.len())];
            let single = program.arity(letter.kind) > 0 && rng.chance(1, 2);
            (class, if single { Place::Letter(letter) } else { Place::Kind(letter.kind) })
        }
        _ => {
            let State { class, head, .. } = tables.states[rng.below(tables.states.len())];
            (class, Place::Head(head))
        }
    }
}

/// Sets of counts that are tried: seldom many, as this takes most of a fuzz run's time.
pub fn budget(rng: &mut Rng) -> usize {
    if rng.chance(1, 30) { 3000 } else { 400 }
}

/// Bounds with the bads left aside; at worst everything unbounded.
fn any_bounds(rng: &mut Rng, program: &Program, tables: &Tables, system: &System) -> Vec<Limits> {
    let all = vec![vec![UNBOUNDED; system.counters()]];
    evidence::find_bounds(program, tables, system, &[], budget(rng)).unwrap_or(all)
}
