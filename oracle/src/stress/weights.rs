//! Messages with weights in place of ceilings ((v) of 02).

use super::bounds;
use super::finish::{bytes, changed, refused};
use super::{Sample, long, sample, sums};
use crate::evidence;
use crate::limits;
use crate::message::Message;
use crate::system::System;
use crate::verify::{Read, inspect};
use crate::weights::Line;

pub fn hostile() -> Result<Vec<Sample>, String> {
    let full = || weighed(long_counters(), lines);
    Ok(vec![
        sample("weights-full", "seven lines over all 1,024 counters, 187,537 rules", 0, full())?,
        sample(
            "weights-rise",
            "the same, but the last rule raises the last line",
            17,
            weighed(long_counters(), last_rises),
        )?,
        sample(
            "weights-light",
            "the same with 16 bads of five items each, of which the last weighs too little",
            18,
            changed(full(), |m| bads(m, 1)),
        )?,
        sample("weights-bads", "the same, but all bads weigh enough", 0, changed(full(), |m| bads(m, 65_535)))?,
        sample("weights-last-wrong", "the same as weights-full, the last entry not in form", 16, {
            changed(full(), |m| {
                m.weights.second.last_mut().into_iter().for_each(|weight| *weight = 1);
            })
        })?,
        sample(
            "weights-sixteen",
            "the same with 16 lines of 511 counters, 8,192 entries",
            0,
            weighed(long_counters(), |system| sixteen(system, system.states - 1)),
        )?,
        sample(
            "weights-sixteen-rise",
            "the same, but the last line rises",
            17,
            weighed(long_counters(), |system| sixteen(system, system.states - 2)),
        )?,
        sample(
            "weights-sums",
            "the bad of bads-sums, 85 items of which 84 are at a place with 508 returns, weighed by eight lines of which \
             the last settles it",
            0,
            weighed(sums::sums(), last_settles),
        )?,
    ])
}

fn long_counters() -> Result<Vec<u8>, String> {
    long::counters(bounds::one)
}

/// A message with these lines in place of its ceilings.
fn weighed(message: Result<Vec<u8>, String>, lines: impl Fn(&System) -> Vec<Line>) -> Result<Vec<u8>, String> {
    let mut read = Read::default();
    inspect(&message?, &mut read).map_err(refused)?;
    let (mut m, system) = read.message.zip(read.system).ok_or("not all parts were read")?;
    evidence::put_weights(&mut m, &lines(&system));
    Ok(bytes(&m))
}

/// Letters of this weight, and states that weigh 1 and as much as is put behind them; rules lead from earlier states to
/// later ones.
fn descending(system: &System, letter: u16) -> Line {
    let mut line = vec![letter; system.counters()];
    line[..system.states].fill(1);
    for rule in system.rules.iter().rev() {
        let put = line[rule.to] + rule.adds().map_or(0, |counter| line[counter]);
        line[rule.from] = line[rule.from].max(put.saturating_sub(rule.read().map_or(0, |counter| line[counter])));
    }
    line
}

fn lines(system: &System) -> Vec<Line> {
    (0..7).map(|i| descending(system, 1 + i % 2)).collect()
}

fn last_rises(system: &System) -> Vec<Line> {
    let mut lines = lines(system);
    if let (Some(line), Some(rule)) = (lines.last_mut(), system.rules.last()) {
        line[rule.to] = line[rule.from] + rule.read().map_or(0, |letter| line[letter]) + 1;
    }
    lines
}

/// 16 lines of all states but one, which is this one in the last of them and the last one in the others.
fn sixteen(system: &System, left_out: usize) -> Vec<Line> {
    let line = |left_out: usize| {
        let mut line = vec![0; system.counters()];
        line[..system.states].fill(1);
        line[left_out] = 0;
        line
    };
    let mut lines = vec![line(system.states - 1); limits::LINES.1 as usize];
    lines.last_mut().into_iter().for_each(|last| *last = line(left_out));
    lines
}

/// Eight lines that weigh every state 1. All but the last leave out where the last call comes to: the routine, so that the
/// place weighs nothing, and the end; and the routine that nothing calls.
fn last_settles(system: &System) -> Vec<Line> {
    let full = vec![1; system.counters()];
    let mut light = full.clone();
    let end = system.states - 1;
    [sums::CALLS - 1, sums::CALLS, end].into_iter().for_each(|counter| light[counter] = 0);
    vec![light; 7].into_iter().chain([full]).collect()
}

/// Bads of five letters of the starting process each, the last of them with this minimum.
fn bads(m: &mut Message, last: u16) {
    m.bads = 16;
    m.bad_rows.first = [40, 42, 43].repeat(5).into_iter().chain([44]).collect::<Vec<_>>().repeat(16);
    m.bad_rows.second = Vec::new();
    for bad in 0..16 {
        let minimum = if bad == 15 { last } else { 65_535 };
        (0..5).for_each(|letter| m.bad_rows.second.extend([m.rows as u16, letter, minimum]));
        m.bad_rows.second.push(0);
    }
}
