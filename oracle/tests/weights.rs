//! (v): weights as the other evidence.

mod common;

use common::{bytes, path, station_a, verdict};
use oracle::bads::Bad;
use oracle::bounds::{Sum, Sums, bad_sums};
use oracle::counters::{Beside, Safe};
use oracle::explain::explain;
use oracle::explore::{self, Failure, Net};
use oracle::fuzz::compare::Cases;
use oracle::run::{Wanted, show};
use oracle::text::assemble::{assemble, assemble_within};
use oracle::text::disassemble::disassemble;
use oracle::verify::{Read, inspect};
use oracle::weights::{Weights, least_weight};
use oracle::{evidence, lines, message};

/// Station A with these lines in place of its ceilings.
fn weighed(lines: u16, entries: &[(u16, u16)]) -> Vec<u16> {
    let mut a = station_a();
    a.truncate(60);
    a.extend([0, 0, lines, entries.len() as u16]);
    a.extend(entries.iter().map(|entry| entry.0));
    a.extend(entries.iter().map(|entry| entry.1));
    a
}

const LINE: [(u16, u16); 5] = [(0, 1), (1, 1), (2, 1), (5, 1), (6, 0)];

#[test]
fn station_a_by_weights() {
    assert_eq!(verdict(&bytes(&weighed(1, &LINE))), (0, 0));
    let listing = |message: &[u16]| oracle::listing::verified(&bytes(message), 16_384);
    assert_eq!(listing(&weighed(1, &LINE)), listing(&station_a()));
}

#[test]
fn the_fifth_part_is_there_only_behind_no_ceilings() {
    let mut a = weighed(1, &LINE);
    a.truncate(62);
    assert_eq!(verdict(&bytes(&a)), (11, 60));
    assert_eq!(verdict(&[&bytes(&a)[..], &[0]].concat()), (1, 62));
    assert_eq!(verdict(&bytes(&[&a[..], &[1]].concat())), (1, 62));
    assert_eq!(verdict(&bytes(&[&a[..], &[0, 0]].concat())), (2, 62));
    assert_eq!(verdict(&bytes(&[&a[..], &[1, 0]].concat())), (16, 64));
    let longer = bytes(&weighed(1, &LINE));
    assert_eq!(verdict(&[&longer[..], &[0]].concat()), (1, longer.len() / 2));
    assert_eq!(verdict(&bytes(&[&station_a()[..], &[1, 0]].concat())), (1, 84));
}

#[test]
fn a_line_may_weigh_nothing() {
    assert_eq!(verdict(&bytes(&weighed(1, &[(6, 0)]))), (18, 26));
    let two = [&[(6, 0)], &LINE[..], &LINE[..]].concat();
    assert_eq!(verdict(&bytes(&weighed(3, &two))), (0, 0));
}

/// 85 items at the highest minimum and weight pass 32 bits; the same item again adds nothing.
#[test]
fn totals_pass_32_bits() {
    let item = |counter: usize| Sum { counters: counter..counter + 1, minimum: 65_535 };
    let items: Vec<Sum> = (0..85).map(item).collect();
    assert_eq!(least_weight(&[1000; 85], &items), 5_570_475_000);
    assert_eq!(least_weight(&[1000; 85], &[&items[..], &items[..]].concat()), 5_570_475_000);
    let all = Sum { counters: 0..85, minimum: 65_535 };
    assert_eq!(least_weight(&[1000; 85], &[vec![all], items].concat()), 5_570_475_000);
}

/// Demand 3 with a line that the gate would refuse: the step that raises it is found out.
#[test]
fn a_sum_that_rises_in_a_run_is_found_out() {
    let mut read = Read::default();
    inspect(&bytes(&station_a()), &mut read).unwrap();
    let (program, tables, system) = (read.program.unwrap(), read.tables.unwrap(), read.system.unwrap());
    let run = |line: Vec<u16>| {
        let weights = Weights { lines: vec![vec![0; 6], line], first: vec![0, 1] };
        let safe = Some(Safe::Weights(&weights));
        Beside::new(&program, &tables, &system, safe, &[]).unwrap().run(&[0; 5])
    };
    assert_eq!(run(vec![1, 1, 1, 0, 0, 1]).unwrap().len(), 4);
    assert_eq!(run(vec![0, 0, 0, 0, 0, 1]).unwrap_err(), "rule 2 raises line 1");
    assert_eq!(run(vec![2, 1, 1, 0, 1, 1]).unwrap().len(), 4);
    assert_eq!(run(vec![2, 1, 1, 0, 2, 1]).unwrap_err(), "rule 3 raises line 1");
}

/// A run of a station with weights shows what each line sums up to.
#[test]
fn a_run_shows_the_sums() {
    let message = std::fs::read(path("examples/gauges-2.msg")).unwrap();
    let wanted = Wanted { numbers: vec![], random: 60, seed: 3 };
    let shown = show(&message, None, &wanted).unwrap();
    let sums = shown.text.lines().filter_map(|line| line.trim().strip_prefix("sums: "));
    let sums: Vec<u64> = sums.map(|sum| sum.parse().unwrap()).collect();
    assert!(sums.len() > 40 && sums[0] == 2 && sums.is_sorted_by(|before, after| before >= after), "{sums:?}");
    assert!(shown.text.contains("no sum ever rose"), "{}", shown.text);
}

/// Counts on all counters, up to a most, that meet every item: the least weight of them.
fn searched(line: &[u16], items: &[Sum], most: u64) -> u64 {
    let mut counts = vec![0u64; line.len()];
    let mut least = u64::MAX;
    loop {
        if items.iter().all(|item| item.count(&counts) >= item.minimum as u64) {
            least = least.min(counts.iter().zip(line).map(|(count, &weight)| count * weight as u64).sum());
        }
        let Some(i) = counts.iter().position(|&count| count < most) else { return least };
        counts[i] += 1;
        counts[..i].fill(0);
    }
}

/// The closed form is the least, for items of which each two lie apart or one in the other.
#[test]
fn the_least_weight_is_the_least() {
    let mut rng = oracle::fuzz::rng::Rng::new(5);
    for _ in 0..300 {
        let line: Vec<u16> = (0..5).map(|_| rng.below(4) as u16).collect();
        let ranges = [0..1, 1..2, 2..3, 0..3, 0..3, 3..5, 4..5];
        let item = |rng: &mut oracle::fuzz::rng::Rng| Sum {
            counters: ranges[rng.below(ranges.len())].clone(),
            minimum: rng.range(1, 3) as u16,
        };
        let items: Vec<Sum> = (0..rng.range(1, 4)).map(|_| item(&mut rng)).collect();
        assert_eq!(least_weight(&line, &items), searched(&line, &items, 4), "{line:?} {items:?}");
    }
}

#[test]
fn one_line_serves_where_ceilings_do_not() {
    for gauges in [2, 4, 8] {
        let text = std::fs::read_to_string(path(&format!("examples/gauges-{gauges}.station"))).unwrap();
        let assembled = assemble(&text).unwrap();
        assert!(assembled.safe);
        let m = message::read(&assembled.message).unwrap();
        assert_eq!((m.weighed, m.lines), (true, 1));
        assert_eq!(m.weights.len(), 17 + 12 * gauges);
        let budget = if gauges == 2 { 20_000 } else { 2_000 };
        let by_ceilings = assemble_within(&format!("evidence ceilings. {text}"), budget).unwrap();
        assert!(!by_ceilings.safe, "{gauges}");
    }
}

#[test]
fn the_author_chooses_or_gets_the_smaller() {
    let text = std::fs::read_to_string(path("examples/station-a.station")).unwrap();
    let lines = |text: &str| message::read(&assemble(text).unwrap().message).unwrap().lines;
    assert_eq!(lines(&text), 0);
    assert_eq!(lines(&text.replace("evidence ceilings.", "")), 1);
    assert_eq!(lines(&text.replace("evidence ceilings.", "evidence weights.")), 1);
    assert!(assemble(&text.replace("evidence ceilings.", "evidence sums.")).is_err());
}

#[test]
fn what_was_tried_is_told() {
    let text = "constructors a/0, b/0.
        function talk(To) -> To ! a, talk(To).
        start -> Me = self(), talk(Me).
        bad many: start holds a >= 5.";
    let notes = assemble(text).unwrap().notes.join("\n");
    let words = "no weights found: no sum that never rises was found to weigh bad `many` above the start";
    assert!(notes.contains(words), "{notes}");
    let pool = std::fs::read_to_string(path("examples/pool.station")).unwrap().replace("evidence ceilings.", "");
    let notes = assemble_within(&pool, 10).unwrap().notes.join("\n");
    assert!(notes.contains("weights were not tried"), "{notes}");
    let told = assemble(&format!("{text} bad few: start holds b.")).unwrap().notes.join("\n");
    assert!(told.contains(words), "{told}");
}

const PING: &str = "constructors ping/0.
    start -> Me = self(), Ping = ping, Me ! Ping, receive ping -> Me end.
    bad two: start holds ping >= 2.";

#[test]
fn weights_given_in_the_text_are_taken_as_they_are() {
    let given = |lines: &str| assemble(&format!("{PING} {lines}"));
    let weighed = |lines: &str| message::read(&given(lines).unwrap().message).unwrap();
    let line = "weights start@r1 3, start@r2 3, start@r4 3, start!ping 2.";
    let m = weighed(line);
    assert_eq!((m.lines, m.weights.first, m.weights.second), (1, vec![0, 1, 2, 5, 6], vec![3, 3, 3, 2, 0]));
    assert!(given(line).unwrap().safe);
    assert_eq!(weighed(&format!("{line} weights. {line}")).lines, 3);
    assert!(!given("weights.").unwrap().safe);
    let verdict = |lines: &str| given(lines).unwrap().notes.pop().unwrap();
    assert_eq!(verdict("weights."), "refused: 18 light, word 26, bad `two`");
    assert_eq!(verdict("weights start!ping 1."), "refused: 17 rise, word 64");
    assert_eq!(verdict(line), "safe: 1 line of weights with 5 entries given");
    let refused = |lines: &str| given(lines).err().unwrap_or_default();
    assert!(refused("weights start@r1 0.").contains("weights are 1 to 1000"));
    assert!(refused("weights start@r1 1001.").contains("weights are 1 to 1000"));
    assert!(refused("weights start@r1 1, start@r1 1.").contains("start@r1 is weighed twice"));
    assert!(refused("weights start r1 1.").contains("`@` and a label, or `!` and a letter"));
    assert!(refused(&"weights. ".repeat(17)).contains("17 lines of weights"));
    let notes = given("weights start@r1 1, start@nowhere 1.").unwrap().notes.join("\n");
    assert!(notes.contains("there is no counter start@nowhere"), "{notes}");
}

/// Lines come back from the text word for word, where the tables are the least.
#[test]
fn lines_come_back_from_their_text() {
    let mut cases = Cases::new(90);
    let mut tried = 0;
    for _ in 0..1500 {
        let case = cases.next_case();
        let mut read = Read::default();
        let _ = inspect(&case.message, &mut read);
        let (Some(program), Some(tables), Some(_)) = (&read.program, &read.tables, &read.weights) else { continue };
        if case.message.len() < 3000 && oracle::least::least(program) == *tables {
            let text = disassemble(&case.message).unwrap();
            let again = assemble(&text).map_err(|e| format!("{e}\n{text}")).unwrap().message;
            assert!(again == case.message, "{text}");
            tried += 1;
        }
    }
    assert!(tried > 50, "{tried}");
}

/// What a careless reading of the weights makes of a message whose weights are in form: number 0, 17 or 18.
#[derive(Clone, Copy, Debug, PartialEq)]
enum Careless {
    None,
    /// A sum that stays as it is counts as raised.
    Equal,
    TakesLeftOut,
    ReadLeftOut,
    FirstLineOnly,
    FirstRuleOnly,
    /// A bad that weighs as much as the start is settled.
    NotAbove,
    OverlapsAdded,
    GroupsBesideSingles,
    GroupAtItsFirst,
    AbsentLeftOut,
    StartWeighsNothing,
    Total32,
    Total31,
    LinesTogether,
    UncountedIsZero,
}

fn careless(read: &Read, how: Careless) -> u32 {
    let (system, weights) = (read.system.as_ref().unwrap(), read.weights.as_ref().unwrap());
    let (tables, program) = (read.tables.as_ref().unwrap(), read.program.as_ref().unwrap());
    let start = tables.state(program.opening()).unwrap();
    let tested = if how == Careless::FirstLineOnly { 1 } else { weights.lines.len() };
    let raises = |line: &Vec<u16>| {
        let rules = if how == Careless::FirstRuleOnly { 1 } else { system.rules.len() };
        system.rules.iter().take(rules).any(|rule| {
            let weight = |counter: usize| line[counter] as i32;
            let put = weight(rule.to) + rule.adds().map_or(0, weight);
            let read = rule.read().filter(|_| how != Careless::ReadLeftOut).map_or(0, weight);
            let taken = if how == Careless::TakesLeftOut { 0 } else { weight(rule.from) + read };
            put > taken || how == Careless::Equal && put == taken
        })
    };
    if weights.lines[..tested].iter().any(raises) {
        return 17;
    }
    let weigh = |line: &Vec<u16>, items: &[Sum]| -> u64 {
        let each = |item: &Sum| {
            let counters = &line[item.counters.clone()];
            let lightest = match how {
                Careless::GroupAtItsFirst => counters[0],
                Careless::AbsentLeftOut => counters.iter().copied().filter(|&w| w > 0).min().unwrap_or(0),
                _ => counters.iter().copied().min().unwrap(),
            };
            lightest as u64 * item.minimum as u64
        };
        let total = match how {
            Careless::OverlapsAdded => items.iter().map(each).sum(),
            Careless::GroupAtItsFirst | Careless::AbsentLeftOut if items.len() == 1 => each(&items[0]),
            Careless::GroupsBesideSingles => {
                let apart = |wide: bool| items.iter().filter(|i| (i.counters.len() > 1) == wide).cloned().collect();
                let (singles, groups): (Vec<Sum>, Vec<Sum>) = (apart(false), apart(true));
                least_weight(line, &singles) + least_weight(line, &groups)
            }
            _ => least_weight(line, items),
        };
        match how {
            Careless::Total32 => total as u32 as u64,
            Careless::Total31 => (total as i32).max(0) as u64,
            _ => total,
        }
    };
    let above = |weighs: u64, begins: u64| match how {
        Careless::NotAbove => weighs >= begins,
        Careless::StartWeighsNothing => weighs > 0,
        _ => weighs > begins,
    };
    let settled = |bad: &Bad| match bad_sums(tables, system, bad) {
        None => how != Careless::UncountedIsZero,
        Some(items) if how == Careless::LinesTogether => {
            let all = |weigh: &dyn Fn(&Vec<u16>) -> u64| weights.lines.iter().map(weigh).sum::<u64>();
            all(&|line| weigh(line, &items)) > all(&|line| line[start] as u64)
        }
        Some(items) => weights.lines[..tested].iter().any(|line| above(weigh(line, &items), line[start] as u64)),
    };
    if read.bads.as_ref().unwrap().iter().all(settled) { 0 } else { 18 }
}

/// The generator makes messages on which each of these careless readings goes wrong.
#[test]
fn careless_readings_are_found_out() {
    use Careless::*;
    let all = [
        Equal,
        TakesLeftOut,
        ReadLeftOut,
        FirstLineOnly,
        FirstRuleOnly,
        NotAbove,
        OverlapsAdded,
        GroupsBesideSingles,
        GroupAtItsFirst,
        AbsentLeftOut,
        StartWeighsNothing,
        Total32,
        Total31,
        LinesTogether,
        UncountedIsZero,
    ];
    let mut found = [0; 15];
    let mut cases = Cases::new(18);
    for _ in 0..30_000 {
        let case = cases.next_case();
        let mut read = Read::default();
        let number = inspect(&case.message, &mut read).err().map_or(0, |refusal| refusal.number);
        if read.weights.is_some() {
            assert_eq!(careless(&read, None), number);
            all.iter().zip(&mut found).for_each(|(&how, found)| *found += usize::from(careless(&read, how) != number));
        }
    }
    println!("{:?}", all.iter().zip(found).collect::<Vec<_>>());
    assert!(found.iter().all(|&found| found >= 3), "{:?}", all.iter().zip(found).collect::<Vec<_>>());
}

/// What the finder finds the gate takes, and it finds nothing where a run of the counters meets a bad.
#[test]
fn lines_that_are_found_are_safe() {
    let mut cases = Cases::new(77);
    let (mut found, mut met) = (0, 0);
    for _ in 0..3000 {
        let case = cases.next_case();
        let mut read = Read::default();
        let _ = inspect(&case.message, &mut read);
        let (Some(tables), Some(system)) = (&read.tables, &read.system) else { continue };
        let start = tables.state(read.program.as_ref().unwrap().opening()).unwrap();
        let bads: Vec<Sums> = read.bads.iter().flatten().map(|bad| bad_sums(tables, system, bad)).collect();
        if system.rules.len() > 1000 || bads.iter().all(Option::is_none) {
            continue;
        }
        let net = Net { system, start, bads: &bads };
        if let Ok(lines) = lines::find(&net, 20_000) {
            let mut m = read.message.clone().unwrap();
            evidence::put_weights(&mut m, &lines);
            assert_eq!(verdict(&bytes(&message::write(&m))), (0, 0));
            found += 1;
        } else if matches!(explore::bounds(&net, 1000), Err(Failure::Coverable { .. })) {
            met += 1;
        }
    }
    assert!(found > 300 && met > 30, "{found} {met}");
}

#[test]
fn each_refusal_of_weights_is_told_in_words() {
    let told = |lines: u16, entries: &[(u16, u16)]| explain(&bytes(&weighed(lines, entries)), 16_384, None).1;
    let safe = "the weighed sum of 1 line never rises, and every\nbad weighs more than the start.";
    assert!(told(1, &LINE).contains(safe), "{}", told(1, &LINE));
    let two = [&LINE[..], &[(6, 0)]].concat();
    assert!(told(2, &two).contains("the weighed sums of 2 lines never rise"), "{}", told(2, &two));
    assert!(told(0, &LINE).contains("the size at word 62 is 0"), "{}", told(0, &LINE));
    assert!(told(2, &LINE).contains("past the last weight entry (5 there are)"), "{}", told(2, &LINE));
    let words = told(1, &[(0, 1001), (6, 0)]);
    assert!(words.contains("16 (weights) at 64") && words.contains("weight entry 0, which is (0, 1001)"), "{words}");
    let words = told(2, &[(6, 0), (5, 7), (6, 0)]);
    assert!(words.contains("17 (rise) at 65"), "{words}");
    assert!(words.contains("line 1: rule 2, start@r4 -> start@r7, puts start!c0, raises its sum"), "{words}");
    assert!(words.contains("start!c0 weighs 7"), "{words}");
    let words = told(2, &[(0, 1), (6, 0), (6, 0)]);
    assert!(words.contains("18 (light) at 26"), "{words}");
    assert!(words.contains("line 0 weighs it 0 and the start 1, line 1 weighs it 0 and the"), "{words}");
    let behind = [&bytes(&weighed(1, &LINE))[..], &[0]].concat();
    let words = explain(&behind, 16_384, None).1;
    assert!(words.contains("1 (length) at 74") && words.contains("the last part ends here"), "{words}");
}
