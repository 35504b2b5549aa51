//! (viii) of 02: letters two deep.

use common::{bytes, path, verdict};
use oracle::explain::explain;
use oracle::fuzz::compare::Cases;
use oracle::fuzz::letters;
use oracle::limits::{COUNTERS, Limits, PLENTY, PRESENT};
use oracle::message;
use oracle::run::{Wanted, show};
use oracle::stress;
use oracle::symbols::Symbols;
use oracle::text::assemble::assemble;
use oracle::text::disassemble::disassemble;
use oracle::text::words::Words;
use oracle::verify::{Read, inspect, verify, verify_within};
use std::time::Instant;

mod common;

/// Counters and rules of a station's message in the words of `disassemble`.
struct Told {
    letters: Vec<String>,
    rules: Vec<String>,
}

impl Told {
    /// What the rules of a state read, one list for each branch that reads anything.
    fn read(&self) -> Vec<&str> {
        self.rules.iter().filter_map(|rule| rule.split("reads start!").nth(1)).collect()
    }
}

fn told(text: &str) -> Told {
    let message = assemble(text).unwrap().message;
    told_of(&message)
}

fn told_of(message: &[u8]) -> Told {
    let mut read = Read::default();
    inspect(message, &mut read).unwrap();
    let (program, tables, system) = (read.program.unwrap(), read.tables.unwrap(), read.system.unwrap());
    let symbols = Symbols::new(&program);
    let letters = (system.states..system.counters()).map(|i| symbols.counter(&tables, &system, i)).collect();
    let rules = system.rules.iter().map(|rule| symbols.rule(&tables, &system, rule)).collect();
    Told { letters, rules }
}

const NEVER: &str = "bad none: start holds function.";

/// c0 is a, c1 is b, c2 is pair.
#[test]
fn each_argument_by_its_name_alone() {
    let text = "constructors a/0, b/0, pair/2. function twice(To, X) -> To ! pair(X, X).
        start -> Me = self(), twice(Me, a), twice(Me, b).";
    let told = told(&format!("{text} {NEVER}"));
    assert_eq!(told.letters, ["start!c2(c0,c0)", "start!c2(c0,c1)", "start!c2(c1,c0)", "start!c2(c1,c1)"]);
}

/// Constructors by number, then heads from the left, functions before addresses; addresses alone come last.
#[test]
fn letters_are_in_order() {
    let text = "constructors box/1, a/0. function f() -> a.
        start -> Me = self(), Me ! Me, Me ! a, Me ! box(Me), Me ! box(f), Me ! box(a), Me ! box(box(a)).";
    let told = told(&format!("{text} {NEVER}"));
    let heads = ["c0(c0)", "c0(c1)", "c0(function)", "c0(address)", "c1", "address"];
    assert_eq!(told.letters, heads.map(|letter| format!("start!{letter}")));
}

#[test]
fn a_branch_reads_by_one_row() {
    let text = "constructors gauge/0, pump/0, pair/2.
        start -> Me = self(), Me ! pair(gauge, Me), Me ! pair(pump, pump),
            receive pair(gauge, pump) -> Me; pair(gauge, _) -> Me; pair(_, X) -> X end.";
    let told = told(&format!("{text} {NEVER}"));
    assert_eq!(told.read(), ["c2(c0,address)", "c2(c0,address)", "c2(c1,c1)"]);
}

#[test]
fn a_held_name_selects_heads_below_and_takes_all_at_the_top() {
    let text = "constructors a/0, b/0, box/1. function send(To, X) -> To ! box(X).
        start -> Me = self(), A = a, Box = box(A), send(Me, A), send(Me, b),
            receive box(^A) -> Me; ^Box -> Me; ^A -> Me; box(^Me) -> Me end.";
    let told = told(&format!("{text} {NEVER}"));
    assert_eq!(told.read(), ["c2(c0)", "c2(c0)", "c2(c1)"]);
}

/// What lies two below is looked at by the pattern, and not told apart by the letter.
#[test]
fn patterns_go_deeper_than_letters() {
    let text = "constructors a/0, b/0, box/1. function send(To, X) -> To ! box(box(X)).
        start -> Me = self(), send(Me, a), receive box(box(b)) -> Me; box(box(a)) -> Me; box(a) -> Me end.";
    assert_eq!(told(&format!("{text} {NEVER}")).read(), ["c2(c2)"]);
}

/// The rows of the bads of a text.
fn bad_rows(text: &str) -> Vec<(usize, usize)> {
    let m = message::read(&assemble(text).unwrap().message).unwrap();
    (0..m.bad_rows.len()).map(|i| m.bad_rows.pair(i)).collect()
}

const LEVEL: &str = "constructors gauge/0, pair/2. start -> Me = self(), Me ! pair(gauge, Me).";

#[test]
fn a_bad_names_the_heads_of_all_arguments_or_none() {
    let bad = |item: &str| format!("{LEVEL} bad b: start holds {item} >= 2.");
    let rows = |item: &str| bad_rows(&bad(item))[1..].to_vec();
    assert_eq!(rows("pair"), [(42, 1), (43, 2), (44, 0)]);
    assert_eq!(rows("pair(gauge, address)"), [(42, 1), (45, 0), (45, 3), (43, 2), (44, 0)]);
    assert_eq!(rows("pair(function,pair)"), [(42, 1), (45, 2), (45, 1), (43, 2), (44, 0)]);
    let refused = |item: &str| assemble(&bad(item)).err().unwrap_or_default();
    assert!(
        refused("pair(gauge)").contains("pair has 2 arguments, and 1 head stands there"),
        "{}",
        refused("pair(gauge)")
    );
    assert!(refused("gauge(gauge)").contains("gauge has 0 arguments"), "{}", refused("gauge(gauge)"));
    assert!(refused("pair()").contains("pair has 2 arguments, and 0 heads stand there"), "{}", refused("pair()"));
    assert!(refused("address(gauge)").contains("has 0 arguments"), "{}", refused("address(gauge)"));
    assert!(refused("pair(gauge, level)").contains("no constructor level"), "{}", refused("pair(gauge, level)"));
    let text = disassemble(&assemble(&bad("pair(gauge, address)")).unwrap().message).unwrap();
    assert!(text.contains("bad b0: start holds c1(c0,address) >= 2."), "{text}");
    assert_eq!(bad_rows(&text), bad_rows(&bad("pair(gauge, address)")));
}

/// A message whose bads are these rows behind the class; C is 2, the arity of constructor 1 is 2.
fn with_bad(rows: &[(u16, u16)]) -> (u32, usize) {
    let text = format!("{LEVEL} {NEVER} evidence ceilings.");
    let mut m = message::read(&assemble(&text).unwrap().message).unwrap();
    m.bad_rows.first = [40].into_iter().chain(rows.iter().map(|row| row.0)).collect();
    m.bad_rows.second = [m.rows as u16].into_iter().chain(rows.iter().map(|row| row.1)).collect();
    let (number, place) = verdict(&bytes(&message::write(&m)));
    (number, place.saturating_sub(m.bad_rows.at))
}

/// 6 at the first row that does not fit, counted from the class.
#[test]
fn heads_in_bads_have_their_form() {
    let end = [(43, 2), (44, 0)];
    let of = |rows: &[(u16, u16)]| with_bad(&[rows, &end].concat());
    assert_eq!(of(&[(42, 1)]).0, 0);
    assert_eq!(of(&[(42, 1), (45, 0), (45, 3)]).0, 0);
    assert_eq!(of(&[(42, 1), (45, 0)]), (6, 3));
    assert_eq!(of(&[(42, 1), (45, 0), (45, 3), (45, 3)]), (6, 4));
    assert_eq!(of(&[(42, 1), (45, 0), (45, 4)]), (6, 3));
    assert_eq!(of(&[(42, 1), (45, 4), (45, 0)]), (6, 2));
    for kind in [0, 2, 3] {
        assert_eq!(of(&[(42, kind)]).0, 0);
        assert_eq!(of(&[(42, kind), (45, 0)]), (6, 2));
    }
    assert_eq!(of(&[(45, 0)]), (6, 1));
    assert_eq!(of(&[(41, 2), (45, 0)]), (6, 2));
    assert_eq!(with_bad(&[(42, 1), (43, 2), (45, 0), (44, 0)]), (6, 3));
    assert_eq!(with_bad(&[(42, 1), (45, 0), (45, 0)]), (6, 4));
}

#[test]
fn a_bad_that_names_heads_is_told_by_their_names() {
    let station = std::fs::read_to_string(path("examples/two-sources.station")).unwrap();
    let every = station.replace("holds level(gauge)", "holds level");
    assert_ne!(station, every);
    let refused = assemble(&every).unwrap().message;
    let words = explain(&refused, 16_384, Some(&Words::read(&every).unwrap())).1;
    assert!(words.contains("12 (met)"), "{words}");
    assert!(words.contains("start holds level >= 2; ceiling 0 allows it: start!level(gauge)<="), "{words}");
    let safe = assemble(&station).unwrap().message;
    let wanted = Wanted { numbers: [vec![0; 7], vec![2; 6]].concat(), random: 0, seed: 0 };
    let shown = show(&safe, Some(&Words::read(&station).unwrap()), &wanted).unwrap().text;
    assert!(shown.contains("puts start!level(pump)\n"), "{shown}");
    assert!(shown.contains("start!level(pump)=1"), "{shown}");
}

#[test]
fn too_many_letters_are_told_with_the_message_that_has_most() {
    let over = std::fs::read(path("examples/hostile/letters-over.msg")).unwrap();
    let words = explain(&over, 16_384, None).1;
    assert!(words.contains("more than 1024 counters; c0 built at r"), "{words}");
    assert!(words.contains("alone has 992"), "{words}");
}

/// Each of them alone may come to its minimum without the bad that asks for the other.
#[test]
fn a_bad_on_one_source_alone() {
    let station = std::fs::read_to_string(path("examples/two-sources.station")).unwrap();
    let number = |item: &str| verdict(&assemble(&station.replace("level(gauge) >= 2", item)).unwrap().message).0;
    assert_eq!(number("level(gauge) >= 2"), 0);
    assert_eq!(number("level(gauge) >= 1"), 12);
    assert_eq!(number("level(pump) >= 2"), 12);
    assert_eq!(number("level(poll) >= 1"), 0);
    assert_eq!(number("level >= 2"), 12);
}

/// Letters are counted and not listed where they are too many, and where one argument has no value.
#[test]
fn many_letters_are_settled_at_once() {
    let samples = stress::letters::hostile().unwrap();
    for name in ["letters-product", "letters-none", "letters-all", "letters-over"] {
        let hostile = samples.iter().find(|hostile| hostile.name == name).unwrap();
        let mut lent = vec![0; PLENTY];
        let begin = Instant::now();
        assert_eq!(verify(&hostile.message, &mut lent).number, hostile.verdict, "{name}");
        assert!(begin.elapsed().as_millis() < 100, "{name}: {:?}", begin.elapsed());
    }
}

/// Random messages have so many counters, most of them letters of several heads.
fn exactly(message: &[u8], counters: usize) -> bool {
    let number = |counters| verify_within(message, &mut [], &Limits { counters, ..PRESENT }).number;
    number(counters) != 9 && number(counters - 1) == 9
}

#[test]
fn random_messages_have_letters_up_to_the_limit_and_just_past_it() {
    let mut cases = Cases::new(88);
    let (mut most, mut over, mut several, mut named) = (0, 0, 0, 0);
    for _ in 0..6_000 {
        let message = cases.next_case().message;
        let Ok(m) = message::read(&message) else { continue };
        named += usize::from(letters::named(&m));
        if letters::several(&m) {
            several += 1;
            most += usize::from(exactly(&message, COUNTERS));
            over += usize::from(exactly(&message, COUNTERS + 1));
        }
    }
    assert!(several > 750 && named > 750, "{several} with several heads, {named} with heads in bads");
    assert!(most > 3 && over > 3, "{most} with 1,024 counters, {over} with 1,025");
}
