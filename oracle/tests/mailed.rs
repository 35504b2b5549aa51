//! (x): functions by mail retired. Refusal 22, what is said of it, and that no mailbox of a safe message's run directly
//! holds a function.

mod common;

use common::{path, verdict};
use oracle::bounds::Bounds;
use oracle::counters::{Beside, Safe, check_demand_3, holds_function};
use oracle::explain::{explain, trade_word};
use oracle::fuzz::compare::Cases;
use oracle::least::least;
use oracle::limits::{COUNTERS, UNBOUNDED};
use oracle::machine::Machine;
use oracle::message::{self, Message};
use oracle::run::{Wanted, show};
use oracle::set::Set;
use oracle::text::assemble::assemble;
use oracle::text::words::Words;
use oracle::verify::verify;
use oracle::{evidence, naive, reader};

const SENT: &str = "constructors a/0, box/1.
    function f() -> f.
    start ->
        Me = self(),
        Me ! a,
        Me ! fun() -> Me end,
        receive a -> a end.
    bad two: start holds a >= 2.";

fn assembled(text: &str) -> Vec<u8> {
    assemble(text).unwrap().message
}

/// The same text with this message in the place of the function.
fn sent(value: &str) -> Vec<u8> {
    assembled(&SENT.replace("fun() -> Me end", value))
}

/// Mail entries whose value has tag 3 or 11.
fn functions_in_mail(m: &Message) -> Vec<usize> {
    let function = |&i: &usize| {
        let value = m.tables.pair(i).1;
        value < m.rows && [3, 11].contains(&m.program.pair(value).0)
    };
    (m.flow..m.flow + m.mail).filter(function).collect()
}

#[test]
fn the_place_is_the_first_such_entrys_first_column() {
    for (value, entry) in [("fun() -> Me end", 1), ("f", 0)] {
        let message = sent(value);
        let m = message::read(&message).unwrap();
        assert_eq!(functions_in_mail(&m), [m.flow + entry]);
        assert_eq!(verdict(&message), (22, m.tables.at + m.flow + entry), "{value}");
        assert_eq!(naive::verify(&message, &mut []).place, m.tables.at + m.flow + entry, "{value}");
    }
    assert_eq!(trade_word(22), "function mailed");
}

#[test]
fn a_function_inside_a_constructor_is_no_mail_value() {
    for value in ["box(fun() -> Me end)", "box(f)", "box(box(f))"] {
        assert_eq!(verdict(&sent(value)), (0, 0), "{value}");
    }
}

#[test]
fn the_function_server_sends_none_inside_a_constructor_either() {
    let inside = |message: &[u8]| holds_inside(&message::read(message).unwrap());
    assert!(["box(fun() -> Me end)", "box(f)", "box(box(f))"].iter().all(|value| inside(&sent(value))));
    assert!(!inside(&sent("box(box(a))")));
    let message = std::fs::read(path("examples/function-server.msg")).unwrap();
    assert_eq!(verdict(&message), (0, 0));
    assert!(!inside(&message));
}

#[test]
fn the_author_is_told_the_line_and_the_way_out() {
    let notes = assemble(SENT).unwrap().notes;
    let line = notes.iter().find(|note| note.contains("inside a constructor only")).expect("a warning");
    assert!(line.contains("[line 6: ") && line.contains("function made at") && line.contains("(line 6)"), "{line}");
    assert!(notes.last().is_some_and(|note| note.starts_with("refused: 22 function mailed, word ")), "{notes:?}");
    assert!(notes.iter().all(|note| !note.contains("can't step")), "{notes:?}");
}

#[test]
fn the_value_and_the_send_are_explained() {
    let words = explain(&assembled(SENT), 16_384, Some(&Words::read(SENT).unwrap())).1;
    assert!(words.contains("22 (function mailed) at "), "{words}");
    let words = words.split_whitespace().collect::<Vec<_>>().join(" ");
    assert!(words.contains("a mailbox of start may hold function made at "), "{words}");
    assert!(words.contains("sent by start at ") && words.contains("[line 6: "), "{words}");
}

#[test]
fn an_entry_that_no_send_wants_is_refused_and_explained() {
    let mut m = message::read(&sent("a")).unwrap();
    m.tables.first.insert(m.flow, m.rows as u16);
    m.tables.second.insert(m.flow, 2);
    m.mail += 1;
    let message = message::to_bytes(&message::write(&m));
    assert_eq!(verdict(&message), (22, m.tables.at + m.flow));
    let words = explain(&message, 16_384, None).1;
    assert!(words.contains("may hold function f0") && words.contains("no send puts this one there"), "{words}");
}

#[test]
fn such_a_station_runs_as_before() {
    let message = std::fs::read(path("examples/function-mailed.msg")).unwrap();
    let wanted = Wanted { numbers: vec![0; 6], random: 200, seed: 1 };
    let shown = show(&message, None, &wanted).unwrap();
    let words = shown.text.split_whitespace().collect::<Vec<_>>().join(" ");
    assert!(words.contains("puts function into the mailbox of process 1"), "{words}");
    assert!(!shown.met && shown.text.contains("the station runs alone"), "{}", shown.text);
}

/// The check of runs does not rest on the verdict: a station that was called safe would be found out.
#[test]
fn a_mailbox_with_a_function_is_found_in_a_run() {
    let m = message::read(&assembled(SENT)).unwrap();
    let program = reader::read(&m).unwrap();
    let tables = least(&program);
    let system = evidence::derive(&m, &program, &tables).unwrap();
    assert!(system.letters.iter().all(|&(_, letter)| letter.kind != program.arities.len()), "letter C has a counter");
    let bounds = Bounds { limits: vec![vec![UNBOUNDED; system.counters()]], first: vec![0] };
    let mut beside = Beside::new(&program, &tables, &system, Some(Safe::Bounds(&bounds)), &[]).unwrap();
    assert!(beside.run(&[0; 4]).is_ok());
    assert!(beside.machine.step(0).is_ok());
    assert!(beside.check().is_err_and(|word| word == "a mailbox directly holds a function"));
}

#[test]
fn a_mailbox_with_a_box_holds_none() {
    let message = sent("box(f)");
    let program = reader::read(&message::read(&message).unwrap()).unwrap();
    let mut machine = Machine::new(&program);
    (0..5).for_each(|_| assert!(machine.step(0).is_ok()));
    assert_eq!(machine.processes[0].mailbox.len(), 2);
    assert!(!holds_function(&machine));
    assert!(check_demand_3(&message, &[0; 10]).is_ok());
}

/// What the generator makes: functions that are sent, entries that nothing wants, functions beside too many counters,
/// and safe messages with functions inside constructors.
#[test]
fn random_messages_mail_functions_in_every_way() {
    let mut cases = Cases::new(10);
    let (mut wanted, mut extra, mut over, mut inside) = (0, 0, 0, 0);
    for _ in 0..3000 {
        let case = cases.next_case();
        let number = verify(&case.message, &mut vec![0; case.lent]).number;
        let Ok(m) = message::read(&case.message) else { continue };
        let functions = functions_in_mail(&m).len();
        if number == 22 {
            assert!(functions > 0);
            let sent = !explain(&case.message, case.lent, None).1.contains("no send puts");
            (wanted, extra) = if sent { (wanted + 1, extra) } else { (wanted, extra + 1) };
            over += usize::from(m.states + m.mail - functions > COUNTERS);
        } else if number == 0 {
            assert_eq!(functions, 0);
            inside += usize::from(holds_inside(&m));
        }
    }
    let seen = (wanted, extra, over, inside);
    assert!(wanted >= 50 && extra >= 50 && over >= 3 && inside >= 50, "{seen:?}");
}

/// True if a build in the mail may hold a function, however deep.
fn holds_inside(m: &Message) -> bool {
    let program = reader::read(m).unwrap();
    let tables = oracle::tables::read(m, &program).unwrap();
    let mut left: Vec<usize> = tables.mail_pairs(&program).into_iter().map(|(_, value)| value).collect();
    let mut inside = Set::EMPTY;
    while let Some(value) = left.pop() {
        let args = program.build(value).map_or(&[][..], |(_, args)| args);
        let held = args.iter().flat_map(|&arg| tables.flow[arg].iter());
        left.extend(held.filter(|&value| inside.insert(value)));
    }
    program.functions.iter().any(|f| inside.has(f.row))
}
