//! (iv) of 02: states know their return.

use common::{bytes, path, station_a, verdict};
use oracle::explain::explain;
use oracle::fuzz::returns;
use oracle::machine::Machine;
use oracle::message::{self, Message};
use oracle::reader;
use oracle::run::{Wanted, show};
use oracle::text::assemble::assemble;
use oracle::text::disassemble::disassemble;

mod common;

fn routine() -> Message {
    message::read(&std::fs::read(path("examples/shared-routine.msg")).unwrap()).unwrap()
}

fn of(m: &Message) -> (u32, usize) {
    verdict(&bytes(&message::write(m)))
}

/// The third numbers of a class's states at a head.
fn thirds(m: &Message, class: usize, head: usize) -> Vec<u16> {
    let here = |i: &usize| m.tables.pair(m.flow + m.mail + i) == (class, head);
    (0..m.states).filter(here).map(|i| m.returns[i]).collect()
}

#[test]
fn a_routine_has_its_places_once_for_each_call() {
    let m = routine();
    let calls: Vec<u16> = (0..m.rows as u16).filter(|&row| m.program.first[row as usize] == 4).collect();
    assert_eq!(calls.len(), 3, "the pump's of itself and two of the routine");
    let places = returns::shared(&m);
    assert_eq!(places.len(), 4, "two of the pump and two of the routine");
    let (class, head) = m.tables.pair(m.flow + m.mail + places[2].start);
    assert_eq!((class, thirds(&m, class, head)), (m.rows, calls[1..].to_vec()));
    assert_eq!(of(&m), (0, 0));
}

/// Each state of the routine is wanted with either call, and blamed where it lacks what comes behind that call.
#[test]
fn no_triple_may_be_missing() {
    let whole = routine();
    for state in 0..whole.states {
        let mut m = whole.clone();
        m.tables.first.remove(m.flow + m.mail + state);
        m.tables.second.remove(m.flow + m.mail + state);
        m.returns.remove(state);
        m.states -= 1;
        assert_eq!(of(&m).0, 8, "without state {state}");
    }
}

#[test]
fn a_wrong_third_number_is_told_with_the_others() {
    let mut a = station_a();
    a[57] = 4;
    let words = explain(&bytes(&a), 16_384, None).1;
    assert!(words.contains("7 (entry) at 43"), "{words}");
    assert!(words.contains("entry 6, which is (10, 4, 4) of the tables, in the list of states"), "{words}");
    assert!(words.contains("a state entry (class, head, call row or R)"), "{words}");
}

#[test]
fn a_state_that_lacks_one_is_told_with_its_return() {
    let mut m = routine();
    let state = (0..m.states).find(|&i| m.tables.pair(m.flow + m.mail + i).0 == m.rows).unwrap();
    let back = m.returns[state];
    m.tables.first.remove(m.flow + m.mail + state);
    m.tables.second.remove(m.flow + m.mail + state);
    m.returns.remove(state);
    m.states -= 1;
    let words = explain(&bytes(&message::write(&m)), 16_384, None).1;
    assert!(words.contains(&format!("returns to r{back}")), "{words}");
}

#[test]
fn the_text_of_a_message_and_its_run_tell_the_returns() {
    let bytes = std::fs::read(path("examples/shared-routine.msg")).unwrap();
    let text = disassemble(&bytes).unwrap();
    assert!(text.contains("%   4: start at r6 [N3 = N1 ! N2], returns to r22\n"), "{text}");
    assert!(text.contains("start@r9>r29 -> start@r34"), "{text}");
    let wanted = Wanted { numbers: vec![0; 4], random: 0, seed: 0 };
    let shown = show(&bytes, None, &wanted).unwrap().text;
    assert!(shown.contains("start@r6>r22 -> start@r9>r22, puts r18!c0"), "{shown}");
}

/// A process counts under the call that is pushed last; giving back brings the one below it back.
#[test]
fn a_process_will_return_to_the_call_pushed_last() {
    let text = "constructors a/0. function inner(X) -> X. function outer(Y) -> inner(Y).
        start -> A = outer(a), outer(A). bad b: start holds a.";
    let m = message::read(&assemble(text).unwrap().message).unwrap();
    let program = reader::read(&m).unwrap();
    let mut machine = Machine::new(&program);
    let mut backs = vec![machine.state(&machine.processes[0]).back];
    while let Ok(step) = machine.step(0) {
        assert_eq!(machine.state(&machine.processes[0]), step.to);
        backs.push(step.to.back);
    }
    let calls: Vec<usize> = (0..m.rows).filter(|&row| m.program.first[row] == 4).collect();
    let [inner, first, second] = calls[..] else { panic!("three calls") };
    let none = m.rows;
    assert_eq!(backs, [none, none, first, inner, first, none, second, inner, second, none]);
}
