//! How a station runs, by small stations in text.

use oracle::letters::Letter;
use oracle::machine::{Deed, Idle, Machine};
use oracle::program::Program;
use oracle::text::assemble::assemble;
use oracle::{message, reader};

fn program(text: &str) -> Program {
    let text = format!("constructors a/0, b/0, box/1. {text} bad none: start holds address >= 65535.");
    let assembled = assemble(&text).expect("a station");
    reader::read(&message::read(&assembled.message).expect("a message")).expect("a program")
}

/// Steps process 0 until it no longer can; the deeds and why it rests.
fn run(text: &str) -> (Vec<Deed>, Idle) {
    let program = program(text);
    let mut machine = Machine::new(&program);
    let mut deeds = Vec::new();
    for _ in 0..1000 {
        match machine.step(0) {
            Ok(step) => deeds.push(step.deed),
            Err(idle) => return (deeds, idle),
        }
    }
    (deeds, Idle::Waiting)
}

fn stopped(text: &str) -> bool {
    matches!(run(text).1, Idle::Stopped(_))
}

/// The letter of the value that process 0 gives back when it ends.
fn ends_with_branch(text: &str) -> Vec<Deed> {
    let (deeds, idle) = run(text);
    assert_eq!(idle, Idle::Ended);
    deeds
}

#[test]
fn the_earliest_message_that_any_branch_matches() {
    let deeds = ends_with_branch("start -> Me = self(), Me ! a, Me ! b, Me ! box(a), receive box(_) -> a; b -> a end.");
    let reads: Vec<&Deed> = deeds.iter().filter(|d| matches!(d, Deed::Read { .. })).collect();
    assert_eq!(reads, [&Deed::Read { letter: Letter::new(1, []) }]);
}

#[test]
fn the_first_branch_that_matches() {
    let text = "start -> case box(a) of box(b) -> self(); X -> X; box(_) -> self() end.";
    let (deeds, idle) = run(text);
    assert_eq!((deeds.len(), idle), (3, Idle::Ended));
}

#[test]
fn a_message_that_no_branch_matches_stays() {
    let program = program("start -> Me = self(), Me ! a, receive b -> a end.");
    let mut machine = Machine::new(&program);
    while machine.step(0).is_ok() {}
    assert_eq!(machine.step(0), Err(Idle::Waiting));
    assert_eq!(machine.processes[0].mailbox.len(), 1);
}

#[test]
fn what_stops_a_process() {
    assert!(stopped("start -> a ! b."));
    assert!(stopped("start -> F = a, F()."));
    assert!(stopped("function f(X) -> X. start -> f()."));
    assert!(stopped("function f(X) -> X. start -> spawn(f)."));
    assert!(stopped("start -> spawn(a)."));
    assert!(stopped("start -> case a of b -> a end."));
}

#[test]
fn a_function_value_keeps_its_bindings() {
    let text = "function keep(X) -> fun() -> X end. start -> F = keep(a), keep(b), case F() of a -> self() end.";
    assert_eq!(run(text).1, Idle::Ended);
}

#[test]
fn a_call_comes_back_to_its_own_bindings() {
    let text = "function deep(X, N) -> case N of box(M) -> deep(b, M), X; a -> X end.
                start -> case deep(a, box(box(a))) of a -> self() end.";
    assert_eq!(run(text).1, Idle::Ended);
}

#[test]
fn spawned_processes_are_numbered_and_start_with_nothing_pushed() {
    let program = program("function child() -> a. start -> P = spawn(child), Q = spawn(child), P ! b, Q.");
    let mut machine = Machine::new(&program);
    assert_eq!(machine.step(1), Err(Idle::NoProcess));
    assert!(matches!(machine.step(0).map(|s| s.deed), Ok(Deed::New { process: 1, .. })));
    assert!(matches!(machine.step(0).map(|s| s.deed), Ok(Deed::New { process: 2, .. })));
    assert!(machine.step(1).is_ok());
    assert_eq!(machine.step(1), Err(Idle::Ended));
    assert!(machine.step(0).is_ok());
    assert!(matches!(
        machine.step(0).map(|s| s.deed),
        Ok(Deed::Put { process: 1, letter: Letter { kind: 1, .. }, .. })
    ));
    assert_eq!(machine.processes[1].mailbox.len(), 1);
}

#[test]
fn letters_of_functions_and_addresses() {
    let deeds = ends_with_branch("start -> Me = self(), Me ! Me, Me ! fun() -> a end, a.");
    assert_eq!(letters(&deeds), [Letter::new(4, []), Letter::new(3, [])]);
}

fn letters(deeds: &[Deed]) -> Vec<Letter> {
    deeds.iter().filter_map(|d| if let Deed::Put { letter, .. } = d { Some(*letter) } else { None }).collect()
}

/// A letter has the heads of its arguments, and no more: what lies below them is not told apart.
#[test]
fn letters_are_two_deep() {
    let put = |message: &str| {
        let (deeds, _) = run(&format!("function f() -> a. start -> Me = self(), Me ! {message}."));
        letters(&deeds)
    };
    assert_eq!(put("box(a)"), [Letter::new(2, [0])]);
    assert_eq!(put("box(b)"), [Letter::new(2, [1])]);
    assert_eq!(put("box(box(a))"), [Letter::new(2, [2])]);
    assert_eq!(put("box(f)"), [Letter::new(2, [3])]);
    assert_eq!(put("box(Me)"), [Letter::new(2, [4])]);
}

#[test]
fn a_held_name_matches_what_is_equal_to_what_it_holds() {
    let ended = |text: &str| ends_with_branch(text).len();
    assert_eq!(ended("start -> X = box(a), case box(a) of ^X -> X; _ -> self() end."), 5);
    assert_eq!(ended("start -> X = box(a), case box(b) of ^X -> X; _ -> self() end."), 6);
    assert_eq!(ended("start -> X = self(), case self() of ^X -> X; _ -> a end."), 3);
    assert_eq!(ended("start -> X = @w spawn(fun() -> a end), case self() of ^X -> X; _ -> a end."), 5);
    assert_eq!(ended("start -> X = self(), Y = box(X), case box(X) of box(^X) -> Y; _ -> a end."), 4);
}

#[test]
fn functions_and_what_holds_one_are_equal_to_nothing() {
    // The other branch has a step more.
    let texts =
        [("F = fun() -> a end, X = F, case F of ^F", 3), ("X = box(f), case X of ^X", 3), ("X = f, case X of ^f", 2)];
    for (text, steps) in texts {
        let text = format!("function f() -> a. start -> {text} -> X; _ -> self() end.");
        assert_eq!(ends_with_branch(&text).len(), steps, "{text}");
    }
}

/// Values share their parts: two trees of 2^60 leaves are compared at once.
#[test]
fn equality_does_not_walk_trees() {
    let grow = |name: &str| {
        let steps = (1..=60).map(|i| format!("{name}{i} = pair({name}{}, {name}{})", i - 1, i - 1));
        format!("{name}0 = a, {}", steps.collect::<Vec<_>>().join(", "))
    };
    let text = format!(
        "constructors a/0, pair/2. start -> {}, {}, case X60 of ^Y60 -> X0; _ -> self() end.
         bad none: start holds address >= 65535.",
        grow("X"),
        grow("Y")
    );
    let assembled = assemble(&text).expect("a station");
    let program = reader::read(&message::read(&assembled.message).expect("a message")).expect("a program");
    let mut machine = Machine::new(&program);
    let mut steps = 0;
    while machine.step(0).is_ok() {
        steps += 1;
    }
    assert_eq!(steps, 2 * 61 + 1);
}
