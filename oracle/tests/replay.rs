//! What `assemble` says of a bad that the counters meet, and what it warns of.

mod common;

use common::path;
use oracle::counters::meets;
use oracle::explore::{Limits, Net, fewest, meet};
use oracle::machine::Machine;
use oracle::replay::{Derived, Judged, Search, follow, judge, search};
use oracle::text::assemble::{assemble, assemble_within};
use oracle::verify::{Read, inspect};
use oracle::{evidence, message};

/// The notes of a station, one text.
fn notes(text: &str) -> String {
    assemble(text).expect("a station").notes.join("\n")
}

/// All that was read of a station's message.
fn read(text: &str) -> Read {
    let mut read = Read::default();
    let _ = inspect(&assemble(text).expect("a station").message, &mut read);
    read
}

/// What is known of the station, and the counters of its first bad.
fn derived(read: &Read) -> (Derived<'_>, Vec<oracle::bounds::Sum>) {
    let (program, tables, system) = (read.program.as_ref(), read.tables.as_ref(), read.system.as_ref());
    let derived = Derived { program: program.unwrap(), tables: tables.unwrap(), system: system.unwrap() };
    let bad = &read.bads.as_ref().unwrap()[0];
    let items = oracle::bounds::bad_sums(derived.tables, derived.system, bad);
    (derived, items.expect("counters"))
}

/// True if these numbers are a run that meets the station's first bad, each of them a step.
fn is_a_run(read: &Read, numbers: &[usize]) -> bool {
    let mut machine = Machine::new(read.program.as_ref().unwrap());
    let steps = numbers.iter().all(|&number| machine.step(number).is_ok());
    steps && meets(&machine, &read.bads.as_ref().unwrap()[0])
}

/// The numbers behind "a run of the station meets it: " in the notes.
fn told_numbers(notes: &str) -> Vec<usize> {
    let behind = notes.split("a run of the station meets it: ").nth(1).expect("a run");
    behind.lines().next().unwrap().split(' ').map(|number| number.parse().unwrap()).collect()
}

/// A branch that the counters take and no run does.
const COARSE: &str = "constructors on/0, off/0.
    start ->
        X = on,
        case X of
            on -> X;
            _ -> @wrong X
        end.
    bad never: start at wrong.";

/// As the example `false-alarm`, but two senders: either may be first.
const RACE: &str = "constructors a/0, b/0.
    start ->
        Me = self(),
        @one spawn(fun() -> Me ! a, @sent a end),
        @two spawn(fun() -> Me ! b end),
        receive
            a -> a;
            b -> @early b
        end.
    bad early: start at early and one at sent.";

/// A loop that is left, and a place behind it.
const LEFT: &str = "constructors more/0, stop/0, done/0.
    function loop(P) ->
        receive
            more -> loop(P);
            stop -> P
        end.
    start ->
        Me = self(),
        Me ! more, Me ! more, Me ! more, Me ! stop,
        loop(Me),
        @after done.
    bad after: start at after.";

#[test]
fn a_true_alarm_comes_with_a_run_of_the_station() {
    let text = std::fs::read_to_string(path("examples/overflow.station")).unwrap();
    let notes = notes(&text);
    assert!(notes.contains("bad `overflow`: a run of the station meets it: 0 0 0"), "{notes}");
    assert!(notes.contains("puts item into the mailbox of process 1"), "{notes}");
    assert!(is_a_run(&read(&text), &told_numbers(&notes)), "{notes}");
    assert!(!assemble(&text).unwrap().safe);
}

#[test]
fn a_false_alarm_is_told_with_the_place_where_they_part() {
    let notes = notes(COARSE);
    assert!(notes.contains("bad `never`: only the counters meet it: the evidence is too coarse here"), "{notes}");
    assert!(notes.contains("here, at step 2, they part: process 0: start at r4 [line 4: case X] -> r7"), "{notes}");
    assert!(notes.contains("all 3 states that the station can reach were tried"), "{notes}");
    assert!(notes.contains("refused: 12 met, word 26, bad `never`"), "{notes}");
}

#[test]
fn the_order_of_a_mailbox_tells_a_false_alarm_from_a_true_one() {
    let order = notes(&std::fs::read_to_string(path("examples/false-alarm.station")).unwrap());
    assert!(order.contains("bad `early`: only the counters meet it: the evidence is too coarse here"), "{order}");
    assert!(order.contains("they part: process 0") && order.contains("takes first from its mailbox"), "{order}");
    assert!(is_a_run(&read(RACE), &told_numbers(&notes(RACE))), "{}", notes(RACE));
}

#[test]
fn where_a_run_of_the_counters_cannot_be_followed_another_is_looked_for() {
    let read = read(RACE);
    let (derived, items) = derived(&read);
    // The sender of `a` first, then that of `b`: the counters may take `b` all the same, the station takes `a`.
    let mut machine = Machine::new(derived.program);
    let step = |machine: &mut Machine, number: usize| {
        let step = machine.step(number).expect("a step");
        oracle::counters::rule_of(&step, derived.tables, derived.system).expect("a rule")
    };
    let mut rules: Vec<usize> = [0, 0, 0, 0, 0, 1, 1, 2, 2].iter().map(|&n| step(&mut machine, n)).collect();
    let early = derived.tables.states_at(derived.program.rows, items_head(&read)).start;
    rules.push(derived.system.rules.iter().position(|rule| rule.to == early).expect("a rule"));
    let parting = follow(derived, &rules, 1000).expect_err("they part").expect("a place");
    assert_eq!((parting.followed, parting.instead.len()), (9, 1));
    match judge(derived, &items, &rules, true, 1000) {
        Judged::Run(numbers) => assert!(is_a_run(&read, &numbers), "{numbers:?}"),
        other => panic!("{other:?}"),
    }
}

/// The head of the first item of the first bad.
fn items_head(read: &Read) -> usize {
    match read.bads.as_ref().unwrap()[0].items[0].place {
        oracle::bads::Place::Head(head) => head,
        oracle::bads::Place::Kind(kind) => kind,
        oracle::bads::Place::Letter(letter) => letter.kind,
    }
}

#[test]
fn a_loop_is_searched_once_and_left_as_often_as_it_was_entered() {
    let read = read(LEFT);
    let (derived, items) = derived(&read);
    match search(derived, &items, 1000) {
        Search::Run(numbers) => assert!(is_a_run(&read, &numbers), "{numbers:?}"),
        other => panic!("{other:?}"),
    }
}

#[test]
fn what_was_not_tried_is_not_said() {
    let mutual = "constructors on/0, go/0.
        function ping(X) -> case X of on -> self() ! go, receive go -> pong(X) end; _ -> @wrong X end.
        function pong(X) -> ping(X).
        start -> ping(on).
        bad never: start at wrong.";
    let notes = assemble_within(mutual, 500).unwrap().notes.join("\n");
    assert!(notes.contains("the counters meet it, but no run of the station was found that does"), "{notes}");
    assert!(notes.contains("501 states of the station were tried"), "{notes}");
    assert!(!notes.contains("only the counters meet it"), "{notes}");
}

#[test]
fn a_long_run_is_followed_to_its_end() {
    let text = std::fs::read_to_string(path("examples/overflow.station")).unwrap().replace(">= 10", ">= 20000");
    let notes = notes(&text);
    assert!(notes.contains("a run of the station meets it: 0*60001\n"), "{}", notes.lines().next().unwrap());
}

#[test]
fn ceilings_are_told_for_each_bad_and_for_all() {
    let text = std::fs::read_to_string(path("examples/pool.station")).unwrap();
    let notes = notes(&text);
    assert!(notes.contains("bad `two_working`: 9 ceilings found for it alone"), "{notes}");
    assert!(notes.contains("safe: 25 ceilings with 86 entries found"), "{notes}");
    assert!(!notes.contains("needed"), "{notes}");
}

#[test]
fn a_small_budget_finds_less_and_says_so() {
    let text = std::fs::read_to_string(path("examples/pool.station")).unwrap();
    let assembled = assemble_within(&text, 10).unwrap();
    assert!(!assembled.safe);
    assert!(assembled.notes.concat().contains("10 sets of counts were tried (`--budget N` tries more)"));
}

#[test]
fn a_bad_is_named_as_the_verifier_names_it() {
    let text = format!("{COARSE} bad second: start at wrong.")
        .replace("bad never: start at wrong", "bad first: start holds on");
    let notes = notes(&text);
    assert!(notes.contains("warning: bad `first` is never met: `start holds on >= 1` has no counter"), "{notes}");
    assert!(notes.contains("bad `second`: only the counters meet it"), "{notes}");
    assert!(notes.contains("refused: 12 met, word 30, bad `second`"), "{notes}");
}

#[test]
fn what_an_author_should_look_at() {
    let text = "constructors a/0, b/0, c/1.
        function f(X) -> X.
        start ->
            Y = case a of
                b -> a;
                a -> b;
                Z -> Z;
                a -> a
            end,
            f(Y, Y),
            a.
        bad never: start holds c.";
    let notes = notes(text);
    assert!(notes.contains("line 10: N9 = f(Y, Y)] can't step: f is no function with 2 parameters"), "{notes}");
    assert!(notes.contains("line 5: branch `b` is never taken: no value that comes here matches it"), "{notes}");
    assert!(notes.contains("line 8: branch `a` is never taken: a branch before it takes everything"), "{notes}");
    assert!(!notes.contains("line 6: branch"), "{notes}");
    for (stuck, why) in [
        ("a ! b", "is no process"),
        ("spawn(a)", "is no function without parameters"),
        ("case a of b -> a end", "no branch matches"),
    ] {
        let notes = self::notes(&format!("constructors a/0, b/0. start -> {stuck}. bad never: start holds a."));
        assert!(notes.contains("can't step: ") && notes.contains(why), "{notes}");
    }
}

#[test]
fn a_give_back_or_a_receive_where_nothing_comes_is_no_warning() {
    let notes = notes("constructors a/0. start -> receive a -> a end. bad never: start holds address >= 2.");
    assert!(!notes.contains("can't step"), "{notes}");
    assert!(notes.contains("branch `a` is never taken"), "{notes}");
}

/// The verdicts with the ceilings that each bad of an example has alone, and with what these make together.
fn verdicts_alone_and_together(name: &str) -> (Vec<u32>, u32) {
    let read = read(&std::fs::read_to_string(path(&format!("examples/{name}.station"))).unwrap());
    let (Derived { program, tables, system }, _) = derived(&read);
    let start = tables.state(program.opening()).unwrap();
    let bads = read.bads.as_ref().unwrap().iter();
    let items = bads.filter_map(|bad| oracle::bounds::bad_sums(tables, system, bad));
    let alone = items.map(|items| fewest(&Net { system, start, bads: &[Some(items)] }, 5000).expect("ceilings"));
    let alone: Vec<Vec<Limits>> = alone.collect();
    let verdict = |limits: &[Limits]| {
        let mut m = read.message.clone().unwrap();
        evidence::put_bounds(&mut m, limits);
        common::verdict(&message::to_bytes(&message::write(&m))).0
    };
    let together = alone.iter().cloned().reduce(|all, more| meet(&all, &more).expect("not too many")).unwrap();
    (alone.iter().map(|limits| verdict(limits)).collect(), verdict(&together))
}

#[test]
fn ceilings_that_each_bad_has_alone_make_ceilings_for_all() {
    assert_eq!(verdicts_alone_and_together("resource-manager"), (vec![12; 4], 0));
    assert_eq!(verdicts_alone_and_together("pool"), (vec![12, 0, 12], 0));
}
