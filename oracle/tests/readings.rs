//! The tiny examples of READINGS.md that station A alone does not show.

mod common;

use common::{bytes, verdict};
use oracle::evidence;
use oracle::least;
use oracle::limits::UNBOUNDED;
use oracle::listing::verified;
use oracle::message::{self, Message};
use oracle::program::State;
use oracle::tables::Tables;
use oracle::text::assemble::assemble;

/// The message of a text with these tables in place of the least ones, and one bound over all.
fn with_tables(text: &str, more: impl Fn(&mut Tables)) -> Message {
    let assembled = assemble(text).expect("a station").message;
    let mut m = message::read(&assembled).expect("a message");
    let (program, _) = evidence::read(&m).expect("a program");
    let mut tables = least::least(&program);
    more(&mut tables);
    tables.states.sort_unstable();
    evidence::put_tables(&mut m, &program, &tables).expect("tables");
    let letters = tables.mail.iter().map(|mail| {
        let letters: std::collections::BTreeSet<usize> = mail.iter().map(|v| program.head_of(v)).collect();
        letters.len()
    });
    let counters = tables.states.len() + letters.sum::<usize>();
    evidence::put_bounds(&mut m, &[vec![UNBOUNDED; counters]]);
    m
}

/// A state that returns nowhere, in a program of this many rows.
fn bare_state(rows: usize, head: usize) -> State {
    State { class: rows, head, back: rows }
}

fn of(m: &Message) -> (u32, usize) {
    verdict(&bytes(&message::write(m)))
}

fn text_of(text: &str) -> String {
    verified(&assemble(text).expect("a station").message, 16_384)
}

#[test]
fn from_may_be_to() {
    let text = text_of("function f() -> f(). start -> f(). bad b: start holds address.");
    assert_eq!(text, "0 0\n3 0 3 6\n50 0\n51 0\n50 1\n51 0\n50 2\n51 1\n");
}

#[test]
fn the_new_state_may_be_from() {
    let text = text_of("function f() -> @x spawn(f). start -> spawn(f). bad b: x holds address.");
    assert!(text.starts_with("0 0\n6 0 3 9\n50 0\n51 1\n54 0\n"), "{text}");
}

/// Rows: 0 (10,1); 1 (7,0); 2 (9,1); 3 (30,1); 4 (2,2) 5 (20,0) 6 (21,1); 7 (8,2) 8 (25,1);
/// 9 (31,0) 10 (32,0); 11 (1,0). The receive gets nothing, so name 1 has no value.
const UNFED: &str = "constructors p/1.
    start -> Me = self(), receive X -> Y = p(X), case Y of p(_) -> Me end end.
    bad b: start holds address.";

#[test]
fn an_argument_without_a_value_matches_nothing() {
    let m = with_tables(UNFED, |t| {
        t.states.extend([4, 7].map(|head| bare_state(12, head)));
        t.flow[2].insert(4);
    });
    assert_eq!(of(&m), (0, 0));
    let m = with_tables(UNFED, |t| {
        t.states.extend([4, 7].map(|head| bare_state(12, head)));
        t.flow[2].insert(4);
        t.flow[1].insert(12);
    });
    let states_at = m.tables.at + m.flow + m.mail;
    assert_eq!(of(&m), (8, states_at + 3));
}

#[test]
fn an_extra_state_wants_as_any_other() {
    let m = with_tables(UNFED, |t| t.states.push(bare_state(12, 4)));
    assert_eq!(of(&m), (8, m.tables.at + m.flow + m.mail + 2));
}

#[test]
fn a_tag_3_name_does_not_hold_in_its_own_body() {
    let rows = [(7, 0), (3, 1), (22, 0), (1, 1), (1, 0)];
    let m = evidence::bare((2, 0, 0), &rows, 1, &[(40, 5), (42, 0), (43, 1), (44, 0)]);
    assert_eq!(of(&m), (5, 4 + 3));
}

#[test]
fn a_tag_11_name_holds_before_its_own_row() {
    let rows = [(11, 0), (22, 0), (1, 1), (11, 1), (22, 0), (1, 0), (1, 1)];
    let mut m = evidence::bare((2, 0, 2), &rows, 1, &[(40, 7), (42, 0), (43, 1), (44, 0)]);
    let (program, _) = evidence::read(&m).unwrap();
    evidence::put_tables(&mut m, &program, &least::least(&program)).unwrap();
    evidence::put_bounds(&mut m, &[vec![1]]);
    assert_eq!(of(&m), (0, 0));
}

#[test]
fn a_pattern_at_level_five_is_the_wrong_row() {
    let mut rows = vec![(10, 1), (7, 0), (8, 0), (25, 1)];
    rows.extend([(31, 0), (31, 0), (31, 0), (31, 0), (32, 0), (1, 0)]);
    let m = evidence::bare((1, 1, 0), &rows, 1, &[(40, 10), (42, 0), (43, 1), (44, 0)]);
    assert_eq!(of(&m), (3, 4 + 8));
    rows.truncate(8);
    let m = evidence::bare((1, 1, 0), &rows, 1, &[(40, 8), (42, 0), (43, 1), (44, 0)]);
    assert_eq!(of(&m), (3, 4 + 8));
}

#[test]
fn a_spot_is_reached_only_if_the_whole_pattern_may_match() {
    let text = "constructors p/2, q/0, n/0.
        start -> V = p(n, n), case V of p(X, q) -> X; p(Y, n) -> Y end.
        bad b: start holds address.";
    let assembled = assemble(text).unwrap().message;
    let m = message::read(&assembled).unwrap();
    let names: Vec<usize> = (0..m.flow).map(|i| m.tables.pair(i).0).collect();
    assert_eq!(of(&m), (0, 0));
    assert_eq!(names, [0, 1, 2, 4], "X is name 3 and holds nothing");
}

#[test]
fn every_branch_that_may_match_gets_its_rule() {
    let text =
        text_of("constructors a/0. start -> X = a, case X of a -> X; a -> X; _ -> X end. bad b: start holds address.");
    assert!(text.starts_with("0 0\n5 0 4 8\n50 0\n51 1\n50 1\n51 2\n50 1\n51 3\n50 1\n51 4\n"), "{text}");
}

#[test]
fn a_name_of_the_front_may_hold_more() {
    let text = "constructors a/0. function f() -> f. function g() -> f(). start -> g. bad b: start holds address.";
    let m = with_tables(text, |t| {
        t.flow[0].insert(4);
    });
    assert_eq!(of(&m), (0, 0));
}

/// A message of bare rows, whose verdict comes before the tables.
fn rows(names: usize, constructors: usize, functions: usize, rows: &[(usize, usize)]) -> (u32, usize) {
    let bad = [(40, rows.len()), (42, 0), (43, 1), (44, 0)];
    of(&evidence::bare((names, constructors, functions), rows, 1, &bad))
}

#[test]
fn counts_beyond_the_rows_end_at_the_last_row() {
    assert_eq!(rows(1, 5, 0, &[(10, 0)]), (3, 5));
    assert_eq!(rows(1, 0, 3, &[(11, 0), (22, 0), (1, 0)]), (3, 7));
}

#[test]
fn without_constructors_none_is_right() {
    assert_eq!(rows(1, 0, 0, &[(2, 0), (20, 0), (1, 0)]), (3, 5));
}

#[test]
fn a_parameter_twice_is_bound_again() {
    assert_eq!(rows(2, 0, 1, &[(11, 0), (22, 2), (23, 1), (23, 1), (1, 0), (1, 0)]), (4, 7));
}

#[test]
fn branches_that_bind_the_same_name_bind_it_again() {
    let two = [(9, 2), (30, 0), (1, 0), (30, 0), (1, 0)];
    assert_eq!(rows(1, 0, 0, &two), (4, 7));
}

#[test]
fn an_item_is_three_rows() {
    let program = [(7, 0), (1, 0)];
    let bad = [(40, 2), (42, 0), (43, 1), (42, 1), (43, 1), (44, 0)];
    assert_eq!(of(&evidence::bare((1, 0, 0), &program, 1, &bad)), (6, 8 + 2 + 3));
}

#[test]
fn taking_comes_before_adding_at_65534() {
    let text = "function f() -> f(). start -> f(). bad b: start holds address.";
    let mut m = message::read(&assemble(text).unwrap().message).unwrap();
    evidence::put_bounds(&mut m, &[vec![65_534, 0, 0], vec![65_534, 1, 0], vec![0, 0, 1]]);
    assert_eq!(of(&m), (13, m.entries.at + 2));
    evidence::put_bounds(&mut m, &[vec![65_534, 0, 0], vec![0, 1, 0], vec![0, 0, 1]]);
    assert_eq!(of(&m), (0, 0));
}

#[test]
fn a_new_state_that_is_from_is_no_less_in_the_end() {
    let text = "function f() -> @x spawn(f). start -> spawn(f). bad b: x holds address.";
    let mut m = message::read(&assemble(text).unwrap().message).unwrap();
    let limits =
        [vec![0, 0, 0, 0, 1, 0], vec![0, 0, 1, 0, 0, 1], vec![2, 1, 0, 1, 0, 1], vec![1, UNBOUNDED, 0, 1, 0, 1]];
    evidence::put_bounds(&mut m, &limits);
    assert_eq!(of(&m), (13, m.entries.at + 2 + 3));
    let limits = [vec![0, 0, 0, 0, 1, 0], vec![0, 0, 1, 0, 0, 1], vec![2, UNBOUNDED, 0, 1, 0, 1]];
    evidence::put_bounds(&mut m, &limits);
    assert_eq!(of(&m), (0, 0));
}

#[test]
fn every_spot_of_a_pattern_wants_its_values() {
    let text = "constructors p/2, n/0. start -> V = p(n, n), case V of p(X, Y) -> Y end. bad b: start holds address.";
    for name in [3, 4] {
        let m = with_tables(text, |t| t.flow[name] = oracle::set::Set::EMPTY);
        assert_eq!(of(&m), (8, m.tables.at + m.flow + m.mail + 3), "name {name}");
    }
}

/// Rows: 0 (11,0) 1 (22,1) 2 (23,1) 3 (1,1); 4 (7,2); 5 (9,1) 6 (30,3); 7 (4,4) 8 (21,0) 9 (22,1) 10 (21,3); 11 (1,4).
#[test]
fn call_and_give_back_want_states_even_without_a_value() {
    let text = "function f(A) -> A. start -> Me = self(), receive X -> f(X) end. bad b: start holds address.";
    let first_lack = |states: &[(usize, usize)]| {
        let m = with_tables(text, |t| {
            t.states.extend(states.iter().map(|&(head, back)| State { class: 12, head, back }));
        });
        let (number, place) = of(&m);
        (number, place.checked_sub(m.tables.at + m.flow + m.mail))
    };
    assert_eq!(first_lack(&[(7, 12)]), (8, Some(2)));
    assert_eq!(first_lack(&[(3, 7), (7, 12)]), (8, Some(0)));
    assert_eq!(first_lack(&[(3, 7), (7, 12), (11, 12)]).0, 0);
    // The give back looks at its third number alone: with R it wants nothing, and a state of the call with another
    // return wants the call's rest with that return.
    assert_eq!(first_lack(&[(3, 12)]).0, 0);
    assert_eq!(first_lack(&[(3, 7), (7, 7), (7, 12), (11, 12)]), (8, Some(0)));
    assert_eq!(first_lack(&[(3, 7), (7, 7), (7, 12), (11, 7), (11, 12)]).0, 0);
}

/// A message of rows with one harmless bad and no evidence: refusals up to 5 show.
fn rows_verdict(sizes: (usize, usize, usize), rows: &[(usize, usize)]) -> (u32, usize) {
    let bad = [(40, rows.len()), (42, 0), (43, 1), (44, 0)];
    let m = oracle::evidence::bare(sizes, rows, 1, &bad);
    common::verdict(&common::bytes(&oracle::message::write(&m)))
}

#[test]
fn a_held_name_is_read_at_its_case_or_receive() {
    let receive = |pattern: &[(usize, usize)]| {
        let rows = [&[(10, 2), (7, 0), (9, 1)], pattern, &[(1, 0)]].concat();
        rows_verdict((2, 1, 0), &rows)
    };
    // In scope: no refusal up to 5; what follows is the tables' lack of the start.
    assert_eq!(receive(&[(31, 0), (30, 1), (33, 0)]).0, 8);
    // A name of the same pattern, before it or behind it, is not in scope at the receive.
    assert_eq!(receive(&[(31, 0), (30, 1), (33, 1)]), (5, 4 + 5));
    assert_eq!(receive(&[(31, 0), (33, 1), (30, 1)]), (5, 4 + 4));
    // No such name; a held name binds nothing.
    assert_eq!(receive(&[(31, 0), (30, 1), (33, 2)]), (3, 4 + 5));
    assert_eq!(receive(&[(31, 0), (33, 0), (33, 0)]), (4, 1));
    // It has depth 1, so at level 5 it is wrong.
    let deep = [(10, 1), (7, 0), (9, 1), (31, 0), (31, 0), (31, 0), (31, 0), (33, 0), (1, 0)];
    assert_eq!(rows_verdict((1, 1, 0), &deep), (3, 4 + 7));
    // A tag 11 name may stand there, in the front too.
    let front = [(11, 0), (22, 0), (9, 1), (33, 0), (1, 0), (1, 0)];
    assert_eq!(rows_verdict((1, 0, 1), &front).0, 8);
}
