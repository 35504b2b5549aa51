//! The words for a person.

mod common;

use common::{bytes, files, path, station_a};
use oracle::explain::explain;
use oracle::run::Wanted;
use oracle::text::assemble::assemble;
use oracle::text::words::Words;

fn words(changes: &[(usize, u16)]) -> String {
    let mut a = station_a();
    changes.iter().for_each(|&(at, word)| a[at] = word);
    explain(&bytes(&a), 16_384, None).1
}

#[test]
fn a_safe_message() {
    assert!(words(&[]).starts_with("0 (safe)"));
}

#[test]
fn each_refusal_names_its_place_and_what_was_wanted() {
    assert!(explain(&[], 0, None).1.contains("1 (length) at 0"));
    assert!(words(&[(0, 1537)]).contains("the size at word 0 is 1537"));
    assert!(words(&[(5, 24)]).contains("row 1, which is (24, 0)"));
    assert!(words(&[(16, 0)]).contains("row 2, which is (2, 0)"));
    assert!(words(&[(1, 4)]).contains("some name below V is bound by no row"));
    assert!(words(&[(19, 2)]).contains("name 2 is bound in row 4 and holds in rows 7 to 9"));
    assert!(words(&[(32, 0)]).contains("bad row 2, which is (43, 0)"));
    assert!(words(&[(37, 3)]).contains("in the list of flow"));
    assert!(words(&[(46, 2)]).contains("flow entry (0, 10): N0 may hold address of start"));
    assert!(words(&[(62, 6)]).contains("ceiling entry 0, which is (6, 1)"));
    assert!(words(&[(62, 5)]).contains("no ceiling holds the starting counts"));
    assert!(words(&[(32, 1)]).contains("bad 0, start holds c0 >= 1; ceiling 3 allows it: start!c0<=1\n"));
    assert!(words(&[(68, 2)]).contains("start@r4 -> start@r7, puts start!c0"));
    assert!(words(&[(68, 2)]).contains("nearest is ceiling 3, too low at "));
    assert!(explain(&bytes(&station_a()), 23, None).1.contains("lend 24 words"));
}

#[test]
fn no_bytes_make_it_fail() {
    let mut cases = oracle::fuzz::compare::Cases::new(99);
    for _ in 0..500 {
        let case = cases.next_case();
        assert!(!explain(&case.message, case.lent, None).1.is_empty());
        let _ =
            oracle::run::show(&case.message, None, &Wanted { numbers: vec![0, 1, 0, 0, 2, 1], ..Wanted::default() });
        let _ = oracle::text::disassemble::disassemble(&case.message);
    }
}

/// The explanation of a message with the names of a text.
fn with_names(message: &[u8], text: &str) -> String {
    explain(message, 16_384, Some(&Words::read(text).unwrap())).1
}

#[test]
fn the_names_of_the_text_are_spoken() {
    let text = std::fs::read_to_string(path("examples/overflow.station")).unwrap();
    let message = std::fs::read(path("examples/overflow.msg")).unwrap();
    let words = with_names(&message, &text);
    assert!(words.contains("bad `overflow`, consumer holds item >= 10; ceiling"), "{words}");
    assert!(words.contains("allows it: consumer!item<=any\n"), "{words}");
    assert!(!words.contains("c0") && !words.contains("start@"), "{words}");
}

#[test]
fn the_names_of_another_text_are_not() {
    let text = std::fs::read_to_string(path("examples/pool.station")).unwrap();
    let message = std::fs::read(path("examples/overflow.msg")).unwrap();
    assert_eq!(with_names(&message, &text), explain(&message, 16_384, None).1);
}

#[test]
fn the_bad_that_assemble_names_is_the_one_explained() {
    let text = "constructors a/0, b/0.
        start -> Me = self(), Me ! a, Me ! b, receive b -> b end.
        bad fine: start holds a >= 2.
        bad met: start holds b.
        bad met_too: start holds a.";
    let assembled = assemble(text).unwrap();
    assert!(assembled.notes.last().is_some_and(|note| note.ends_with("bad `met`")), "{:?}", assembled.notes);
    assert!(with_names(&assembled.message, text).contains("place:  bad `met`, start holds b >= 1; ceiling"));
}

#[test]
fn lines_are_under_100_characters() {
    let short = |words: &str| words.lines().all(|line| line.chars().count() < 100);
    for file in [files("examples", "msg"), files("examples/hostile", "msg")].concat() {
        let words = explain(&std::fs::read(&file).unwrap(), 16_384, None).1;
        assert!(short(&words), "{words}");
    }
    let long = format!("a_constructor_with_a_name_that_no_line_holds{}", "_at_all".repeat(20));
    let text = format!("constructors {long}/0. start -> self() ! {long}. bad {long}: start holds {long}.");
    let words = with_names(&assemble(&text).unwrap().message, &text);
    assert!(words.contains("12 (met)") && short(&words), "{words}");
    let mut cases = oracle::fuzz::compare::Cases::new(7);
    for _ in 0..500 {
        let case = cases.next_case();
        let words = explain(&case.message, case.lent, None).1;
        assert!(short(&words), "{words}");
    }
}
