//! The text form: what it flattens, what it rejects.

use oracle::text::assemble::assemble;
use oracle::text::disassemble::disassemble;

fn refused(text: &str) -> String {
    assemble(text).err().unwrap_or_else(|| "assembled".to_string())
}

const END: &str = "bad none: start holds address >= 1.";

#[test]
fn nested_expressions_are_flattened() {
    let text = format!("constructors a/0, p/2. start -> p(a, p(a, a)). {END}");
    let message = assemble(&text).unwrap().message;
    let back = disassemble(&message).unwrap();
    assert!(back.contains("N0 = c0()") && back.contains("N4 = c1(N0, N3)"), "{back}");
}

#[test]
fn a_case_with_a_rest_is_called_at_once() {
    let text = format!("constructors a/0. start -> X = case a of a -> a end, X. {END}");
    let back = disassemble(&assemble(&text).unwrap().message).unwrap();
    assert!(back.contains("= fun() ->"), "{back}");
}

#[test]
fn names_in_another_order_come_back() {
    let text = format!("constructors a/0. names B, A. start -> A = a, B = a, B. {END}");
    let message = assemble(&text).unwrap().message;
    let back = disassemble(&message).unwrap();
    assert!(back.contains("names N0, N1."), "{back}");
    assert_eq!(assemble(&back).unwrap().message, message);
}

#[test]
fn mistakes_are_told_with_their_line() {
    assert!(refused("start -> X.\nbad b: start holds address.").contains("line 1: X is not known here"));
    assert!(
        refused("constructors a/0.\nstart ->\n a(a).\nbad b: start holds a.").contains("line 3: a takes 0 arguments")
    );
    assert!(refused("constructors a/0. start -> a.").contains("no bad"));
    assert!(refused("constructors a/0.").contains("no `start"));
    assert!(refused("start -> self() self(). bad b: start holds address.").contains("`.` was wanted"));
    assert!(refused("start -> self(). bad b: start at nowhere.").contains("no head has the label nowhere"));
    assert!(refused("start -> ?").contains("can't read"));
}

#[test]
fn deep_nesting_is_told() {
    let text = format!("start -> {}self(){}.", "spawn(".repeat(50_000), ")".repeat(50_000));
    assert!(refused(&text).contains("nested too deep"));
}

#[test]
fn a_pattern_name_that_hides_another_is_warned_of() {
    let text = format!("constructors a/0. start -> X = a, receive X -> X end. {END}");
    assert!(assemble(&text).unwrap().notes[0].contains("binds afresh"));
}
