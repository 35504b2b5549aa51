//! Two readings of the hard checks agree on random messages, and safe stations keep demand 3.

mod common;

use oracle::fuzz::{compare, corpus};
use oracle::limits::PLENTY;
use oracle::verify::Outcome;
use oracle::{naive, stress, verify};

#[test]
fn the_two_verifiers_agree_and_every_verdict_is_seen() {
    let tally = compare::fuzz(2024, 2500, &verify::verify, &naive::verify).map_err(|(_, word)| word).unwrap();
    assert!(tally.verdicts.iter().all(|&seen| seen > 0), "{}", tally.words());
    assert!(3 * tally.verdicts[0] >= tally.total(), "{}", tally.words());
    assert!(tally.steps > 500, "{}", tally.words());
    assert!(5 * tally.shared >= tally.total(), "places with several returns: {}", tally.words());
    assert!(10 * tally.summed >= tally.total(), "bads that ask there: {}", tally.words());
    assert!(10 * tally.several_heads >= tally.total(), "arguments of several heads: {}", tally.words());
    assert!(10 * tally.named_heads >= tally.total(), "bads that name heads: {}", tally.words());
    assert!(5 * tally.weighed >= tally.total(), "weights: {}", tally.words());
    assert!(20 * tally.several_lines >= tally.total(), "several lines: {}", tally.words());
    assert!(20 * tally.overlapping >= tally.total(), "items on the same counters: {}", tally.words());
    assert!(500 * tally.past_32_bits >= tally.total(), "totals past 32 bits: {}", tally.words());
}

/// `verify` with a change to what it says or writes.
fn found_out(change: impl Fn(&mut Outcome, &mut [u32])) -> bool {
    let careless = |message: &[u8], lent: &mut [u32]| {
        let mut outcome = verify::verify(message, lent);
        change(&mut outcome, lent);
        outcome
    };
    compare::fuzz(7, 3000, &careless, &verify::verify).is_err()
}

#[test]
fn a_wrong_verifier_is_found_out() {
    assert!(found_out(|outcome, _| outcome.place += usize::from(outcome.number == 13)));
    assert!(found_out(|outcome, _| outcome.number = outcome.number.max(1)));
    assert!(found_out(|outcome, _| outcome.number = if outcome.number == 12 { 13 } else { outcome.number }));
    assert!(found_out(|outcome, _| outcome.part.end += 2 * usize::from(outcome.number == 0)));
    assert!(found_out(|outcome, _| outcome.part.end += usize::from(outcome.number == 14)));
    assert!(found_out(|outcome, lent| lent
        .iter_mut()
        .take(usize::from(outcome.number == 9))
        .for_each(|word| *word = 0)));
    assert!(found_out(|outcome, lent| lent
        .last_mut()
        .filter(|_| outcome.number == 0)
        .into_iter()
        .for_each(|word| *word ^= 1)));
}

#[test]
fn a_corpus_comes_back_with_every_verdict() {
    let made = corpus::collect(11, 150, &verify::verify).unwrap();
    assert!(made.verdicts.iter().all(|&kept| kept > 0), "{:?}", made.verdicts);
    let read = corpus::read(&corpus::stream(&made.cases)).unwrap();
    assert_eq!(read.len(), made.cases.len());
    for (case, line) in read.iter().zip(made.lines.lines()) {
        let seen = compare::see(&naive::verify, case).unwrap();
        assert_eq!(corpus::line(case, &seen).trim_end(), line);
    }
}

#[test]
fn the_corpus_of_the_proved_program_is_as_verify_says() {
    let stored = std::fs::read(common::path("crates/corpus/stdin")).unwrap();
    let lines = std::fs::read_to_string(common::path("crates/corpus/stdout")).unwrap();
    let cases = corpus::read(&stored).unwrap();
    assert_eq!(cases.len(), lines.lines().count());
    for (case, line) in cases.iter().zip(lines.lines()) {
        let seen = compare::see(&verify::verify, case).unwrap();
        assert_eq!(corpus::line(case, &seen).trim_end(), line);
    }
    let seen = |number: &u32| lines.lines().any(|line| line.starts_with(&format!("{number} ")));
    assert!(oracle::refusal::VERDICTS.iter().all(seen));
}

#[test]
fn hostile_messages_are_settled_in_time() {
    for hostile in stress::hostile().unwrap() {
        let begin = std::time::Instant::now();
        let outcome = verify::verify(&hostile.message, &mut vec![0; PLENTY]);
        assert!(begin.elapsed().as_secs() < 5, "{}", hostile.name);
        assert_eq!(outcome.number, hostile.verdict, "{}", hostile.name);
    }
}

#[test]
fn random_programs_come_back_from_their_text() {
    let mut cases = compare::Cases::new(31);
    let mut tried = 0;
    for _ in 0..300 {
        let case = cases.next_case();
        let outcome = verify::verify(&case.message, &mut vec![0; PLENTY]);
        if outcome.number == 0 && case.message.len() < 2000 {
            let text = oracle::text::disassemble::disassemble(&case.message).unwrap();
            let again = oracle::text::assemble::assemble(&text).map_err(|e| format!("{e}\n{text}")).unwrap();
            assert_eq!(again.message[..outcome.part.end], case.message[outcome.part]);
            tried += 1;
        }
    }
    assert!(tried > 30, "{tried}");
}

const DEEP: [&str; 4] = ["rows-receives", "rows-functions", "long-receives", "long-functions"];

#[test]
fn the_deepest_programs_come_back_from_their_text() {
    for hostile in stress::hostile().unwrap().into_iter().filter(|h| DEEP.contains(&h.name.as_str())) {
        let outcome = verify::verify(&hostile.message, &mut vec![0; PLENTY]);
        let text = oracle::text::disassemble::disassemble(&hostile.message).unwrap();
        let again = oracle::text::assemble::assemble(&text).unwrap().message;
        assert_eq!(again[..outcome.part.end], hostile.message[outcome.part], "{}", hostile.name);
    }
}

#[test]
fn stations_near_the_limits_are_made() {
    assert!(oracle::fuzz::build::large().is_ok_and(|large| large.len() > 10));
    assert!(stress::growth::families().is_ok_and(|families| families.iter().all(|f| f.messages.len() == 5)));
}
