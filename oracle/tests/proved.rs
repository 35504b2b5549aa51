//! The proved code beside `verify`: examples, hostile and honest messages, a stored corpus, random ones.
#![cfg(feature = "proved")]

mod common;

use common::files;
use oracle::fuzz::damage::Case;
use oracle::fuzz::{compare, corpus};
use oracle::stack::with_stack;
use oracle::{proved, stress, verify};

/// Words lent for any message: what a program lends, and more than any system needs.
const LENT: [usize; 2] = [16_384, oracle::limits::PLENTY];
/// Words lent for station A, which needs 24.
const LENT_A: [usize; 5] = [0, 3, 23, 24, 40];

fn on_stack(test: impl FnOnce() + Send) {
    with_stack(proved::STACK, test).unwrap();
}

fn agree(name: &str, message: &[u8], lent: &[usize]) {
    for &lent in lent {
        let case = Case { message: message.to_vec(), lent };
        compare::compare(&proved::verify, &verify::verify, &case)
            .map_err(|e| format!("{name}, lent {lent}: {e}"))
            .unwrap();
    }
}

#[test]
fn each_stored_message_gets_the_same() {
    on_stack(|| {
        for file in [files("examples", "msg"), files("examples/hostile", "msg")].concat() {
            agree(&file.display().to_string(), &std::fs::read(&file).unwrap(), &LENT);
        }
    });
}

/// What the proved code keeps while it checks, no contract promises: kept too little, some of these take many seconds.
#[test]
fn no_stored_message_takes_a_second() {
    on_stack(|| {
        for file in [files("examples", "msg"), files("examples/hostile", "msg")].concat() {
            let message = std::fs::read(&file).unwrap();
            let time = |_| {
                let began = std::time::Instant::now();
                proved::verify(&message, &mut vec![0; LENT[1]]);
                began.elapsed()
            };
            let least = (0..3).map(time).min().unwrap();
            assert!(least.as_secs() < 1, "{}: {least:?}", file.display());
        }
    });
}

#[test]
fn bench_overwrites_no_page_that_it_did_not_make() {
    let page = common::path("docs/PERFORMANCE.md");
    let before = std::fs::read(&page).unwrap();
    let bench = std::process::Command::new(env!("CARGO_BIN_EXE_oracle")).arg("bench").arg(&page).output().unwrap();
    assert_eq!(bench.status.code(), Some(2));
    assert!(String::from_utf8_lossy(&bench.stderr).contains("was not made by `oracle bench`"));
    assert_eq!(std::fs::read(&page).unwrap(), before);
}

#[test]
fn the_largest_honest_messages_get_the_same() {
    on_stack(|| {
        stress::honest::honest().unwrap().iter().for_each(|sample| agree(&sample.name, &sample.message, &LENT))
    });
}

#[test]
fn station_a_with_any_one_damage_gets_the_same() {
    on_stack(|| {
        let a = common::bytes(&common::station_a());
        (0..=a.len()).for_each(|length| agree("a beginning of A", &a[..length], &LENT_A));
        agree("A and a byte more", &[&a[..], &[0]].concat(), &LENT_A);
        for at in 0..common::station_a().len() {
            for word in [0, 1, 2, 10, 65_534, 65_535] {
                let mut words = common::station_a();
                words[at] = word;
                agree("A with another word", &common::bytes(&words), &LENT_A);
            }
        }
    });
}

#[test]
fn a_corpus_comes_out_the_same() {
    on_stack(|| {
        let made = corpus::collect(11, 150, &verify::verify).unwrap();
        for (case, line) in made.cases.iter().zip(made.lines.lines()) {
            let seen = compare::see(&proved::verify, case).unwrap();
            assert_eq!(corpus::line(case, &seen).trim_end(), line);
        }
    });
}

#[test]
fn random_messages_get_the_same() {
    on_stack(|| {
        let tally = compare::fuzz(2025, 5000, &proved::verify, &verify::verify).map_err(|(_, word)| word).unwrap();
        assert!(tally.verdicts.iter().all(|&seen| seen > 0), "{}", tally.words());
    });
}
