//! Runs of station A beside its counters.

mod common;

use common::{bytes, path, station_a};
use oracle::counters::check_demand_3;
use oracle::run::{Shown, Wanted, show};
use oracle::text::assemble::assemble;
use oracle::text::words::Words;

fn shown(message: &[u8], numbers: &[usize]) -> Shown {
    show(message, None, &Wanted { numbers: numbers.to_vec(), ..Wanted::default() }).unwrap()
}

#[test]
fn station_a_runs_to_its_end() {
    let a = bytes(&station_a());
    assert_eq!(check_demand_3(&a, &[0, 0, 0, 0, 0, 1, 0]), Ok(vec![0, 1, 2, 3]));
}

#[test]
fn a_longer_list_goes_on_from_the_shorter() {
    let a = bytes(&station_a());
    let long = check_demand_3(&a, &[0; 6]).unwrap();
    for n in 0..6 {
        let short = check_demand_3(&a, &vec![0; n]).unwrap();
        assert_eq!(short, long[..short.len()]);
    }
}

#[test]
fn the_run_is_shown() {
    let a = bytes(&station_a());
    let text = shown(&a, &[0, 0, 0, 0, 0, 3]).text;
    assert!(text.contains("start!c0=1"), "{text}");
    assert!(text.contains("has ended"), "{text}");
    assert!(text.contains("not there yet"), "{text}");
}

#[test]
fn a_refused_message_still_runs_beside_its_counters() {
    let mut a = station_a();
    a[26 + 4 + 2] = 1;
    let text = shown(&bytes(&a), &[0, 0, 0, 0]).text;
    assert!(text.starts_with("refused 12 at 26"), "{text}");
    assert!(text.contains("puts start!c0"), "{text}");
}

/// A step of process 0 and random steps of an example.
fn random(name: &str, steps: usize, seed: u64) -> Shown {
    some_and_random(name, 1, steps, seed)
}

fn some_and_random(name: &str, first: usize, random: usize, seed: u64) -> Shown {
    let message = std::fs::read(path(&format!("examples/{name}.msg"))).unwrap();
    let text = std::fs::read_to_string(path(&format!("examples/{name}.station"))).unwrap();
    let words = Words::read(&text).unwrap();
    show(&message, Some(&words), &Wanted { numbers: vec![0; first], random, seed }).unwrap()
}

#[test]
fn a_bad_is_told_when_it_is_met() {
    let message = std::fs::read(path("examples/overflow.msg")).unwrap();
    let before = shown(&message, &[0; 30]);
    assert!(!before.met && !before.text.contains("is met"), "{}", before.text);
    let met = shown(&message, &[0; 31]);
    assert!(met.met && met.text.contains("   !! bad 0 is met: r22 holds c0 >= 10"), "{}", met.text);
}

#[test]
fn a_bad_is_told_with_the_names_of_the_text_and_ends_random_steps() {
    let mut seeds = (0..20).map(|seed| some_and_random("overflow", 25, 400, seed));
    let text = seeds.find(|shown| shown.met).expect("a seed").text;
    assert!(text.contains("   !! bad `overflow` is met: consumer holds item >= 10"), "{text}");
    assert!(text.matches(". process").count() < 425, "{text}");
}

#[test]
fn the_same_seed_gives_the_same_run() {
    assert_eq!(random("pool", 80, 5).text, random("pool", 80, 5).text);
    assert_ne!(random("pool", 80, 5).text, random("pool", 80, 6).text);
    let text = random("pool", 80, 5).text;
    assert_eq!(text.matches(". process").count(), 81, "{text}");
    assert!(text.contains("demand 3 held after every number"), "{text}");
    assert!(!text.contains("nothing changes"), "{text}");
}

#[test]
fn the_numbers_of_a_random_run_are_told_and_give_it_again() {
    let text = random("ring", 40, 9).text;
    let numbers = text.split("the numbers: ").nth(1).unwrap().split("can step").next().unwrap();
    let numbers: Vec<usize> = numbers.split_whitespace().map(|number| number.parse().unwrap()).collect();
    assert_eq!(numbers.len(), 41);
    let message = std::fs::read(path("examples/ring.msg")).unwrap();
    let steps = |text: &str| text.lines().filter(|line| line.contains("rule ")).count();
    assert_eq!(steps(&shown(&message, &numbers).text), 41);
}

#[test]
fn who_can_step_is_told() {
    let a = bytes(&station_a());
    assert!(shown(&a, &[]).text.contains("can step: 0\n"));
    assert!(shown(&a, &[0; 4]).text.contains("can step: nobody\nhas ended: 0\n"));
    let message = std::fs::read(path("examples/ring.msg")).unwrap();
    let text = shown(&message, &[0; 6]).text;
    assert!(text.contains("can step: 0 1 2\n"), "{text}");
    let stopped = "constructors a/0. start -> spawn(fun() -> receive a -> a end end), a ! a. bad never: start holds a.";
    let text = shown(&assemble(stopped).unwrap().message, &[0; 6]).text;
    assert!(text.contains("stopped for good, the target is no process: 0\n"), "{text}");
    assert!(text.contains("waits at a receive that matches nothing: 1\n"), "{text}");
}
