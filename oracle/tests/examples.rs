//! The examples: each has its message, its verdict and its way back to text.

use common::{examples, files, listed, path};
use oracle::limits::PLENTY;
use oracle::listing::verified;
use oracle::stress;
use oracle::text::assemble::assemble;
use oracle::text::disassemble::disassemble;
use oracle::verify::verify;

mod common;

/// The number behind `Verdict:` in the comment lines at the top.
fn verdict_in_text(text: &str) -> u32 {
    let behind = text.split("Verdict: ").nth(1).expect("a line with the verdict");
    behind.chars().take_while(char::is_ascii_digit).collect::<String>().parse().expect("a number")
}

/// Names of files without folder and ending.
fn names(paths: Vec<std::path::PathBuf>) -> Vec<String> {
    paths.iter().filter_map(|path| Some(path.file_stem()?.to_str()?.to_string())).collect()
}

#[test]
fn each_stands_in_the_list_of_examples() {
    let mut there = [names(examples()), names(files("examples/hostile", "msg"))].concat();
    let mut listed: Vec<String> = listed().into_iter().map(|(name, _)| name).collect();
    there.sort();
    listed.sort();
    assert_eq!(there, listed);
    assert_eq!(examples().len(), 21);
}

#[test]
fn each_has_the_verdict_of_the_list() {
    for (name, verdict) in listed() {
        let folders = ["examples", "examples/hostile"].map(|folder| path(folder).join(format!("{name}.msg")));
        let stored = folders.iter().find_map(|file| std::fs::read(file).ok()).expect(&name);
        assert_eq!(verify(&stored, &mut vec![0; PLENTY]).number, verdict, "{name}");
    }
}

/// Hostile messages that nothing here makes.
const KEPT: [&str; 3] = ["digraph-3x167-k256", "slots-240-one", "split-digraph-k64"];

#[test]
fn each_hostile_message_is_what_is_made_anew() {
    let made = stress::hostile().unwrap();
    assert_eq!(made.len() + KEPT.len(), files("examples/hostile", "msg").len());
    assert!(made.iter().all(|hostile| !KEPT.contains(&hostile.name.as_str())));
    for hostile in made {
        let stored = std::fs::read(path("examples/hostile").join(format!("{}.msg", hostile.name))).unwrap();
        assert!(stored == hostile.message, "{}", hostile.name);
    }
}

#[test]
fn each_message_is_what_its_text_assembles_to() {
    for path in examples() {
        let text = std::fs::read_to_string(&path).unwrap();
        let stored = std::fs::read(path.with_extension("msg")).unwrap();
        assert!(assemble(&text).unwrap().message == stored, "{path:?}");
    }
}

#[test]
fn each_has_the_verdict_its_text_says() {
    for path in examples() {
        let text = std::fs::read_to_string(&path).unwrap();
        let stored = std::fs::read(path.with_extension("msg")).unwrap();
        assert_eq!(verify(&stored, &mut vec![0; 16_384]).number, verdict_in_text(&text), "{path:?}");
    }
}

#[test]
fn each_comes_back_from_its_own_text() {
    for path in examples() {
        let stored = std::fs::read(path.with_extension("msg")).unwrap();
        let again = assemble(&disassemble(&stored).unwrap()).unwrap().message;
        assert!(again == stored, "{path:?}");
    }
}

#[test]
fn station_a_is_the_very_message_of_01() {
    assert_eq!(std::fs::read(path("examples/station-a.msg")).unwrap(), common::bytes(&common::station_a()));
}

#[test]
fn safe_ones_keep_demand_3() {
    for path in examples() {
        let stored = std::fs::read(path.with_extension("msg")).unwrap();
        if verified(&stored, 16_384).starts_with("0 0") {
            let numbers: Vec<usize> = (0..400).map(|i| (i * i + i / 7) % 5).collect();
            let rules = oracle::counters::check_demand_3(&stored, &numbers);
            assert!(rules.is_ok_and(|rules| !rules.is_empty()), "{path:?}");
        }
    }
}
