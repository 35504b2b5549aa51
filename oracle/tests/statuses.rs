//! The program as a script uses it: 0 safe, 1 refused, 2 no verdict.

mod common;

use common::path;
use std::ffi::OsStr;
use std::fs::{File, copy};
use std::os::unix::ffi::OsStrExt;
use std::path::Path;
use std::process::{Command, Output, Stdio};

/// A folder for what the tests write.
const ROOM: &str = env!("CARGO_TARGET_TMPDIR");

/// The program in the folder of the examples.
fn oracle(args: &[&str]) -> Command {
    let mut command = Command::new(env!("CARGO_BIN_EXE_oracle"));
    command.args(args).current_dir(path("examples")).stdin(Stdio::null());
    command
}

fn verify(args: &[&str]) -> Command {
    oracle(&[&["verify"], args].concat())
}

fn output(args: &[&str]) -> Output {
    verify(args).output().expect("the program runs")
}

fn status(args: &[&str]) -> Option<i32> {
    output(args).status.code()
}

/// What a shell makes of it, with `$oracle` and `$file` set.
fn shell(line: &str) -> Option<i32> {
    let mut command = Command::new("sh");
    command.args(["-c", line]).current_dir(path("examples"));
    command.env("oracle", env!("CARGO_BIN_EXE_oracle")).env("file", "station-a.msg");
    command.stdout(Stdio::null()).stderr(Stdio::null()).status().expect("a shell").code()
}

#[test]
fn a_safe_message_is_0_and_a_refused_one_1() {
    assert_eq!(status(&["station-a.msg"]), Some(0));
    assert_eq!(status(&["overflow.msg"]), Some(1));
    assert_eq!(status(&["--lend", "3", "station-a.msg"]), Some(1));
    assert_eq!(status(&["/dev/null"]), Some(1));
    assert_eq!(status(&["-"]), Some(1));
    assert_eq!(status(&[]), Some(1));
}

#[test]
fn without_a_verdict_it_is_2() {
    assert_eq!(status(&["nowhere.msg"]), Some(2));
    assert_eq!(status(&["hostile"]), Some(2));
    assert_eq!(status(&["--nonsense", "station-a.msg"]), Some(2));
    assert_eq!(status(&["--lend", "many", "station-a.msg"]), Some(2));
    assert_eq!(status(&["--lend", "99999999999999", "station-a.msg"]), Some(2));
    assert_eq!(status(&["--help"]), Some(2));
}

#[test]
fn a_name_that_is_no_text_is_2_and_no_other_file_is_verified() {
    let (no_text, shown) = (Path::new(ROOM).join(OsStr::from_bytes(b"\xff.msg")), Path::new(ROOM).join("\u{fffd}.msg"));
    copy(path("examples/overflow.msg"), &no_text).unwrap();
    copy(path("examples/station-a.msg"), &shown).unwrap();
    let status = |file: &Path| verify(&["--quiet", "--"]).arg(file).status().unwrap().code();
    assert_eq!(status(&shown), Some(0));
    assert_eq!(status(&no_text), Some(2));
}

#[test]
fn nowhere_to_write_or_to_read_is_2() {
    let full = File::options().write(true).open("/dev/full").expect("/dev/full");
    assert_eq!(verify(&["station-a.msg"]).stdout(full).status().unwrap().code(), Some(2));
    assert_eq!(shell(r#""$oracle" verify "$file" >&-"#), Some(2));
    assert_eq!(shell(r#""$oracle" verify - <&-"#), Some(2));
    assert_eq!(shell(r#"{ "$oracle" verify "$file"; echo $? >&3; } 3>&1 >/dev/full | grep -qx 2"#), Some(0));
}

#[test]
fn what_needs_no_output_needs_none() {
    assert_eq!(shell(r#""$oracle" verify "$file" >/dev/null"#), Some(0));
    assert_eq!(shell(r#""$oracle" verify --quiet "$file" >&-"#), Some(0));
    assert_eq!(shell(r#""$oracle" verify "$file" 2>/dev/full"#), Some(0));
}

#[test]
fn several_files_get_a_line_each_and_the_worst_status() {
    let two = output(&["station-a.msg", "overflow.msg"]);
    assert_eq!(String::from_utf8_lossy(&two.stdout), "0 0 station-a.msg\n12 64 overflow.msg\n");
    assert_eq!(two.status.code(), Some(1));
    assert_eq!(status(&["station-a.msg", "nowhere.msg", "overflow.msg"]), Some(2));
    assert_eq!(status(&["station-a.msg", "pool.msg"]), Some(0));
}

#[test]
fn the_verdict_is_told_in_words() {
    let words = |args: &[&str]| String::from_utf8_lossy(&output(args).stderr).into_owned();
    assert_eq!(words(&["station-a.msg"]), "safe\n");
    assert_eq!(words(&["overflow.msg"]), "refused: 12 met, word 64\n");
    assert_eq!(words(&["--lend", "23", "station-a.msg"]), "refused: 14 space, 24 words needed\n");
    assert!(words(&["nowhere.msg"]).starts_with("no verdict: No such file"));
    assert_eq!(words(&["--quiet", "overflow.msg"]), "");
}

/// Status and standard output of any command.
fn told(args: &[&str]) -> (Option<i32>, String) {
    let output = oracle(args).output().expect("the program runs");
    (output.status.code(), String::from_utf8_lossy(&output.stdout).into_owned())
}

#[test]
fn explain_has_the_same_statuses_and_takes_the_names_beside_the_message() {
    let (status, words) = told(&["explain", "overflow.msg"]);
    assert_eq!(status, Some(1));
    assert!(words.contains("bad `overflow`, consumer holds item >= 10"), "{words}");
    let (status, words) = told(&["explain", "--station", "pool.station", "overflow.msg"]);
    assert_eq!(status, Some(1));
    assert!(words.contains("bad 0, r22 holds c0 >= 10"), "{words}");
    assert!(words.contains("names:  numbers only: pool.station is the text of another program"), "{words}");
    assert_eq!(told(&["explain", "pool.msg"]).0, Some(0));
    assert_eq!(told(&["explain", "nowhere.msg"]).0, Some(2));
    assert_eq!(told(&["explain", "--lend", "99999999999999", "pool.msg"]).0, Some(2));
    assert_eq!(told(&["explain", "--station", "nowhere.station", "pool.msg"]).0, Some(2));
}

#[test]
fn an_option_that_there_is_none_of_is_2_and_so_is_help() {
    for command in ["explain", "run", "assemble", "disassemble"] {
        let output = oracle(&[command, "--other"]).output().unwrap();
        assert_eq!(output.status.code(), Some(2));
        assert_eq!(String::from_utf8_lossy(&output.stderr), "unknown option: --other\n");
        let (status, words) = told(&[command, "--help"]);
        assert_eq!(status, Some(2));
        assert!(words.contains(&format!("oracle {command} ")), "{words}");
    }
    for option in ["--other", "--help"] {
        let text = path("examples/pool.station");
        let status = oracle(&["assemble"]).arg(text).arg(option).current_dir(ROOM).status().unwrap();
        assert_eq!(status.code(), Some(2));
        assert!(!Path::new(ROOM).join(option).exists());
    }
}

#[test]
fn run_is_1_where_a_bad_is_met() {
    assert_eq!(told(&["run", "overflow.msg", "0*30"]).0, Some(0));
    let (status, words) = told(&["run", "overflow.msg", "0*31"]);
    assert_eq!(status, Some(1));
    assert!(words.contains("!! bad `overflow` is met"), "{words}");
    assert_eq!(told(&["run", "pool.msg", "--random", "40", "--seed", "3"]).0, Some(0));
    assert_eq!(told(&["run", "/dev/null", "0"]).0, Some(2));
    assert_eq!(told(&["run", "pool.msg", "first"]).0, Some(2));
}

#[test]
fn assemble_has_the_status_of_the_message_that_it_writes() {
    let message = |args: &[&str]| oracle(args).output().expect("the program runs");
    let safe = message(&["assemble", "pool.station"]);
    assert_eq!(safe.status.code(), Some(0));
    assert_eq!(safe.stdout, std::fs::read(path("examples/pool.msg")).unwrap());
    assert_eq!(message(&["assemble", "overflow.station"]).status.code(), Some(1));
    assert_eq!(message(&["assemble", "--budget", "10", "pool.station"]).status.code(), Some(1));
    assert_eq!(message(&["assemble", "README.md"]).status.code(), Some(2));
    assert_eq!(message(&["assemble", "pool.station", "nowhere/pool.msg"]).status.code(), Some(2));
    assert_eq!(shell(r#""$oracle" assemble pool.station >/dev/full"#), Some(2));
}
