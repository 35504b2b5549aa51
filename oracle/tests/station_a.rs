//! The cases that 01 lists under Station A.

mod common;

use common::{bytes, station_a, verdict, verdict_lent};
use oracle::listing::verified;
use oracle::verify::verify;

#[test]
fn no_bytes() {
    assert_eq!(verdict(&[]), (1, 0));
}

#[test]
fn a_is_safe_with_its_listing() {
    let a = bytes(&station_a());
    assert_eq!(a.len(), 2 * 84);
    let text = "0 0\n5 1 4 10\n50 0\n51 1\n50 1\n51 2\n50 2\n51 3\n53 5\n50 3\n51 4\n52 5\n";
    assert_eq!(verified(&a, 16_384), text);
}

#[test]
fn a_hands_on_its_program_part() {
    let a = bytes(&station_a());
    let outcome = verify(&a, &mut [0; 24]);
    assert_eq!(outcome.part, 0..48);
}

#[test]
fn too_many_rows() {
    let mut a = station_a();
    a[0] = 1537;
    assert_eq!(verdict(&bytes(&a)), (2, 0));
}

#[test]
fn a_byte_more() {
    let mut a = bytes(&station_a());
    a.push(0);
    assert_eq!(verdict(&a), (1, 84));
}

#[test]
fn bound_again() {
    let mut a = station_a();
    a[4 + 10 + 4] = 1;
    assert_eq!(verdict(&bytes(&a)), (4, 8));
}

#[test]
fn read_outside_its_scope() {
    let mut a = station_a();
    a[4 + 10 + 5] = 2;
    assert_eq!(verdict(&bytes(&a)), (5, 9));
}

#[test]
fn minimum_one_is_met() {
    let mut a = station_a();
    a[26 + 4 + 2] = 1;
    assert_eq!(verdict(&bytes(&a)), (12, 26));
}

#[test]
fn no_mail_entry() {
    let mut a = station_a();
    a.remove(46 + 3);
    a.remove(37 + 3);
    a[35] = 0;
    assert_eq!(verdict(&bytes(&a)), (8, 42));
}

#[test]
fn first_bound_gone() {
    let mut a = station_a();
    a.drain(73..75);
    a.drain(62..64);
    (a[60], a[61]) = (4, 9);
    assert_eq!(verdict(&bytes(&a)), (11, 60));
}

#[test]
fn last_bound_gone() {
    let mut a = station_a();
    a.drain(82..84);
    a.drain(71..73);
    (a[60], a[61]) = (4, 9);
    assert_eq!(verdict(&bytes(&a)), (13, 68));
}

#[test]
fn one_more_than_65534() {
    let mut a = station_a();
    a[26 + 4 + 2] = 65_535;
    a.truncate(60);
    a.extend([1, 7, 0, 1, 2, 3, 4, 5, 6]);
    a.extend([65_535, 65_535, 65_535, 65_535, 65_535, 65_534, 0]);
    assert_eq!(verdict(&bytes(&a)), (13, 62));
}

#[test]
fn too_little_lent() {
    let a = bytes(&station_a());
    assert_eq!(verdict_lent(&a, 23), (14, 24));
    assert_eq!(verdict_lent(&a, 24), (0, 0));
}

#[test]
fn refusal_leaves_the_lent_words() {
    let a = bytes(&station_a());
    let mut lent = [7; 23];
    verify(&a, &mut lent);
    assert_eq!(lent, [7; 23]);
    let mut lent = [7; 30];
    verify(&a, &mut lent);
    assert_eq!(lent[..4], [5, 1, 4, 10]);
    assert_eq!(lent[24..], [7; 6]);
}

#[test]
fn every_shorter_message_is_refused_for_its_length() {
    let a = bytes(&station_a());
    for length in 0..a.len() {
        let part = [0, 24, 34, 60].into_iter().rev().find(|&p| 2 * p <= length).unwrap_or(0);
        assert_eq!(verdict(&a[..length]), (1, part), "{length}");
    }
}
