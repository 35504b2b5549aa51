//! Each refusal and its place, by small changes to station A (offsets are words of its message).

mod common;

use common::{bytes, station_a, verdict};

/// Station A with these words changed.
fn changed(changes: &[(usize, u16)]) -> (u32, usize) {
    let mut a = station_a();
    changes.iter().for_each(|&(at, word)| a[at] = word);
    verdict(&bytes(&a))
}

/// Where row `i` of station A has its tag and its number.
fn tag(i: usize) -> usize {
    4 + i
}

fn num(i: usize) -> usize {
    14 + i
}

#[test]
fn sizes_come_part_by_part() {
    assert_eq!(changed(&[(0, 0)]), (2, 0));
    assert_eq!(changed(&[(1, 0)]), (2, 1));
    assert_eq!(changed(&[(1, 513)]), (2, 1));
    assert_eq!(changed(&[(2, 65), (3, 65)]), (2, 2));
    assert_eq!(changed(&[(3, 65)]), (2, 3));
    assert_eq!(changed(&[(24, 0)]), (2, 24));
    assert_eq!(changed(&[(24, 17), (25, 3)]), (2, 24));
    assert_eq!(changed(&[(25, 3)]), (2, 25));
    assert_eq!(changed(&[(34, 4097)]), (2, 34));
    assert_eq!(changed(&[(36, 1025)]), (2, 36));
    assert_eq!(changed(&[(60, 257)]), (2, 60));
    assert_eq!(changed(&[(61, 8193)]), (2, 61));
    assert_eq!(changed(&[(61, 12)]), (1, 60));
    assert_eq!(changed(&[(0, 1536)]), (1, 0));
    assert_eq!(verdict(&[0]), (1, 0));
    assert_eq!(verdict(&bytes(&[2000])), (1, 0));
}

#[test]
fn a_wrong_size_comes_before_a_wrong_row() {
    assert_eq!(changed(&[(tag(0), 99), (61, 8193)]), (2, 61));
}

#[test]
fn rows() {
    assert_eq!(changed(&[(num(0), 9)]), (3, 4));
    assert_eq!(changed(&[(tag(0), 11)]), (3, 4));
    assert_eq!(changed(&[(tag(1), 24)]), (3, 5));
    assert_eq!(changed(&[(num(1), 3)]), (3, 5));
    assert_eq!(changed(&[(num(3), 1)]), (3, 7));
    assert_eq!(changed(&[(num(7), 0)]), (3, 11));
    assert_eq!(changed(&[(num(7), 17)]), (3, 11));
    assert_eq!(changed(&[(num(7), 2)]), (3, 14));
    assert_eq!(changed(&[(tag(8), 32)]), (0, 0));
    assert_eq!(changed(&[(tag(8), 32), (num(8), 1)]), (3, 12));
    assert_eq!(changed(&[(tag(1), 1)]), (3, 6));
    assert_eq!(changed(&[(3, 1)]), (3, 5));
}

#[test]
fn names() {
    assert_eq!(changed(&[(1, 4)]), (4, 1));
    assert_eq!(changed(&[(num(2), 0)]), (4, 6));
    assert_eq!(changed(&[(num(2), 0), (1, 512)]), (4, 6));
    assert_eq!(changed(&[(num(9), 2)]), (0, 0));
    assert_eq!(changed(&[(num(6), 2)]), (5, 10));
}

#[test]
fn bads() {
    assert_eq!(changed(&[(26, 41)]), (6, 26));
    assert_eq!(changed(&[(30, 9)]), (6, 26));
    assert_eq!(changed(&[(26, 44), (30, 0)]), (6, 26));
    assert_eq!(changed(&[(27, 43)]), (6, 27));
    assert_eq!(changed(&[(31, 3)]), (6, 27));
    assert_eq!(changed(&[(31, 2)]), (0, 0));
    assert_eq!(changed(&[(32, 0)]), (6, 28));
    assert_eq!(changed(&[(33, 1)]), (6, 29));
    assert_eq!(changed(&[(29, 40), (33, 10)]), (6, 30));
    assert_eq!(changed(&[(24, 2)]), (6, 30));
    assert_eq!(changed(&[(27, 41), (31, 3)]), (6, 27));
    assert_eq!(changed(&[(27, 41), (31, 1)]), (0, 0));
}

#[test]
fn entries() {
    assert_eq!(changed(&[(37, 3)]), (7, 37));
    assert_eq!(changed(&[(46, 1)]), (7, 37));
    assert_eq!(changed(&[(46, 11)]), (7, 37));
    assert_eq!(changed(&[(38, 0), (47, 10)]), (7, 38));
    assert_eq!(changed(&[(40, 2)]), (7, 40));
    assert_eq!(changed(&[(51, 1)]), (7, 42));
    assert_eq!(changed(&[(50, 0)]), (7, 41));
    assert_eq!(changed(&[(54, 8)]), (7, 45));
    // The third array: R or a call's row, of which A has none.
    assert_eq!(changed(&[(55, 4)]), (7, 41));
    assert_eq!(changed(&[(59, 11)]), (7, 45));
}

#[test]
fn open_tables() {
    assert_eq!(changed(&[(50, 2), (51, 3)]), (7, 42));
    assert_eq!(changed(&[(46, 2)]), (8, 41));
    assert_eq!(changed(&[(39, 1), (48, 10)]), (8, 43));
}

#[test]
fn bounds() {
    assert_eq!(changed(&[(62, 6)]), (10, 62));
    assert_eq!(changed(&[(62, 7)]), (10, 62));
    assert_eq!(changed(&[(73, 0)]), (10, 62));
    assert_eq!(changed(&[(63, 0)]), (10, 63));
    assert_eq!(changed(&[(68, 5)]), (10, 69));
    assert_eq!(changed(&[(60, 4)]), (10, 71));
    assert_eq!(changed(&[(60, 6)]), (10, 73));
    assert_eq!(changed(&[(60, 0)]), (10, 62));
    assert_eq!(changed(&[(83, 1)]), (10, 72));
    assert_eq!(changed(&[(62, 5)]), (11, 60));
}

#[test]
fn no_bounds_at_all() {
    let mut a = station_a();
    a.truncate(60);
    a.extend([0, 0]);
    assert_eq!(verdict(&bytes(&a)), (11, 60));
}

#[test]
fn leaks() {
    assert_eq!(changed(&[(68, 2)]), (13, 66));
    assert_eq!(changed(&[(79, 65_535)]), (13, 68));
    assert_eq!(changed(&[(80, 65_535)]), (12, 26));
    assert_eq!(changed(&[(80, 65_534)]), (12, 26));
}

#[test]
fn an_earlier_part_comes_first() {
    assert_eq!(changed(&[(0, 1536), (60, 257)]), (1, 0));
    let mut a = station_a();
    a[tag(0)] = 99;
    let mut longer = bytes(&a);
    longer.push(0);
    assert_eq!(verdict(&longer), (1, 84));
}

#[test]
fn the_same_counter_twice_in_a_bad_and_equal_bounds_are_allowed() {
    let mut a = station_a();
    a.splice(24..34, [1, 7, 40, 42, 43, 40, 42, 43, 44, 10, 0, 1, 10, 0, 2, 0]);
    assert_eq!(verdict(&bytes(&a)), (0, 0));
    let mut a = station_a();
    a.splice(62..62, [6, 0, 6]);
    a.splice(76..76, [0, 1, 0]);
    (a[60], a[61]) = (7, 14);
    assert_eq!(verdict(&bytes(&a)), (0, 0));
}
