//! What is recorded is compared with a file that is there, line by line and to its end.

use lunkaseyo_compare::kept::assert_kept;

const FILE: &str = "crates/blockbench/stdout";
const KEPT: &str = include_str!("../../../crates/blockbench/stdout");

#[test]
fn the_file_itself() {
    assert_kept(FILE, KEPT);
}

#[test]
#[should_panic(expected = "No such file")]
fn a_file_that_is_not_there() {
    assert_kept("crates/blockbench/nowhere", KEPT);
}

#[test]
#[should_panic(expected = "line 2 of crates/blockbench/stdout")]
fn another_line() {
    assert_kept(FILE, &KEPT.replacen("\n0", "\n1", 1));
}

#[test]
#[should_panic(expected = "the length of crates/blockbench/stdout")]
fn a_line_more() {
    assert_kept(FILE, &format!("{KEPT}0 0 0 0\n"));
}

#[test]
#[should_panic(expected = "the length of crates/blockbench/stdout")]
fn none() {
    assert_kept(FILE, "");
}
