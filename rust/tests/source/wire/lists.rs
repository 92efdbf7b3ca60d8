//! Lists: which of them are read as which, and their elements.

use super::reads::{messages_answer, scripts_are_answered};
use crate::rows::{row_file, RowFile};

static ROWS: RowFile = row_file!("lists.rows");

#[test]
fn lists_are_read_as_these_sizes() {
    messages_answer(&ROWS.section("sizes"));
}

#[test]
fn bytes_read_until_the_end_and_zero_after() {
    scripts_are_answered(&ROWS.section("bytes"));
}

#[test]
fn numbers_read_until_the_end_and_zero_after() {
    scripts_are_answered(&ROWS.section("numbers"));
}

#[test]
fn all_numbers_come_in_order() {
    scripts_are_answered(&ROWS.section("all numbers"));
}

#[test]
fn bits_read_until_the_end_and_false_after() {
    scripts_are_answered(&ROWS.section("bits"));
}

#[test]
fn lists_read_as_structs() {
    messages_answer(&ROWS.section("structs"));
}

#[test]
fn pointers_read_until_the_end_and_null_after() {
    messages_answer(&ROWS.section("pointers"));
}
