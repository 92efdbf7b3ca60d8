//! Texts, data and untyped pointers at the root of a message, against bytes that the encoding says.

use super::calls::follow;
use crate::rows::{row_file, RowFile};

static ROWS: RowFile = row_file!("pointers.rows");

#[test]
fn a_text_is_set_and_written() {
    follow(&ROWS.section("set"));
}

#[test]
fn a_builder_copies_its_default() {
    follow(&ROWS.section("defaults"));
}

#[test]
fn pointers_are_built_by_type() {
    follow(&ROWS.section("built"));
}

#[test]
fn an_untyped_pointer_starts_as_a_null() {
    follow(&ROWS.section("started"));
}

#[test]
fn what_is_set_is_read() {
    follow(&ROWS.section("set and read"));
}
