//! Reads of a struct with a field of every kind, from messages that the public `capnp` tool made.

use super::script::assert_answers;
use crate::rows::{row_file, RowFile};

static ROWS: RowFile = row_file!("kinds.rows");

#[test]
fn every_kind_of_field() {
    assert_answers(&ROWS.section("fields"));
}

#[test]
fn every_kind_of_element() {
    assert_answers(&ROWS.section("elements"));
}

#[test]
fn structs_behind_pointers() {
    assert_answers(&ROWS.section("structs"));
}
