//! The texts of values: a struct with a field of every kind, in messages that the public `capnp` tool made of the
//! values of `examples/kinds.txt`, and the debug forms of readers.

use super::script::assert_answers;
use crate::rows::{row_file, RowFile};

static ROWS: RowFile = row_file!("prints.rows");

#[test]
fn every_kind_of_field_is_printed() {
    assert_answers(&ROWS.section("fields"));
}

#[test]
fn values_are_printed_as_they_are() {
    assert_answers(&ROWS.section("values"));
}

#[test]
fn a_text_that_is_too_long_is_refused() {
    assert_answers(&ROWS.section("limits"));
}

#[test]
fn a_print_is_appended_whole_or_not() {
    assert_answers(&ROWS.section("appended"));
}

#[test]
fn debug_forms_are_the_printed_ones() {
    assert_answers(&ROWS.section("debug"));
}
