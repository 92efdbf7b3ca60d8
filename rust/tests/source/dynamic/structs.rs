//! Fields of structs: numbers, defaults, unions, and messages that are short.

use super::script::assert_answers;
use crate::rows::{row_file, RowFile};

static ROWS: RowFile = row_file!("structs.rows");

#[test]
fn a_struct_with_a_union() {
    assert_answers(&ROWS.section("union"));
}

#[test]
fn a_discriminant_names_a_member_or_none() {
    assert_answers(&ROWS.section("members"));
}

#[test]
fn numbers_and_their_defaults() {
    assert_answers(&ROWS.section("numbers"));
}

#[test]
fn a_name_that_no_field_has() {
    assert_answers(&ROWS.section("names"));
}
