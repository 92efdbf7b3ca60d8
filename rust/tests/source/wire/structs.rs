//! Fields of structs: as they are stored, with their defaults, and past the end of their section.

use super::reads::{messages_answer, scripts_are_answered};
use crate::rows::{row_file, RowFile};

static ROWS: RowFile = row_file!("structs.rows");

#[test]
fn numbers_read_with_their_defaults() {
    messages_answer(&ROWS.section("numbers"));
}

#[test]
fn a_union_reads_as_it_is_stored() {
    messages_answer(&ROWS.section("unions"));
}

#[test]
fn a_stored_number_is_the_value_and_the_default_xored() {
    messages_answer(&ROWS.section("stored numbers"));
}

#[test]
fn what_is_past_a_section_is_zero_or_null() {
    scripts_are_answered(&ROWS.section("past the sections"));
}

#[test]
fn a_part_that_cannot_be_followed_leaves_the_rest() {
    messages_answer(&ROWS.section("parts"));
}
