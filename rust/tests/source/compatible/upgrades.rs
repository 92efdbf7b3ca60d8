//! Lists of numbers, texts and lists that became lists of structs. Of each set `Tally` is struct 9, `Tally2` struct 10,
//! and `Pair`, which stands where an element stood, struct 11.

use super::script::{answers_hold, answers_hold_of, lists_hold};
use crate::rows::{row_file, RowFile};

static ROWS: RowFile = row_file!("upgrades.rows");

fn answers_hold_of_numbers(section: &str) {
    answers_hold_of(&ROWS.section("numbers"), &ROWS.section(section));
}

#[test]
fn a_list_became_one_of_structs() {
    answers_hold_of_numbers("a_list_became_one_of_structs");
}

#[test]
fn numbers_are_read_under_both() {
    answers_hold_of_numbers("numbers_are_read_under_both");
}

#[test]
fn a_list_of_another_size_is_refused() {
    answers_hold_of_numbers("a_list_of_another_size_is_refused");
}

#[test]
fn texts_are_read_under_both() {
    answers_hold(&ROWS.section("texts_are_read_under_both"));
}

#[test]
fn which_field_stands_first() {
    lists_hold(&ROWS.section("which_field_stands_first"));
}

#[test]
fn which_elements_become_structs() {
    lists_hold(&ROWS.section("which_elements_become_structs"));
}

#[test]
fn a_default_that_changes_something() {
    lists_hold(&ROWS.section("a_default_that_changes_something"));
}
