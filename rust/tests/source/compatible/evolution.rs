//! A struct of the built-in set with a successor whose union has grown: what each reads of the other, and changes that
//! make no successor.

use super::script::{answers_hold, answers_hold_of};
use crate::rows::{row_file, RowFile};

/// `memory.rs` reads the set `grown` of it too.
pub static ROWS: RowFile = row_file!("evolution.rows");

fn answers_hold_of_grown(section: &str) {
    answers_hold_of(&ROWS.section("grown"), &ROWS.section(section));
}

#[test]
fn a_struct_that_grew_is_a_successor() {
    answers_hold_of_grown("a_struct_that_grew_is_a_successor");
}

#[test]
fn each_reads_what_the_other_wrote() {
    answers_hold_of_grown("each_reads_what_the_other_wrote");
}

#[test]
fn a_member_that_was_added_is_unknown() {
    answers_hold_of_grown("a_member_that_was_added_is_unknown");
}

#[test]
fn one_change_of_a_field() {
    answers_hold(&ROWS.section("one_change_of_a_field"));
}

#[test]
fn one_change_of_the_union() {
    answers_hold(&ROWS.section("one_change_of_the_union"));
}
