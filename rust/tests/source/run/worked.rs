//! Lists of calls on the built-in structs, each with its answer, and the text or the bytes that they leave.

use super::cases::cases_hold;
use crate::capnp_schema::builtin::new_set;
use crate::fixtures::set_text::set_in;
use crate::rattle_std::alloc::Global;
use crate::rows::{row_file, RowFile};

static ROWS: RowFile = row_file!("worked.rows");

fn built_in_cases_hold(section: &str) {
    let schemas = new_set(Global).expect("there is memory");
    cases_hold(&schemas, &ROWS.section(section));
}

#[test]
fn worked_lists_of_calls() {
    built_in_cases_hold("worked_lists_of_calls");
}

#[test]
fn what_is_written_is_the_messages_bytes() {
    built_in_cases_hold("what_is_written_is_the_messages_bytes");
}

#[test]
fn a_group_that_is_cut_by_an_untyped_field() {
    built_in_cases_hold("a_group_that_is_cut_by_an_untyped_field");
}

#[test]
fn a_group_that_is_cut_by_a_text() {
    built_in_cases_hold("a_group_that_is_cut_by_a_text");
}

#[test]
fn a_group_that_is_cut_by_its_member() {
    let schemas = set_in(&ROWS.section("grouped"));
    cases_hold(&schemas, &ROWS.section("a_group_that_is_cut_by_its_member"));
}
