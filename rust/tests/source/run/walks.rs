//! Walks along paths: the order of the tests of a step, steps through defaults and past what can't be read, and which
//! nulls a failed call leaves filled.

use super::cases::cases_hold;
use crate::capnp_schema::builtin::new_set;
use crate::fixtures::set_text::set_in;
use crate::rattle_std::alloc::Global;
use crate::rows::{row_file, RowFile};

static ROWS: RowFile = row_file!("walks.rows");

fn built_in_cases_hold(section: &str) {
    let schemas = new_set(Global).expect("there is memory");
    cases_hold(&schemas, &ROWS.section(section));
}

#[test]
fn steps_are_tested_and_fill_nulls() {
    built_in_cases_hold("steps_are_tested_and_fill_nulls");
}

#[test]
fn a_default_that_feeds_itself_has_no_text() {
    built_in_cases_hold("a_default_that_feeds_itself_has_no_text");
}

#[test]
fn steps_go_into_defaults() {
    let schemas = set_in(&ROWS.section("default_set"));
    cases_hold(&schemas, &ROWS.section("steps_go_into_defaults"));
}

#[test]
fn faults_refuse_what_reads_them_alone() {
    built_in_cases_hold("faults_refuse_what_reads_them_alone");
}
