//! Lists of calls on empty roots and on copies of messages: the report, and the message that is written.

use super::cases::cases_hold;
use crate::capnp_schema::builtin::new_set;
use crate::rattle_std::alloc::Global;
use crate::rows::{row_file, RowFile};

static ROWS: RowFile = row_file!("patches.rows");

fn built_in_cases_hold(section: &str, keeps_going: bool) {
    let schemas = new_set(Global).expect("there is memory");
    cases_hold(&schemas, &ROWS.section(section), keeps_going);
}

#[test]
fn messages_are_made_of_calls() {
    built_in_cases_hold("messages_are_made_of_calls", false);
}

#[test]
fn a_refused_call_keeps_nothing_else_from_being_made() {
    built_in_cases_hold("refused calls", true);
}

#[test]
fn a_refused_call_keeps_a_message_from_being_written() {
    built_in_cases_hold("refused calls", false);
}

#[test]
fn messages_are_patched() {
    built_in_cases_hold("messages_are_patched", false);
}

#[test]
fn a_refused_call_in_the_middle_of_a_patch() {
    for keeps_going in [false, true] {
        built_in_cases_hold("a_refused_call_in_the_middle_of_a_patch", keeps_going);
    }
}
