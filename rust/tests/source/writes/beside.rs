//! Builders that are given by value don't change what stands beside the part that they return.
//!
//! The tests start a field anew and set it back. Then the message has the same bytes as before.

use super::script::scripts_hold;
use crate::rows::{row_file, RowFile};

static ROWS: RowFile = row_file!("beside.rows");

#[test]
fn other_fields_stay() {
    scripts_hold(&ROWS.section("fields"));
}

#[test]
fn other_elements_stay() {
    scripts_hold(&ROWS.section("elements"));
}

#[test]
fn what_is_handed_out_changes_nothing() {
    scripts_hold(&ROWS.section("gets"));
}

#[test]
fn what_is_read_changes_nothing() {
    scripts_hold(&ROWS.section("reads"));
}

#[test]
fn a_list_is_not_opened() {
    scripts_hold(&ROWS.section("a root that is a list"));
}
