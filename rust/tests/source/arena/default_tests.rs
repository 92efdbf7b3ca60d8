//! Structs and lists that are got, also where a null is filled from a default first.

use super::calls::follow_changes;
use crate::rows::{row_file, RowFile};

const DEFAULTS: RowFile = row_file!("defaults.rows");

#[test]
fn structs_are_got_and_filled_from_defaults() {
    follow_changes(&DEFAULTS.section("structs").table());
}

#[test]
fn lists_are_got_and_filled_from_defaults() {
    follow_changes(&DEFAULTS.section("lists").table());
}

#[test]
fn lists_of_structs_are_got_and_filled_from_defaults() {
    follow_changes(&DEFAULTS.section("lists of structs").table());
}

#[test]
fn what_is_no_struct_is_refused() {
    follow_changes(&DEFAULTS.section("what is no struct").table());
}

#[test]
fn what_is_no_such_list_is_refused() {
    follow_changes(&DEFAULTS.section("what is no such list").table());
}
