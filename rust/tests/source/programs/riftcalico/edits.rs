//! Lists that calls edit, and structs and lists that they set.

use crate::programs::rows::{bytes_in, check_rows, check_rows_with};
use crate::rows::{row_file, RowFile};

const EDITS: RowFile = row_file!("edits.rows");

#[test]
fn lists_are_edited() {
    check_rows(&EDITS.section("edits"));
}

#[test]
fn structs_and_lists_are_given_as_json() {
    check_rows(&EDITS.section("JSON values"));
}

#[test]
fn structs_and_lists_are_given_as_printed() {
    check_rows(&EDITS.section("printed values"));
}

#[test]
fn lists_in_lists_are_given_as_printed() {
    let set = bytes_in(&EDITS.section("set of Rows"));
    check_rows_with(&EDITS.section("lists in lists"), &[("set", &set)]);
}
