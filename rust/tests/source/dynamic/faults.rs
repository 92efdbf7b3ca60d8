//! What can't be read beside what still can, lists of each kind read as each other kind, and levels.

use super::script::assert_answers;
use crate::rows::{row_file, RowFile};

static ROWS: RowFile = row_file!("faults.rows");

#[test]
fn each_fault_beside_a_field_that_reads() {
    assert_answers(&ROWS.section("pointers"));
}

#[test]
fn lists_of_each_kind_as_each_other() {
    assert_answers(&ROWS.section("lists of each kind"));
}

#[test]
fn lists_beside_what_is_refused() {
    assert_answers(&ROWS.section("beside faults"));
}

#[test]
fn a_group_takes_no_level() {
    assert_answers(&ROWS.section("levels"));
}

#[test]
fn a_capability_has_no_size() {
    assert_answers(&ROWS.section("capability"));
}
