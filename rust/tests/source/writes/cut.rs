//! Sets of groups, whole and cut short by an error.

use super::script::scripts_hold;
use crate::rows::{row_file, RowFile};

static ROWS: RowFile = row_file!("cut.rows");

#[test]
fn a_group_that_is_set() {
    scripts_hold(&ROWS.section("groups"));
}

#[test]
fn a_member_comes_before_non_union_fields() {
    scripts_hold(&ROWS.section("a member"));
}

#[test]
fn an_untyped_element_is_not_written() {
    scripts_hold(&ROWS.section("untyped elements"));
}
