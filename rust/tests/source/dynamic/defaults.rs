//! Pointer fields whose default is an untyped null, in messages that hold nothing at them.

use super::script::assert_answers;
use crate::rows::{row_file, RowFile};

static ROWS: RowFile = row_file!("defaults.rows");

#[test]
fn untyped_defaults_are_empty() {
    assert_answers(&ROWS.section("untyped defaults"));
}
