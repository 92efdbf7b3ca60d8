//! Lists: elements of one size read as another's, and lists that can't be read so.

use super::script::assert_answers;
use crate::rows::{row_file, RowFile};

static ROWS: RowFile = row_file!("lists.rows");

#[test]
fn elements_are_read_as_structs() {
    assert_answers(&ROWS.section("items"));
}

#[test]
fn a_fault_beside_fields_that_read() {
    assert_answers(&ROWS.section("bits"));
}
