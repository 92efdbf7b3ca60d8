//! What a struct or a list says of its own size.

use super::reads::{messages_answer, scripts_are_answered};
use crate::rows::{row_file, RowFile};

static ROWS: RowFile = row_file!("sizes.rows");

#[test]
fn a_struct_has_its_sections() {
    messages_answer(&ROWS.section("structs"));
}

#[test]
fn a_list_has_the_size_of_its_elements() {
    scripts_are_answered(&ROWS.section("lists"));
}
