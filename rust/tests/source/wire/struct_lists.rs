//! Lists of structs, and the fields beside them.

use super::reads::messages_answer;
use crate::rows::{row_file, RowFile};

static ROWS: RowFile = row_file!("struct_lists.rows");

#[test]
fn lists_of_structs_keep_to_their_words() {
    messages_answer(&ROWS.section("lists"));
}

#[test]
fn each_field_is_refused_alone() {
    messages_answer(&ROWS.section("fields"));
}
