//! Texts and data.

use super::reads::messages_answer;
use crate::rows::{row_file, RowFile};

static ROWS: RowFile = row_file!("blobs.rows");

#[test]
fn byte_lists_read_as_data_and_as_text() {
    messages_answer(&ROWS.section("blobs"));
}

#[test]
fn other_pointers_are_no_text() {
    messages_answer(&ROWS.section("no blobs"));
}
