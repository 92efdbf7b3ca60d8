//! A message of the public tool, patched to what the tool makes of the same values.

use super::cases::cases_hold;
use crate::fixtures::kinds::KINDS_SET;
use crate::fixtures::set_text::set_of;
use crate::rows::{row_file, RowFile};

static ROWS: RowFile = row_file!("tool.rows");

#[test]
fn a_message_of_the_public_tool_is_patched() {
    let section = ROWS.section("a_message_of_the_public_tool_is_patched");
    cases_hold(&set_of(KINDS_SET), &section, false);
}
