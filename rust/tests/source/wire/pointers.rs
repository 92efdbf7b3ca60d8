//! Where pointers lead: bounds, far pointers and landing pads.

use super::reads::messages_answer;
use crate::rows::{row_file, RowFile};

static ROWS: RowFile = row_file!("pointers.rows");

#[test]
fn structs_lie_inside_their_segment() {
    messages_answer(&ROWS.section("in one segment"));
}

#[test]
fn far_pointers_and_landing_pads_lead_to_other_segments() {
    messages_answer(&ROWS.section("to other segments"));
}
