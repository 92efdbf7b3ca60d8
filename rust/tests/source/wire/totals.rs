//! The words that a part of a message holds, and how much there is of what a pointer leads to.

use super::reads::{messages_answer, scripts_are_answered};
use crate::fixtures::bytes::{bytes_of, root_of};
use crate::fixtures::words::number;
use crate::rows::{assert_text, row_file, Reading, RowFile};

static ROWS: RowFile = row_file!("totals.rows");

#[test]
fn counts_each_object_or_is_refused_with_the_first_fault() {
    messages_answer(&ROWS.section("totals"));
}

#[test]
fn counts_a_struct_with_its_sections() {
    scripts_are_answered(&ROWS.section("structs"));
}

#[test]
fn counts_what_a_pointer_leads_to_within_a_limit() {
    for row in ROWS.section("unfolded").table() {
        let _reading = Reading(row.place);
        let [message, limit, wanted] = row.columns();
        let message = bytes_of(message);
        let root = root_of(&message).expect("it is a message");
        let size = root.unfolded_size(number(limit));
        let said = size.map_or("none".to_string(), |size| size.to_string());
        assert_text(row.place, &said, wanted);
    }
}
