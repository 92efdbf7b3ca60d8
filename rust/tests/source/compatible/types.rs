//! Types that are related, and their nearest neighbours that aren't.

use super::script::pairs_hold;
use crate::fixtures::set_text::texts_in;
use crate::rows::{row_file, RowFile};

static ROWS: RowFile = row_file!("types.rows");

fn types_hold(section: &str) {
    pairs_hold(&texts_in(&ROWS.section("others")), &ROWS.section(section));
}

#[test]
fn types_that_stand_in_data() {
    types_hold("types_that_stand_in_data");
}

#[test]
fn types_that_take_a_pointer() {
    types_hold("types_that_take_a_pointer");
}

#[test]
fn structs_that_types_name() {
    types_hold("structs_that_types_name");
}

#[test]
fn chains_of_lists() {
    types_hold("chains_of_lists");
}
