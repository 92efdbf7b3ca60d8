//! Fields and unions at their places, and groups, with their nearest neighbours.

use super::script::{answers_hold, pairs_hold};
use crate::rows::{row_file, RowFile};

static ROWS: RowFile = row_file!("shapes.rows");

#[test]
fn fields_at_their_places() {
    pairs_hold(&[], &ROWS.section("fields_at_their_places"));
}

#[test]
fn unions_at_their_places() {
    pairs_hold(&[], &ROWS.section("unions_at_their_places"));
}

#[test]
fn groups_and_slots() {
    answers_hold(&ROWS.section("groups_and_slots"));
}
