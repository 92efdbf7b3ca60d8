//! Defaults that are the same, and their nearest neighbours that aren't.

use super::script::{answers_hold, pairs_hold};
use crate::fixtures::set_text::texts_in;
use crate::rows::{row_file, RowFile};

static ROWS: RowFile = row_file!("defaults.rows");

#[test]
fn defaults_of_one_type() {
    pairs_hold(
        &texts_in(&ROWS.section("others")),
        &ROWS.section("defaults_of_one_type"),
    );
}

#[test]
fn defaults_that_are_integers() {
    answers_hold(&ROWS.section("defaults_that_are_integers"));
}

#[test]
fn defaults_with_parts() {
    pairs_hold(&texts_in(&ROWS.section("others")), &ROWS.section("defaults_with_parts"));
}
