//! How numbers and bits are read from bytes.

use super::reads::scripts_are_answered;
use crate::rows::{row_file, RowFile};

static ROWS: RowFile = row_file!("numbers.rows");

#[test]
fn reads_each_width() {
    scripts_are_answered(&ROWS.section("each width"));
}

#[test]
fn reads_zeros_past_the_end() {
    scripts_are_answered(&ROWS.section("past the end"));
}

#[test]
fn reads_up_to_the_end_and_past_it() {
    scripts_are_answered(&ROWS.section("to the end"));
}

#[test]
fn counts_bits_from_the_lowest() {
    scripts_are_answered(&ROWS.section("bits"));
}
