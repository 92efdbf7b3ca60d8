//! Messages of older and newer writers: structs and lists that are smaller or larger than their schemas say.

use super::script::scripts_hold;
use crate::rows::{row_file, RowFile};

static ROWS: RowFile = row_file!("older.rows");

#[test]
fn what_is_smaller_is_extended() {
    scripts_hold(&ROWS.section("smaller"));
}

#[test]
fn what_is_larger_stays_or_is_filled() {
    scripts_hold(&ROWS.section("larger"));
}
