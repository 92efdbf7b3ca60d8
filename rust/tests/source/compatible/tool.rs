//! Messages that the public `capnp` tool, version 0.9.2, wrote under two versions of one file: each is read under both.

use super::script::answers_hold_of;
use crate::rows::{row_file, RowFile};

static ROWS: RowFile = row_file!("tool.rows");

fn answers_hold_of_stations(section: &str) {
    answers_hold_of(&ROWS.section("stations"), &ROWS.section(section));
}

#[test]
fn each_version_reads_what_the_other_wrote() {
    answers_hold_of_stations("each_version_reads_what_the_other_wrote");
}

#[test]
fn each_struct_of_the_file_has_its_successor() {
    answers_hold_of_stations("each_struct_of_the_file_has_its_successor");
}
