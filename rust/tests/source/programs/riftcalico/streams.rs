//! Messages that follow one another: the program treats each, until one ends the run or none is left.

use crate::programs::devices::{Device, FAST};
use crate::programs::rows::{check_rows, rows_of};
use crate::rows::{row_file, RowFile};

const STREAMS: RowFile = row_file!("streams.rows");

#[test]
fn messages_are_answered_one_after_another() {
    check_rows(&STREAMS.section("streams"));
}

#[test]
fn a_device_that_fails_ends_the_stream() {
    for row in rows_of(&STREAMS.section("a write that fails")) {
        row.check_over(FAST.failing(Device::Output, 1), &row.wanted);
    }
}
