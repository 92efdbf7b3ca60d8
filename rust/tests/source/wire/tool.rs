//! Messages that the public `capnp` tool, version 0.9.2, wrote from `examples/reading.capnp`.

use super::reads::{assert_answers, scripts_are_answered};
use crate::fixtures::wire_messages::seven_segments;
use crate::rows::{row_file, Reading, RowFile};

static ROWS: RowFile = row_file!("tool.rows");

#[test]
fn one_segment_reads() {
    scripts_are_answered(&ROWS.section("in one segment"));
}

#[test]
fn seven_segments_read() {
    let message = seven_segments();
    for row in ROWS.section("in seven segments").table() {
        let _reading = Reading(row.place);
        let [script, wanted] = row.columns();
        assert_answers(row.place, &message, script, wanted);
    }
}
