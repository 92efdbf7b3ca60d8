//! Messages in a stream: the segment table, and what a source gives.

use super::reads::{answers, assert_answers};
use crate::capnp_wire::error::ErrorKind::{self, ReadFailed};
use crate::capnp_wire::memory::MemorySource;
use crate::capnp_wire::transfer::read_all;
use crate::fixtures::bytes::{answer, bytes_of};
use crate::rattle_std::alloc::Global;
use crate::rows::{assert_bytes, row_file, Reading, Row, RowFile, Section};

static ROWS: RowFile = row_file!("streams.rows");

/// The bytes of a row's message, and the number at the start of its root.
fn read_row(row: &Row) -> (Vec<u8>, &str) {
    let [message, number] = row.columns();
    (bytes_of(message), number)
}

/// Asserts that each message of a section has the number at the start of its root.
#[track_caller]
fn messages_have_numbers(section: &Section) {
    for row in section.table() {
        let _reading = Reading(row.place);
        let (message, number) = read_row(&row);
        assert_answers(row.place, &message, "message.struct.u16 0", number);
    }
}

#[test]
fn each_beginning_is_truncated() {
    for row in ROWS.section("messages").table() {
        let _reading = Reading(row.place);
        let (message, _) = read_row(&row);
        for end in 0..message.len() {
            let said = answers(&message[..end], "message");
            assert_eq!(said, "refused 2", "{}: the first {end} bytes", row.place);
        }
    }
}

#[test]
fn tables_are_looked_at_in_order() {
    messages_have_numbers(&ROWS.section("tables"));
}

#[test]
fn there_may_be_512_segments() {
    // 4 bytes for the count and 4 for each segment, 4 of padding, and a first segment of one null word
    let mut message = [0u8; 2064];
    message[0] = 0xff;
    message[1] = 0x01;
    message[4] = 1;
    assert_eq!(answers(&message, "message.null"), "true");
    assert_eq!(answers(&message[..2063], "message"), "refused 2");
}

/// What is read from a source that gives a byte in a call, and of which so many calls work.
fn read_slowly(bytes: &[u8], works: Option<u64>) -> Result<Vec<u8>, ErrorKind> {
    let mut source = MemorySource::new(bytes, 1, works);
    answer(read_all(Global, &mut source)).map(Vec::from)
}

#[test]
fn a_message_reads_from_a_slow_source() {
    messages_have_numbers(&ROWS.section("messages"));
    for row in ROWS.section("messages").table() {
        let _reading = Reading(row.place);
        let (message, _) = read_row(&row);
        let read = read_slowly(&message, None).expect("no call fails");
        assert_bytes(row.place, &read, &message);
    }
}

#[test]
fn a_source_that_fails_gives_no_message() {
    let (message, _) = read_row(&ROWS.section("messages").table()[0]);
    // a call for each byte, and one that finds the end
    let calls = message.len() as u64 + 1;
    for works in 0..calls {
        let read = read_slowly(&message, Some(works));
        assert_eq!(read, Err(ReadFailed), "after {works} calls");
    }
    assert_eq!(read_slowly(&message, Some(calls)), Ok(message));
}
