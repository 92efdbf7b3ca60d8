//! Words that are calls, and words that are none.

use super::words_in;
use crate::capnp_words::call::{parse_call, CallWord, WordOp};
use crate::capnp_words::path::Read;
use crate::rattle_std::alloc::Global;
use crate::rows::{assert_text, hex, row_file, RowFile, Section};

static ROWS: RowFile = row_file!("calls.rows");

/// An operation; the bytes of a value are shown in hexadecimal digits, before their place in the word.
fn op_text(op: &WordOp) -> String {
    match op {
        WordOp::Set(value, place) => format!("Set({}, {place})", hex(value)),
        WordOp::Append(value, place) => format!("Append({}, {place})", hex(value)),
        WordOp::Insert(index, value, place) => format!("Insert({index}, {}, {place})", hex(value)),
        WordOp::Copy(from) => format!("Copy({:?})", from.steps),
        _ => format!("{op:?}"),
    }
}

fn text_of(read: Read<CallWord>) -> String {
    match read {
        Ok(call) => format!("{} {:?}", op_text(&call.op), call.path.steps),
        Err(place) => format!("at {place}"),
    }
}

fn calls_are_read(section: &Section) {
    for row in words_in(section) {
        let read = parse_call(Global, &row.word).expect("there is memory");
        assert_text(row.place, &text_of(read), row.wanted);
    }
}

#[test]
fn words_are_calls() {
    calls_are_read(&ROWS.section("words_are_calls"));
}

#[test]
fn other_words_are_told_with_a_place() {
    calls_are_read(&ROWS.section("other_words_are_told_with_a_place"));
}
