//! Calls that return an error, and what the pointer leads to after them.

use super::calls::{assert_words, follow, new_message, rows_of, Row};
use crate::capnp_arena::message::Builder as Message;
use crate::capnp_wire::error::ErrorKind;
use crate::capnp_wire::size::ElementSize;
use crate::refusing::refuse_each;
use crate::rows::{row_file, RowFile};

static ROWS: RowFile = row_file!("refusals.rows");

#[test]
fn past_the_format_what_stood_there_stands() {
    follow(&ROWS.section("past the format"));
}

#[test]
fn a_bad_default_leaves_a_null() {
    follow(&ROWS.section("bad defaults"));
}

#[test]
fn what_is_not_read_so_stands() {
    follow(&ROWS.section("not read so"));
}

#[test]
fn a_null_without_a_default_stays_null() {
    follow(&ROWS.section("nulls"));
}

#[test]
fn a_refused_set_leaves_what_stood_there() {
    follow(&ROWS.section("refused sets"));
}

/// The words that a new message has room for.
const ROOM: u64 = 128;

/// A copy of a message in a segment that has no room left, so that a call that makes something takes memory.
fn full_copy_of(message: &Message) -> Message {
    let words = message.size_in_words().expect("it has few levels");
    let others = u32::try_from(ROOM - words).expect("the room is small");
    let mut copy = new_message();
    copy.init_list(0, ElementSize::EightBytes, others)
        .expect("there is memory");
    copy.copy_from(0, message.peek(0)).expect("there is memory");
    copy
}

/// Makes the call of a row on copies of a message, with each request for memory refused in turn, and asserts that a
/// refused call returns `OutOfMemory` and leaves the words before it. Returns how many requests there are.
fn refuse_each_of(row: &Row, message: &Message, before: &[u8]) -> u64 {
    refuse_each(
        || full_copy_of(message),
        |copy| row.call.make(copy).err().map(|error| error.kind),
        |mut copy, refusal, is_refused| {
            let whole = (None, row.words);
            let refused = (Some(ErrorKind::OutOfMemory), before);
            let (wanted, words) = if is_refused { refused } else { whole };
            assert_eq!(refusal, wanted, "{}", row.place);
            assert_words(row.place, &mut copy, words);
        },
    )
}

#[test]
fn without_memory_what_stood_there_stands() {
    let mut message = new_message();
    let mut before: &[u8] = &[0; 8];
    for row in rows_of(&ROWS.section("without memory")) {
        let requests = refuse_each_of(&row, &message, before);
        let takes_memory = row.answer != "done";
        assert_eq!(requests > 0, takes_memory, "{}: {requests} requests", row.place);
        row.assert_answer(row.call.make(&mut message));
        before = row.words;
    }
}
