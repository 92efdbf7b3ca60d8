//! Calls that run out of memory: each request of each call is refused in turn.

use super::calls::Call;
use super::script::{copy_of, printed, written, Start};
use super::values::{data_in, must};
use crate::capnp_arena::message::Builder;
use crate::capnp_wire::error::ErrorKind;
use crate::capnp_wire::size::ElementSize;
use crate::fixtures::bytes::{answer, root_of};
use crate::rattle_std::alloc::Global;
use crate::refusing::refuse_each;
use crate::rows::{assert_bytes, assert_text, row_file, Place, RowFile};

static ROWS: RowFile = row_file!("memory.rows");

/// How many words a new message can have before it allocates again.
const CAPACITY: u64 = 128;

/// A copy of a message in a segment without free words, so that a call has to allocate if it makes something.
fn full(place: Place, bytes: &[u8]) -> Builder {
    let words = must(place, copy_of(place, bytes).size_in_words());
    let others = CAPACITY.checked_sub(words).expect("the message is small") as u32;
    let mut message = must(place, Builder::new(Global));
    must(place, message.init_list(0, ElementSize::EightBytes, others));
    must(place, message.copy_from(0, must(place, root_of(bytes))));
    message
}

/// Makes a call again and again, refuses each of its requests in turn, and compares what the call returns. Each time,
/// `see` gets the message after the call, and whether a request was refused. Returns the number of requests.
fn refuse(place: Place, start: &Start, text: &str, mut see: impl FnMut(&Builder, bool)) -> u64 {
    let data = data_in(text);
    let call = Call::read(place, &start.schemas, text, &data);
    let bytes = written(place, &start.message());
    refuse_each(
        || full(place, &bytes),
        |message| start.open(message).and_then(|root| call.make(root)),
        |message, returned, is_refused| {
            let wanted = if is_refused {
                Err(ErrorKind::OutOfMemory)
            } else {
                Ok(())
            };
            assert_eq!(answer(returned), wanted, "{place}: {text}");
            see(&message, is_refused);
        },
    )
}

/// Refuses each request of the calls in a section, which then change nothing. For each call, `see` gets the number of
/// requests.
fn nothing_changes(section: &str, see: impl Fn(Place, u64)) {
    for block in ROWS.section(section).blocks() {
        let (head, lines) = block.lines.split_first().expect("a block has lines");
        let start = Start::read(head.place, head.text);
        let before = written(head.place, &start.message());
        for line in lines {
            let requests = refuse(line.place, &start, line.text, |message, is_refused| {
                if is_refused {
                    assert_bytes(line.place, &written(line.place, message), &before);
                }
            });
            see(line.place, requests);
        }
    }
}

#[test]
fn a_refused_call_changes_nothing() {
    nothing_changes("calls that allocate", |place, requests| {
        assert_ne!(requests, 0, "{place}: no request");
    });
    nothing_changes("calls that don't allocate", |place, requests| {
        assert_eq!(requests, 0, "{place}: requests");
    });
}

#[test]
fn a_group_that_is_cut_by_memory() {
    for row in ROWS.section("a group").table() {
        let [built, call, whole, cut] = row.columns();
        let start = Start::read(row.place, built);
        let requests = refuse(row.place, &start, call, |message, is_refused| {
            let wanted = if is_refused { cut } else { whole };
            let left = must(row.place, printed(message, start.schema()));
            assert_text(row.place, &left, wanted);
        });
        assert_ne!(requests, 0, "{}: no request", row.place);
    }
}
