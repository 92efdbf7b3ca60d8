//! Messages that are built and copied call by call, and calls that memory is refused to.

use super::calls::{follow, follow_changes, parts_of, read_call};
use super::new_message;
use crate::capnp_arena::message::Builder;
use crate::capnp_arena::segment::bytes_of;
use crate::capnp_wire::error::{ErrorKind, Result};
use crate::capnp_wire::size::ElementSize;
use crate::rattle_std::alloc::Global;
use crate::refusing::refuse_each;
use crate::rows::{assert_bytes, assert_text, row_file, Place, RowFile};

const CALLS: RowFile = row_file!("calls.rows");

const COPIES: RowFile = row_file!("copies.rows");

#[test]
fn a_null_becomes_what_fits() {
    follow(&CALLS.section("a null").table());
}

#[test]
fn texts_and_structs_are_made() {
    follow(&CALLS.section("structs, texts and data").table());
}

#[test]
fn lists_are_made() {
    follow(&CALLS.section("lists").table());
    follow(&CALLS.section("lists of structs, and shorter lists").table());
}

#[test]
fn a_list_without_elements_is_empty() {
    follow(&CALLS.section("lists without elements").table());
}

#[test]
fn a_null_is_lent_as_bytes_whatever_it_was_got_as() {
    follow(&CALLS.section("a null as a list of pointers").table());
}

#[test]
fn a_segment_that_would_be_too_long_is_refused() {
    follow(&CALLS.section("a full segment").table());
}

#[test]
fn lists_are_written_as_they_were() {
    follow(&COPIES.section("lists that are copied").table());
    follow(&COPIES.section("lists of structs of size zero that are copied").table());
}

#[test]
fn nulls_are_copied_as_lists() {
    follow(&COPIES.section("nulls that are copied as lists").table());
}

#[test]
fn elements_are_copied_as_structs() {
    follow(&COPIES.section("elements that are copied as structs").table());
}

#[test]
fn contents_are_taken_over() {
    follow(&COPIES.section("contents that are copied").table());
    follow(&COPIES.section("more contents that are copied").table());
}

#[test]
fn bytes_are_lent_and_written_through() {
    follow(&CALLS.section("bytes that are lent").table());
    follow(&CALLS.section("a text, and new bytes").table());
}

#[test]
fn bytes_that_are_not_there_are_refused() {
    follow(&CALLS.section("too many bytes").table());
    follow(&CALLS.section("no bytes to lend").table());
    follow(&CALLS.section("texts without their zero").table());
}

#[test]
fn lists_of_each_kind_become_lists_of_structs() {
    follow_changes(&COPIES.section("lists become lists of structs").table());
}

#[test]
fn the_longest_list_becomes_one_of_structs() {
    follow(&COPIES.section("the longest list becomes one of structs").table());
}

/// The words that a new message has room for.
const ROOM: u32 = 128;

/// A message whose root is null, and whose segment has room for so many words with the root pointer's. A list that was
/// cleared fills the rest.
fn with_room(words: u32) -> Builder {
    let mut message = new_message();
    let list = message.init_list(0, ElementSize::EightBytes, ROOM - words);
    list.expect("there is memory");
    message.root().clear();
    message
}

fn written(message: &Builder) -> Vec<u8> {
    message.write_message().expect("there is memory").into()
}

/// Makes a call on a message of `start` with each of its requests for memory refused in turn, and then with none. A
/// refused call returns `OutOfMemory`, and the message and its segment are then the same as before. Returns how many
/// requests there are.
fn refuse_in_turn<T>(
    place: Place,
    start: impl Fn() -> Builder,
    call: impl Fn(&mut Builder) -> Result<T>,
    then: &str,
) -> u64 {
    let mut before = start();
    let (parts, bytes, segment) = (parts_of(&mut before), written(&before), bytes_of(&before));
    let see = |mut message: Builder, made: Result<T>, is_refused: bool| {
        let kind = made.err().map(|error| error.kind);
        assert_eq!(kind, is_refused.then_some(ErrorKind::OutOfMemory), "{place}");
        if is_refused {
            assert_text(place, &parts_of(&mut message), &parts);
            assert_bytes(place, &written(&message), &bytes);
            assert!(bytes_of(&message) == segment, "{place}: the segment is another one");
        } else {
            assert_text(place, &parts_of(&mut message), then);
        }
    };
    refuse_each(&start, call, see)
}

/// Each call is made where the segment is full, and where it has room for a few words, so that the first parts of what
/// the call makes fit.
#[test]
fn a_refused_call_changes_nothing() {
    for row in CALLS.section("calls that take memory").table() {
        let place = row.place;
        let [first, before, call, then] = row.columns();
        let (first, call) = (read_call(&place, first), read_call(&place, call));
        let words = before.split(' ').next().and_then(|word| word.parse::<u32>().ok());
        let words = words.unwrap_or_else(|| panic!("{place}: {before:?} has no number of words"));
        for free in 0..8 {
            let start = || {
                let mut message = with_room(words + free);
                let made = first(&mut message);
                assert!(made.is_ok(), "{place}: {made:?}");
                message
            };
            assert_text(place, &parts_of(&mut start()), before);
            let requests = refuse_in_turn(place, start, &call, then);
            assert!(requests > 0 || free > 0, "{place}: the call takes no memory");
            refuse_in_turn(place, start, |message| message.write_message(), before);
        }
    }
}

#[test]
fn a_new_message_is_refused_without_memory() {
    let see = |(), made: Result<Builder>, is_refused: bool| {
        let kind = made.err().map(|error| error.kind);
        assert_eq!(kind, is_refused.then_some(ErrorKind::OutOfMemory));
    };
    let requests = refuse_each(|| (), |()| Builder::new(Global), see);
    assert!(requests > 0);
}
