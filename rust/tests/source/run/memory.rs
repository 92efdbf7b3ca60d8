//! Runs that run out of memory: each request of a run is refused in turn.
//!
//! A block is a case, as `cases.rs` has them. Its calls are made on a copy of the message in a segment without free
//! words, so that a call has to allocate if it makes something.
//!
//! The first request is for the list of the replies. If it is refused, the run fails and the message stays as it is. If
//! a later one is refused, the call that made it fails with `OutOfMemory`, and the run goes on. Where that makes a
//! difference, the line has both answers: `get items -> List(2) | List(0)`.

use super::calls::{assert_answers, calls_of};
use super::cases::{cases_hold, Case};
use super::messages::root;
use crate::capnp_arena::arena::Place as At;
use crate::capnp_arena::message::Builder;
use crate::capnp_dynamic::dynamic_struct;
use crate::capnp_dynamic::dynamic_value::Reader as Value;
use crate::capnp_dynamic::printer::print;
use crate::capnp_run::calls::Reply;
use crate::capnp_run::run::run;
use crate::capnp_schema::builtin::new_set;
use crate::capnp_schema::set::SchemaSet;
use crate::capnp_slots::size_of;
use crate::capnp_wire::error::{ErrorKind, Result};
use crate::capnp_wire::size::ElementSize;
use crate::fixtures::bytes::{answer, root_of};
use crate::rattle_std::alloc::Global;
use crate::rattle_std::string::String as LayerString;
use crate::rattle_std::vec::Vec as List;
use crate::refusing::refuse_each;
use crate::rows::{assert_bytes, assert_text, row_file, Place, RowFile, Section};

static ROWS: RowFile = row_file!("memory.rows");

/// The words that a new message has room for.
const ROOM: u64 = 128;

/// The answer of a row, or the text that is left, if a call runs out of memory or if none does.
fn side(text: &'static str, is_refused: bool) -> &'static str {
    let (whole, refused) = text.split_once(" | ").unwrap_or((text, text));
    if is_refused {
        refused
    } else {
        whole
    }
}

fn written(message: &Builder) -> Vec<u8> {
    message.write_message().expect("there is memory").into()
}

/// A message whose root is a copy of the case's, in a segment that has no room left, and where that root stands.
fn full(case: &Case<'_>) -> (Builder, At) {
    let size = size_of(case.schema);
    let bytes = case.start.expect("the case names a message");
    let mut alone = Builder::new(Global).expect("there is memory");
    alone
        .set_root(root_of(bytes).expect("it is a message"))
        .expect("there is memory");
    alone.get_struct(0, size).expect("the root is a struct");
    let words = alone.size_in_words().expect("the words can be counted");
    let others = ROOM.checked_sub(words).expect("the message is small");
    let mut message = Builder::new(Global).expect("there is memory");
    message
        .init_list(0, ElementSize::EightBytes, others as u32)
        .expect("there is memory");
    message
        .copy_from(0, alone.get_pointer_reader(0))
        .expect("there is memory");
    let place = message.get_struct(0, size).expect("the root is a struct");
    (message, place)
}

/// Asserts that a call failed with `OutOfMemory` if a request of it was refused, and else did not.
fn is_refused_for_memory<T>(place: Place, called: &Result<T>, is_refused: bool) {
    let kind = called.as_ref().err().map(|error| error.kind);
    assert_eq!(kind, is_refused.then_some(ErrorKind::OutOfMemory), "{place}");
}

/// Refuses each request of what writes a message, and of what prints its root: the message stays as it is, and nothing
/// is printed. Returns the text.
fn refuse_writing(case: &Case<'_>, message: &Builder) -> String {
    let place = case.leaves.place;
    let bytes = written(message);
    let see_bytes = |(), made: Result<List<u8>>, is_refused| {
        is_refused_for_memory(place, &made, is_refused);
        assert_bytes(place, made.as_deref().unwrap_or(&bytes), &bytes);
        assert_bytes(place, &written(message), &bytes);
    };
    assert_ne!(
        refuse_each(|| (), |()| message.write_message(), see_bytes),
        0,
        "{place}"
    );
    let value = Value::Struct(root(case.schema, &bytes));
    let mut text = LayerString::new(Global);
    let see_text = |out: LayerString, printed, is_refused| {
        is_refused_for_memory(place, &printed, is_refused);
        assert_eq!(out.is_empty(), is_refused, "{place}: {out}");
        text = out;
    };
    let print_root = |out: &mut LayerString| print(value, out, false);
    assert_ne!(
        refuse_each(|| LayerString::new(Global), print_root, see_text),
        0,
        "{place}"
    );
    text.into()
}

/// Refuses each request of a case's run in turn. Returns how many there are.
fn refuse_run(case: &Case<'_>) -> u64 {
    let (place, schema) = (case.place, case.schema);
    let calls = calls_of(&case.calls);
    let before = written(&full(case).0);
    let mut refused_runs = 0;
    let make_calls = |(arena, place): &mut (Builder, At)| {
        let place = *place;
        run(Global, dynamic_struct::Builder { arena, place, schema }, &calls)
    };
    let see = |(message, _): (Builder, At), replies: Result<List<Reply>>, is_refused| match answer(replies) {
        Ok(replies) => {
            assert_answers(&case.calls, &replies, |answer| side(answer, is_refused));
            let text = refuse_writing(case, &message);
            assert_text(case.leaves.place, &text, side(case.leaves.text, is_refused));
        }
        Err(kind) => {
            assert!(is_refused && kind == ErrorKind::OutOfMemory, "{place}: {kind:?}");
            assert_bytes(place, &written(&message), &before);
            refused_runs += 1;
        }
    };
    let requests = refuse_each(|| full(case), make_calls, see);
    assert_eq!(refused_runs, 1, "{place}: runs refused");
    requests
}

/// Refuses each request of the runs in a section in turn. `see` gets the number of requests of each.
fn runs_hold(schemas: &SchemaSet, section: &Section, see: impl Fn(Place, u64)) {
    for block in section.blocks() {
        see(block.place, refuse_run(&Case::read(schemas, &block)));
    }
}

fn built_in() -> SchemaSet {
    new_set(Global).expect("there is memory")
}

#[test]
fn calls_that_take_no_memory() {
    let section = ROWS.section("calls_that_take_no_memory");
    runs_hold(&built_in(), &section, |place, requests| {
        assert_eq!(requests, 1, "{place}: only the list of the replies takes memory");
    });
}

fn assert_a_call_takes_memory(place: Place, requests: u64) {
    assert!(requests > 1, "{place}: no call takes memory");
}

#[test]
fn what_a_refused_call_leaves() {
    let section = ROWS.section("what_a_refused_call_leaves");
    runs_hold(&built_in(), &section, assert_a_call_takes_memory);
}

#[test]
fn a_group_that_is_cut_by_memory() {
    let schemas = built_in();
    cases_hold(&schemas, &ROWS.section("the source of the group"));
    let section = ROWS.section("a_group_that_is_cut_by_memory");
    runs_hold(&schemas, &section, assert_a_call_takes_memory);
}
