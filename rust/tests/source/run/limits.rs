//! Runs on a message with a limit of few words. A run compacts its message when room gets short, which drops replaced
//! values. So a call only fails if there is no room even then. Calls on a builder, which doesn't compact, fail earlier.

use super::calls::{assert_answers, calls_of, CallLine};
use crate::capnp_arena::message::Builder;
use crate::capnp_arena::segment::bytes_of;
use crate::capnp_dynamic::dynamic_struct;
use crate::capnp_run::message::run_new;
use crate::capnp_run::run::run;
use crate::capnp_schema::builtin::new_set;
use crate::capnp_schema::schema::StructSchema;
use crate::capnp_schema::set::SchemaSet;
use crate::capnp_slots::size_of;
use crate::rattle_std::alloc::Global;
use crate::rows::{row_file, RowFile, Section};

static ROWS: RowFile = row_file!("limits.rows");

/// The root pointer, the four pointers of a `Lists`, and seven words, of which a text of 16 letters takes three.
const LIMIT: usize = 12;

fn new_built_in() -> SchemaSet {
    new_set(Global).expect("there is memory")
}

fn lists(schemas: &SchemaSet) -> StructSchema<'_> {
    schemas.find_struct("Lists").expect("the set has the struct")
}

fn calls_in<'a>(schema: StructSchema<'a>, section: &Section) -> Vec<CallLine<'a>> {
    let lines = section.lines().into_iter();
    lines.map(|line| CallLine::read(schema, line)).collect()
}

/// Asserts that calls on an empty root are answered as their lines say, and leave no more words than the message may
/// have.
fn run_holds(section: &Section) {
    let schemas = new_built_in();
    let schema = lists(&schemas);
    let lines = calls_in(schema, section);
    let left = run_new(Global, LIMIT, schema, &calls_of(&lines)).expect("there is memory");
    assert_answers(&lines, &left.replies, |answer| answer);
    assert!(bytes_of(&left.message).len() <= 8 * LIMIT);
}

#[test]
fn runs_compact_where_room_gets_short() {
    run_holds(&ROWS.section("runs_compact_where_room_gets_short"));
}

#[test]
fn runs_compact_behind_a_call_without_room() {
    run_holds(&ROWS.section("runs_compact_behind_a_call_without_room"));
}

/// Asserts that calls on a builder of a message's root are answered as their lines say.
fn builder_holds(schema: StructSchema<'_>, arena: &mut Builder, section: &Section) {
    let lines = calls_in(schema, section);
    let place = arena.get_struct(0, size_of(schema)).expect("the root is a struct");
    let root = dynamic_struct::Builder { arena, place, schema };
    let replies = run(Global, root, &calls_of(&lines)).expect("there is memory");
    assert_answers(&lines, &replies, |answer| answer);
}

#[test]
fn full_message_refuses_until_it_is_compacted() {
    let schemas = new_built_in();
    let schema = lists(&schemas);
    let mut message = Builder::with_limit(Global, LIMIT).expect("there is memory");
    builder_holds(schema, &mut message, &ROWS.section("before it is compacted"));
    message.compact().expect("there is memory");
    builder_holds(schema, &mut message, &ROWS.section("after it is compacted"));
}
