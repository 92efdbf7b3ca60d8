//! Everything that can't be read of the value at a path, and where, within a limit of parts.
//!
//! The first line of a block names a struct, a message, a path and the limit:
//! `Lists from unreadable: check . within 5`. Each other line is an error and the part that has it:
//! `5 WrongPointerKind .bytes`. It may also be `at the root` of the message or `at step 1` of the path. If there are
//! more parts than the limit, the line is `refused: 11 TooLarge`.
//!
//! The search for all errors finds each of the lines, and the search for one finds the first.

use crate::capnp_call::calls::Step;
use crate::capnp_check::place::RefusedPlace;
use crate::capnp_patch::place::{find_place_within, find_places, Place as At, Refusals};
use crate::capnp_schema::builtin::new_set;
use crate::capnp_schema::schema::StructSchema;
use crate::capnp_schema::set::SchemaSet;
use crate::capnp_wire::error::{Error, ErrorKind};
use crate::fixtures::words::number;
use crate::rattle_std::alloc::Global;
use crate::rows::{assert_text, row_file, Line, Reading, RowFile};
use crate::run::answers::{numbered, refusal};
use crate::run::calls::steps_of;
use crate::run::messages::Head;

static ROWS: RowFile = row_file!("places.rows");

fn at_root(kind: &ErrorKind) -> String {
    format!("{} at the root", numbered(kind))
}

fn at_step(kind: &ErrorKind, step: usize) -> String {
    format!("{} at step {step}", numbered(kind))
}

fn at_part(place: &RefusedPlace) -> String {
    format!("{} {}", numbered(&place.kind), &*place.words)
}

/// What is asked of a message.
struct Question<'a> {
    schema: StructSchema<'a>,
    message: &'static [u8],
    path: Vec<Step<'static>>,
    limit: u64,
}

impl<'a> Question<'a> {
    fn read(schemas: &'a SchemaSet, line: Line) -> Question<'a> {
        let _reading = Reading(line.place);
        let (text, check) = line.text.split_once(": check ").expect("the line says what is checked");
        let (path, limit) = check.split_once(" within ").expect("the line has a limit");
        let head = Head::read(schemas, Line { text, ..line });
        Question {
            schema: head.schema,
            message: head.message().expect("the line names a message"),
            path: steps_of(path),
            limit: number(limit),
        }
    }

    /// The lines of all errors.
    fn all(&self) -> Result<Vec<String>, Error> {
        let found = find_places(Global, self.schema, &self.path, self.message, self.limit)?;
        Ok(match found {
            Refusals::Root(kind) => vec![at_root(&kind)],
            Refusals::Step(step) => vec![at_step(&step.error.kind, step.index)],
            Refusals::Parts(places) => places.iter().map(at_part).collect(),
        })
    }

    /// The line of the first error.
    fn first(&self) -> Result<Option<String>, Error> {
        let found = find_place_within(Global, self.schema, &self.path, self.message, self.limit)?;
        Ok(found.map(|refused| match &refused.place {
            At::Root => at_root(&refused.kind),
            At::Step(step) => at_step(&refused.kind, step.index),
            At::Part(place) => at_part(place),
        }))
    }
}

#[test]
fn all_places_are_told_within_a_limit() {
    let schemas = new_set(Global).expect("there is memory");
    for block in ROWS.section("all_places_are_told_within_a_limit").blocks() {
        let (question, lines) = block.lines.split_first().expect("a block has lines");
        let question = Question::read(&schemas, *question);
        let wanted: Vec<&str> = lines.iter().map(|line| line.text).collect();
        let all = question.all().unwrap_or_else(|error| vec![refusal(&error.kind)]);
        assert_text(block.place, &all.join("\n"), &wanted.join("\n"));
        let first = question.first().unwrap_or_else(|error| Some(refusal(&error.kind)));
        assert_text(
            block.place,
            first.as_deref().unwrap_or(""),
            wanted.first().unwrap_or(&""),
        );
    }
}
