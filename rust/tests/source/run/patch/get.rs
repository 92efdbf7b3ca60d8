//! Values at paths: through groups, unions, defaults, structs and lists of lists, as they are printed, and paths that
//! lead nowhere.
//!
//! The first line of a block names a struct, by its name or its number in the set, and messages: `Shapes from tagged`.
//! The other lines are paths, each with the text of the value there in each of the messages, or with the error:
//! `get tag.u0 -> ()`, `get word -> refused: 30 InactiveMember`.

use crate::capnp_call::calls::Step;
use crate::capnp_patch::get::get_line;
use crate::capnp_schema::builtin::new_set;
use crate::capnp_schema::schema::StructSchema;
use crate::capnp_schema::set::SchemaSet;
use crate::fixtures::kinds::{FULL, KINDS, KINDS_SET};
use crate::fixtures::records::schema_of;
use crate::fixtures::set_text::set_of;
use crate::rattle_std::alloc::Global;
use crate::rows::{assert_text, row_file, Line, Reading, RowFile, Section};
use crate::run::answers::refusal;
use crate::run::calls::steps_of;
use crate::run::messages::Head;

static ROWS: RowFile = row_file!("get.rows");

/// The path that a call gets.
pub fn path_in(call: &'static str) -> Vec<Step<'static>> {
    steps_of(call.strip_prefix("get ").expect("the call gets a path"))
}

/// The line of what stands at a path of a message, or why there is none.
fn shown(schema: StructSchema<'_>, path: &[Step<'_>], message: &[u8], indented: bool) -> String {
    match get_line(Global, schema, path, message, indented) {
        Ok(line) => line.into(),
        Err(error) => format!("{}\n", refusal(&error.kind)),
    }
}

fn is_shown(head: &Head<'_>, line: Line) {
    let _reading = Reading(line.place);
    let (call, text) = line.sides();
    let path = path_in(call);
    for message in &head.messages {
        let seen = shown(head.schema, &path, message, false);
        assert_text(line.place, &seen, &format!("{text}\n"));
    }
}

/// Asserts that the paths of a section lead to these texts and errors.
pub fn paths_hold(schemas: &SchemaSet, section: &Section) {
    for block in section.blocks() {
        let (head, lines) = block.lines.split_first().expect("a block has lines");
        let head = Head::read(schemas, *head);
        assert!(!head.messages.is_empty(), "{}: no message", head.place);
        for line in lines {
            is_shown(&head, *line);
        }
    }
}

#[test]
fn values_of_every_kind_stand_at_paths() {
    paths_hold(&set_of(KINDS_SET), &ROWS.section("values_of_every_kind_stand_at_paths"));
}

#[test]
fn the_first_step_that_fits_nothing_refuses() {
    paths_hold(
        &set_of(KINDS_SET),
        &ROWS.section("the_first_step_that_fits_nothing_refuses"),
    );
}

#[test]
fn paths_lead_into_defaults() {
    paths_hold(&set_of(KINDS_SET), &ROWS.section("paths_lead_into_defaults"));
}

fn built_in_paths_hold(section: &str) {
    let schemas = new_set(Global).expect("there is memory");
    paths_hold(&schemas, &ROWS.section(section));
}

#[test]
fn groups_and_unions_are_entered_where_they_are_active() {
    built_in_paths_hold("groups_and_unions_are_entered_where_they_are_active");
}

#[test]
fn a_default_that_leads_to_itself_has_no_text() {
    built_in_paths_hold("a_default_that_leads_to_itself_has_no_text");
}

#[test]
fn roots_are_shown_whole() {
    built_in_paths_hold("roots_are_shown_whole");
}

#[test]
fn values_are_shown_on_lines() {
    let schemas = set_of(KINDS_SET);
    for block in ROWS.section("values_are_shown_on_lines").blocks() {
        let (call, lines) = block.lines.split_first().expect("a block has lines");
        let _reading = Reading(call.place);
        let wanted: String = lines.iter().map(|line| format!("{}\n", line.text)).collect();
        let seen = shown(schema_of(&schemas, KINDS), &path_in(call.text), &FULL, true);
        assert_text(call.place, &seen, &wanted);
    }
}
