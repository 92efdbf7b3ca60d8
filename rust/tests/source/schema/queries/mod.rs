//! Queries of schemas, and what they answer.
//!
//! A line `in built-in` names the set of the rows after it: `built-in`, or a set that `fixtures/set_text.rs` reads. A
//! row is a query, and after an arrow the answer: `get 3 tag -> 2`. Structs and enums are given by their numbers,
//! fields by struct and name, enumerants by enum and ordinal. The built-in structs are 0 `Flat`, 1 `Mixed`, 2 `Many`,
//! 3 `Shapes`, 4 and 5 its groups `circle` and `tag`, 6 `Loop`, 7 `Lists` and 8 `Node`.
//!
//! | query | answer |
//! |---|---|
//! | `notes struct 8`, `notes field 8 id` | the annotations there, with `;` between; so of `enum 0`, `enumerant 0 1` |
//! | `find 7 struct 8` | the first annotation there with the id 7, or `none` |
//! | `fields 3`, `members 3`, `plain 3` | the names of the fields, of the union's members, and of the other fields |
//! | `indices 3`, `sizes 3` | the index of each field in order; the number of fields and of members |
//! | `last 3`, `last_member 3` | the index of the last field and of the last member, from the end |
//! | `member_at 3 0` | the index of the field at a place of the list of members |
//! | `enumerants 0` | the names of the enumerants |
//! | `get 3 tag`, `found 3 tag` | the index of the field with a name, by each of two calls, or `none` |
//! | `counted 7 raw` | the same, and the number of names that were compared |
//! | `most 7 _ A a b` | the number of names compared at most for one of these, of which `_` is the empty name |
//! | `member 3 0` | the index of the member with a discriminant, or `none` |
//! | `type 7 raw` | the type of a field |
//! | `group 3 tag` | the numbers of the brand and the node of a field's group, or `none` |
//! | `group_field 5` | the struct and the index of the field whose group this is, or `none` |
//! | `plan 1 y` | the place of a field, and of a member the discriminant's first bit and its value |
//! | `record 5` | the id, the name, the number of fields, and whether it is a group |
//! | `numbers 4` | the numbers of the struct's brand and node |
//! | `again 4` | whether two other calls give the `same` handle |
//! | `has struct 9`, `has enum 1` | `there` or `none` |
//! | `enum 0` | the number, the id, the name, and the number of enumerants |
//! | `ordinal 0 7`, `at 0 7` | the ordinal of an enumerant, by each of two calls, or `none` |
//! | `compare field 8 id, 3 id` | whether two handles are the `same` or `apart` |
//! | `compare listed 3 2, 3 tag` | the same, of the field at a place of the list and one by its name |
//!
//! An annotation is its id, its type and its value: `8 Text UInt16(5)`. The parentheses of a value have the number, the
//! text, the length of data, the first data word of a struct, byte 2 of a list, 0 for `Void`, or -1 for an untyped
//! null.
//!
//! A place is `nothing`, `bits` with the first bit, the number of bits and the mask, `pointer` with its index, or
//! `group` with its brand.

mod enums;
mod handles;
mod notes;
mod structs;

use crate::capnp_schema::builtin;
use crate::capnp_schema::set::SchemaSet;
use crate::fixtures::set_text::set_of;
use crate::fixtures::words::first_word;
use crate::rattle_std::alloc::Global;
use crate::rows::{assert_text, row_file, Reading, RowFile};

static QUERIES: RowFile = row_file!("queries.rows");

/// A number, or `none`.
fn or_none(found: Option<u16>) -> String {
    found.map_or_else(|| "none".to_string(), |number| number.to_string())
}

/// What a set answers to a query.
fn answer(schemas: &SchemaSet, query: &str) -> String {
    let (kind, words) = first_word(query);
    match kind {
        "notes" => notes::all(schemas, words),
        "find" => notes::found(schemas, words),
        "compare" => handles::compared(schemas, words).to_string(),
        "again" => handles::again(schemas, words).to_string(),
        "has" => handles::is_there(schemas, words).to_string(),
        "enum" | "enumerants" | "ordinal" | "at" => enums::answer(schemas, kind, words),
        _ => structs::answer(schemas, kind, words),
    }
}

/// Asserts that the sets of a section answer each query as its row says.
#[track_caller]
fn assert_answers(section: &str) {
    let mut schemas = None;
    for row in QUERIES.section(section).lines() {
        let _reading = Reading(row.place);
        if let Some(set) = row.text.strip_prefix("in ") {
            schemas = Some(match set {
                "built-in" => builtin::new_set(Global).expect("the check accepts it"),
                _ => set_of(set),
            });
            continue;
        }
        let schemas = schemas.as_ref().expect("a line names the set");
        let (query, wanted) = row.text.split_once(" ->").expect("a row has an arrow");
        assert_text(row.place, &answer(schemas, query), wanted.trim_start());
    }
}

// Records, types, and fields by name, by discriminant and by kind.

#[test]
fn schemas_hand_out_their_records() {
    assert_answers("schemas_hand_out_their_records");
}

#[test]
fn a_schema_gives_its_numbers() {
    assert_answers("a_schema_gives_its_numbers");
}

#[test]
fn fields_have_types() {
    assert_answers("fields_have_types");
}

#[test]
fn a_group_field_has_its_group() {
    assert_answers("a_group_field_has_its_group");
}

#[test]
fn fields_are_found_by_name() {
    assert_answers("fields_are_found_by_name");
}

#[test]
fn few_names_are_compared() {
    assert_answers("few_names_are_compared");
}

#[test]
fn members_are_told_from_non_union_fields() {
    assert_answers("members_are_told_from_non_union_fields");
}

#[test]
fn members_are_found_by_discriminant() {
    assert_answers("members_are_found_by_discriminant");
}

// Handles, and lists from both ends.

#[test]
fn a_struct_is_its_number() {
    assert_answers("a_struct_is_its_number");
}

#[test]
fn a_field_is_its_struct_and_index() {
    assert_answers("a_field_is_its_struct_and_index");
}

#[test]
fn an_enumerant_is_its_enum_and_ordinal() {
    assert_answers("an_enumerant_is_its_enum_and_ordinal");
}

#[test]
fn enumerants_come_by_their_ordinals() {
    assert_answers("enumerants_come_by_their_ordinals");
}

#[test]
fn an_enum_gives_its_number_and_record() {
    assert_answers("an_enum_gives_its_number_and_record");
}

#[test]
fn fields_come_from_both_ends() {
    assert_answers("fields_come_from_both_ends");
}

// Plans of fields.

#[test]
fn fields_have_their_plans() {
    assert_answers("fields_have_their_plans");
}

#[test]
fn a_plan_is_found_by_name() {
    assert_answers("a_plan_is_found_by_name");
}

// Annotations.

#[test]
fn a_struct_has_annotations() {
    assert_answers("a_struct_has_annotations");
}

#[test]
fn a_field_has_annotations() {
    assert_answers("a_field_has_annotations");
}

#[test]
fn an_enum_has_annotations() {
    assert_answers("an_enum_has_annotations");
}

#[test]
fn an_enumerant_has_annotations_of_its_own() {
    assert_answers("an_enumerant_has_annotations_of_its_own");
}

#[test]
fn values_are_read_where_they_lie() {
    assert_answers("values_are_read_where_they_lie");
}
