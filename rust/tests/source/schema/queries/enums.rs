//! What an enum answers: its record, and its enumerants.

use super::or_none;
use crate::capnp_base::introspect::RawEnumSchema;
use crate::capnp_base::traits::IndexMove;
use crate::capnp_schema::schema::{EnumSchema, Enumerant, EnumerantList};
use crate::capnp_schema::set::SchemaSet;
use crate::fixtures::words::{first_word, number};

/// The enum of a number.
pub fn enum_of<'s>(schemas: &'s SchemaSet, word: &str) -> EnumSchema<'s> {
    schemas.get_enum(number(word)).expect("the set has the enum")
}

fn enumerants(schema: EnumSchema<'_>) -> EnumerantList<'_> {
    schema.get_enumerants().expect("the list is never refused")
}

/// The enumerant of an ordinal, if there is one.
fn find_enumerant(schema: EnumSchema<'_>, ordinal: u16) -> Option<Enumerant<'_>> {
    let enumerants = enumerants(schema);
    (ordinal < enumerants.len()).then(|| enumerants.get(ordinal))
}

/// The enumerant of an enum and an ordinal.
pub fn enumerant_of<'s>(schemas: &'s SchemaSet, words: &str) -> Enumerant<'s> {
    let (enum_number, ordinal) = first_word(words);
    find_enumerant(enum_of(schemas, enum_number), number(ordinal)).expect("the enum has the enumerant")
}

/// The names of the enumerants, each of which has the ordinal of its place.
fn names(schema: EnumSchema<'_>) -> String {
    let name = |(place, enumerant): (usize, Enumerant<'_>)| {
        assert_eq!(usize::from(enumerant.get_ordinal()), place);
        enumerant.get_proto().name.as_str().to_string()
    };
    let names: Vec<String> = enumerants(schema).into_iter().enumerate().map(name).collect();
    names.join(" ")
}

fn record(schema: EnumSchema<'_>) -> String {
    let number = RawEnumSchema::from(schema).number;
    let record = schema.get_proto();
    let (id, name) = (record.id, record.display_name.as_str());
    format!("{number} {id} {name} {}", enumerants(schema).len())
}

/// The ordinal of the enumerant that is got by its ordinal, which is one of its enum.
fn ordinal_of(schema: EnumSchema<'_>, ordinal: u16) -> Option<u16> {
    let enumerant = find_enumerant(schema, ordinal)?;
    assert_eq!(enumerant.get_containing_enum(), schema);
    Some(enumerant.get_ordinal())
}

/// The ordinal of the enumerant at a place of the list.
fn ordinal_at(schema: EnumSchema<'_>, place: u16) -> Option<u16> {
    let enumerants = enumerants(schema);
    (place < enumerants.len()).then(|| enumerants.index_move(place).get_ordinal())
}

/// What the enum of a number answers.
pub fn answer(schemas: &SchemaSet, kind: &str, words: &str) -> String {
    let (enum_number, ordinal) = first_word(words);
    let schema = enum_of(schemas, enum_number);
    match kind {
        "enumerants" => names(schema),
        "enum" => record(schema),
        "ordinal" => or_none(ordinal_of(schema, number(ordinal))),
        "at" => or_none(ordinal_at(schema, number(ordinal))),
        _ => panic!("{kind:?} is no query"),
    }
}
