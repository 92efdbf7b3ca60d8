//! Handles that are compared by `==`, by their hashes and by what `{:?}` prints.

use super::enums::{enum_of, enumerant_of};
use super::structs::field_of;
use crate::capnp_base::traits::IndexMove;
use crate::capnp_schema::schema::{Field, StructSchema};
use crate::capnp_schema::set::SchemaSet;
use crate::fixtures::records::schema_of;
use crate::fixtures::words::{first_word, number};
use std::fmt::Debug;
use std::hash::{DefaultHasher, Hash, Hasher};

fn hash_of<T: Hash>(value: &T) -> u64 {
    let mut state = DefaultHasher::new();
    value.hash(&mut state);
    state.finish()
}

/// Whether two handles are the `same`, or `apart`. Handles that are the same also have one hash and are printed alike;
/// handles that are apart aren't printed alike.
fn compare<T: PartialEq + Hash + Debug>(one: T, another: T) -> &'static str {
    let printed = format!("{one:?}");
    assert!(!printed.is_empty());
    let is_printed_alike = printed == format!("{another:?}");
    match (one == another, is_printed_alike) {
        (true, true) if hash_of(&one) == hash_of(&another) => "same",
        (false, false) => "apart",
        _ => "unclear",
    }
}

fn struct_of<'s>(schemas: &'s SchemaSet, word: &str) -> StructSchema<'s> {
    schema_of(schemas, number(word))
}

/// The field at a place of a struct's list.
fn listed<'s>(schemas: &'s SchemaSet, words: &str) -> Field<'s> {
    let (word, place) = first_word(words);
    let fields = struct_of(schemas, word)
        .get_fields()
        .expect("the list is never refused");
    let place = number(place);
    assert!(place < fields.len(), "the struct has no such field");
    fields.index_move(place)
}

/// Whether two handles are the same.
pub fn compared(schemas: &SchemaSet, words: &str) -> &'static str {
    let (kind, both) = first_word(words);
    let (one, another) = both.split_once(", ").expect("two handles are compared");
    match kind {
        "struct" => compare(struct_of(schemas, one), struct_of(schemas, another)),
        "field" => compare(field_of(schemas, one), field_of(schemas, another)),
        "listed" => compare(listed(schemas, one), field_of(schemas, another)),
        "enum" => compare(enum_of(schemas, one), enum_of(schemas, another)),
        "enumerant" => compare(enumerant_of(schemas, one), enumerant_of(schemas, another)),
        _ => panic!("{kind:?} has no handles"),
    }
}

/// Whether a look-up in the set of a struct's handle gives the same handle again, and so does its number alone.
pub fn again(schemas: &SchemaSet, word: &str) -> &'static str {
    let schema = struct_of(schemas, word);
    let looked_up = struct_of(schema.get_set(), word);
    if looked_up == schema && schemas.struct_schema(number(word)) == schema {
        "same"
    } else {
        "apart"
    }
}

/// Whether the set has a struct or an enum of a number.
pub fn is_there(schemas: &SchemaSet, words: &str) -> &'static str {
    let (kind, word) = first_word(words);
    let is_there = match kind {
        "struct" => schemas.get_struct(number(word)).is_some(),
        "enum" => schemas.get_enum(number(word)).is_some(),
        _ => panic!("{kind:?} has no numbers"),
    };
    if is_there {
        "there"
    } else {
        "none"
    }
}
