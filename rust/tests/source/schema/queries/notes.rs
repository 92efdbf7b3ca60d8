//! Annotations of structs, fields, enums and enumerants.

use super::enums::{enum_of, enumerant_of};
use super::structs::{field_of, type_in_words};
use crate::capnp_schema::schema::{Annotation, AnnotationList};
use crate::capnp_schema::set::SchemaSet;
use crate::capnp_schema::value::Value;
use crate::capnp_wire::size::ElementSize;
use crate::capnp_wire::PointerReader;
use crate::fixtures::records::schema_of;
use crate::fixtures::words::{first_word, number};

/// The annotations at a place.
fn notes_at<'s>(schemas: &'s SchemaSet, place: &str) -> AnnotationList<'s> {
    let (kind, words) = first_word(place);
    let notes = match kind {
        "struct" => schema_of(schemas, number(words)).get_annotations(),
        "field" => field_of(schemas, words).get_annotations(),
        "enum" => enum_of(schemas, words).get_annotations(),
        "enumerant" => enumerant_of(schemas, words).get_annotations(),
        _ => panic!("{kind:?} is no place of annotations"),
    };
    notes.expect("the list is never refused")
}

fn first_data_word(pointer: PointerReader<'_>) -> u64 {
    pointer.get_struct().expect("it is a struct").get_data_field::<u64>(0)
}

fn byte_2(pointer: PointerReader<'_>) -> u8 {
    let list = pointer.get_list(ElementSize::Byte).expect("it is a list of bytes");
    list.get_data_element::<u8>(2)
}

fn value_in_words(value: Value<'_>) -> String {
    match value {
        Value::Void => "Void(0)".to_string(),
        Value::Bool(x) => format!("Bool({})", u8::from(x)),
        Value::Int8(x) => format!("Int8({x})"),
        Value::Int16(x) => format!("Int16({x})"),
        Value::Int32(x) => format!("Int32({x})"),
        Value::Int64(x) => format!("Int64({x})"),
        Value::UInt8(x) => format!("UInt8({x})"),
        Value::UInt16(x) => format!("UInt16({x})"),
        Value::UInt32(x) => format!("UInt32({x})"),
        Value::UInt64(x) => format!("UInt64({x})"),
        Value::Enum(x) => format!("Enum({x})"),
        Value::Text(text) => format!("Text({})", text.to_str().expect("it is UTF-8")),
        Value::Data(bytes) => format!("Data({})", bytes.len()),
        Value::Struct(pointer) => format!("Struct({})", first_data_word(pointer)),
        Value::List(pointer) => format!("List({})", byte_2(pointer)),
        Value::AnyPointer(pointer) if pointer.is_null() => "AnyPointer(-1)".to_string(),
        Value::AnyPointer(pointer) => format!("AnyPointer({})", first_data_word(pointer)),
    }
}

fn in_words(note: Annotation<'_>) -> String {
    let (note_type, value) = (type_in_words(note.get_type()), value_in_words(note.get_value_view()));
    format!("{} {note_type} {value}", note.get_id())
}

/// The annotations at a place, with `;` between them.
pub fn all(schemas: &SchemaSet, place: &str) -> String {
    let notes = notes_at(schemas, place);
    let words: Vec<String> = notes.into_iter().map(in_words).collect();
    assert_eq!(u32::try_from(words.len()), Ok(notes.len()));
    assert_eq!(words.is_empty(), notes.is_empty());
    words.join("; ")
}

/// The first annotation of an id at a place, or `none`.
pub fn found(schemas: &SchemaSet, words: &str) -> String {
    let (id, place) = first_word(words);
    notes_at(schemas, place)
        .find(number(id))
        .map_or_else(|| "none".to_string(), in_words)
}
