//! Words that are values under a type, as the printer prints them, and words that are none.

use super::words_in;
use crate::capnp_base::introspect::{RawBrandedStructSchema, RawEnumSchema, Type, TypeVariant};
use crate::capnp_schema::builtin::new_set;
use crate::capnp_words::path::Read;
use crate::capnp_words::value::{parse_value, PlainValue};
use crate::rattle_std::alloc::Global;
use crate::rows::{assert_text, row_file, RowFile};

static ROWS: RowFile = row_file!("values.rows");

fn text_of(read: Read<PlainValue<'_>>) -> String {
    match read {
        Ok(value) => format!("{:?}", value.as_reader()),
        Err(place) => format!("at {place}"),
    }
}

/// Asserts that the words of a section are read under a type of the built-in set as the rows say.
fn values_are_read(section: &str, kind: TypeVariant) {
    let schemas = new_set(Global).expect("there is memory");
    for row in words_in(&ROWS.section(section)) {
        let read = parse_value(Global, &schemas, Type::from(kind), row.word.as_bytes());
        assert_text(row.place, &text_of(read.expect("there is memory")), row.wanted);
    }
}

#[test]
fn voids_and_truth_values() {
    values_are_read("Void", TypeVariant::Void);
    values_are_read("Bool", TypeVariant::Bool);
}

#[test]
fn signed_numbers_stay_in_their_ranges() {
    values_are_read("Int8", TypeVariant::Int8);
    values_are_read("Int16", TypeVariant::Int16);
    values_are_read("Int32", TypeVariant::Int32);
    values_are_read("Int64", TypeVariant::Int64);
}

#[test]
fn unsigned_numbers_stay_in_their_ranges() {
    values_are_read("UInt8", TypeVariant::UInt8);
    values_are_read("UInt16", TypeVariant::UInt16);
    values_are_read("UInt32", TypeVariant::UInt32);
    values_are_read("UInt64", TypeVariant::UInt64);
}

#[test]
fn enumerants_have_names_and_numbers() {
    values_are_read("Enum", TypeVariant::Enum(RawEnumSchema { number: 0 }));
}

#[test]
fn texts_are_quoted_or_stand_as_they_are() {
    values_are_read("Text", TypeVariant::Text);
}

#[test]
fn data_has_two_digits_a_byte() {
    values_are_read("Data", TypeVariant::Data);
}

#[test]
fn other_types_have_no_words() {
    let raw = RawBrandedStructSchema { number: 0, generic: 0 };
    let list = TypeVariant::List(Type::from(TypeVariant::UInt8));
    for kind in [TypeVariant::Struct(raw), list, TypeVariant::AnyPointer] {
        values_are_read("types without words", kind);
    }
}
