//! Dynamic handles beside types that are known at compile time: untyped pointers that are set to a struct or list,
//! structs by their struct type, and the types of elements.

use super::messages::{message_of, struct_of};
use super::script::{outcome, sides, written, Start};
use super::values::{must, read_value};
use crate::capnp_arena::message::Builder;
use crate::capnp_base::introspect::{Introspect, RawBrandedStructSchema, Type, TypeVariant};
use crate::capnp_base::traits::{IntoInternalStructReader, OwnedStruct};
use crate::capnp_builders::any_pointer;
use crate::capnp_dynamic::dynamic_value::Reader as Value;
use crate::capnp_dynamic::parts::build::list_in;
use crate::capnp_dynamic::{dynamic_list, dynamic_struct};
use crate::capnp_schema::set::SchemaSet;
use crate::capnp_wire::error::{Error, Result};
use crate::capnp_wire::StructReader;
use crate::fixtures::words::{first_word, read_type};
use crate::rattle_std::alloc::Global;
use crate::rows::{assert_bytes, assert_text, row_file, Place, RowFile};

static ROWS: RowFile = row_file!("typed.rows");

/// The set of the struct that a text names first.
fn set_in(place: Place, text: &str) -> SchemaSet {
    struct_of(place, first_word(text).0).0
}

/// Sets an untyped pointer to a struct or list. Fails with `TypeMismatch` for another value.
fn set_as(root: &mut any_pointer::Builder<'_>, value: Value<'_>) -> Result<()> {
    match value {
        Value::Struct(reader) => root.set_as::<any_pointer::Owned, dynamic_struct::Reader<'_>>(reader),
        Value::List(list) => root.set_as::<any_pointer::Owned, dynamic_list::Reader<'_>>(list),
        _ => Err(Error::type_mismatch()),
    }
}

#[test]
fn an_untyped_pointer_is_set_to_a_struct_or_list() {
    for row in ROWS.section("an untyped pointer").table() {
        let [text, wanted, left] = row.columns();
        let schemas = set_in(row.place, text);
        let mut message = must(row.place, Builder::new(Global));
        must(row.place, message.root().set_text(b"before"));
        let mut root = any_pointer::Builder::new(message.root());
        let set = set_as(&mut root, read_value(row.place, &schemas, text));
        assert_text(row.place, &outcome(set), wanted);
        assert_bytes(row.place, &written(row.place, &message), message_of(row.place, left));
    }
}

/// A reader of a `Flat`.
struct Flat<'a> {
    reader: StructReader<'a>,
}

/// The struct type of `Flat`.
struct FlatType;

/// The schema of `Flat` in the built-in set.
const FLAT: RawBrandedStructSchema = RawBrandedStructSchema { number: 0, generic: 0 };

impl<'a> From<StructReader<'a>> for Flat<'a> {
    fn from(reader: StructReader<'a>) -> Flat<'a> {
        Flat { reader }
    }
}

impl<'a> IntoInternalStructReader<'a> for Flat<'a> {
    fn into_internal_struct_reader(self) -> StructReader<'a> {
        self.reader
    }
}

impl Introspect for FlatType {
    fn introspect() -> Type {
        Type::from(TypeVariant::Struct(FLAT))
    }
}

impl<'a> OwnedStruct<'a> for FlatType {
    type Reader = Flat<'a>;
}

/// The number of a `Flat`, by its struct type, or `None` for another value.
fn number_read(value: Value<'_>) -> Option<u16> {
    let Value::Struct(reader) = value else {
        return None;
    };
    if RawBrandedStructSchema::from(reader.get_schema()) != FLAT {
        return None;
    }
    let flat = value.downcast_struct::<FlatType>();
    Some(flat.into_internal_struct_reader().get_data_field::<u16>(0))
}

#[test]
fn a_struct_is_taken_by_its_type() {
    for line in ROWS.section("structs by their type").lines() {
        let (text, wanted) = sides(line);
        let schemas = set_in(line.place, text);
        let number = number_read(read_value(line.place, &schemas, text));
        let seen = number.map_or_else(|| "none".to_owned(), |number| number.to_string());
        assert_text(line.place, &seen, wanted);
    }
}

/// The type of the elements of a list in a message.
fn element_type_read(place: Place, text: &str) -> Type {
    let schemas = set_in(place, text);
    match read_value(place, &schemas, text) {
        Value::List(list) => list.element_type(),
        _ => panic!("{place}: {text} is no list"),
    }
}

/// The type of the elements of a list that is a field of a new struct.
fn element_type_built(place: Place, text: &str) -> Type {
    let (name, field) = first_word(text);
    let start = Start::read(place, name);
    let mut message = start.message();
    let root = must(place, start.open(&mut message));
    must(place, list_in(root, field)).element_type()
}

#[test]
fn elements_have_the_type_of_their_list() {
    let sections: [(&str, fn(Place, &str) -> Type); 2] = [
        ("types of elements that are read", element_type_read),
        ("types of elements that are built", element_type_built),
    ];
    for (section, element_type) in sections {
        for line in ROWS.section(section).lines() {
            let (text, wanted) = sides(line);
            assert_eq!(element_type(line.place, text), read_type(wanted), "{}", line.place);
        }
    }
}
