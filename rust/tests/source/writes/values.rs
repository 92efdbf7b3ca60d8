//! The values that rows name, and the text of values.
//!
//! A value is `Void`, `Null` (an untyped pointer), a kind with its content, as `UInt16(7)`, `Bool(true)`, `Enum(2)`,
//! `Text(hi)` or `Data(00ff)`, or the value of a field in a message: `Read shapes tagged tag` reads the field `tag` of
//! the message `tagged`, whose root is a `shapes`. `Read shapes tagged` is the root itself.

use super::messages::{message_of, struct_of};
use crate::capnp_base::any_pointer;
use crate::capnp_dynamic::dynamic_struct;
use crate::capnp_dynamic::dynamic_value::{Enum, Reader as Value};
use crate::capnp_dynamic::printer::print;
use crate::capnp_schema::schema::StructSchema;
use crate::capnp_schema::set::SchemaSet;
use crate::capnp_wire::error::Result;
use crate::capnp_wire::PointerReader;
use crate::fixtures::bytes::{bytes_of, root_of};
use crate::fixtures::words::first_word;
use crate::rattle_std;
use crate::rattle_std::alloc::Global;
use crate::rows::Place;
use std::str::FromStr;

/// The word of a null pointer.
static NULL: [u8; 8] = [0; 8];

/// The number that digits of a row say.
pub fn number<N: FromStr>(place: Place, digits: &str) -> N {
    let parsed = digits.parse();
    parsed.unwrap_or_else(|_| panic!("{place}: {digits:?} is no such number"))
}

/// What a call returns. A row needs it to succeed.
#[track_caller]
pub fn must<T>(place: Place, called: Result<T>) -> T {
    called.unwrap_or_else(|error| panic!("{place}: {error}"))
}

/// The root of a message under a schema.
pub fn root_under<'a>(bytes: &'a [u8], schema: StructSchema<'a>) -> Result<dynamic_struct::Reader<'a>> {
    let root = root_of(bytes)?.get_struct()?;
    Ok(dynamic_struct::Reader::new(root, schema))
}

/// The text of a value.
pub fn text_of(value: Value<'_>) -> Result<String> {
    let mut out = rattle_std::string::String::new(Global);
    print(value, &mut out, false)?;
    Ok(out.into())
}

/// The value that a struct, a message and maybe a field name: the root of the message, or the field in it.
pub fn read_value<'a>(place: Place, schemas: &'a SchemaSet, text: &str) -> Value<'a> {
    let (name, rest) = first_word(text);
    let (message, field) = first_word(rest);
    let (_, number) = struct_of(place, name);
    let root = root_under(message_of(place, message), schemas.struct_schema(number));
    let root = must(place, root);
    if field.is_empty() {
        return Value::Struct(root);
    }
    must(place, root.get_named(field))
}

/// The bytes of the `Data` in a text, or none if there is no `Data`. `value_of` borrows them.
pub fn data_in(text: &str) -> Vec<u8> {
    let data = text.split_once("Data(");
    data.map_or_else(Vec::new, |(_, digits)| bytes_of(digits.trim_end_matches(')')))
}

/// The value that a text names. `data` is what `data_in` returns for the text.
pub fn value_of<'a>(place: Place, schemas: &'a SchemaSet, text: &'a str, data: &'a [u8]) -> Value<'a> {
    if let Some(source) = text.strip_prefix("Read ") {
        return read_value(place, schemas, source);
    }
    let (kind, rest) = text.split_once('(').unwrap_or((text, ""));
    let content = rest.strip_suffix(')').unwrap_or(rest);
    match kind {
        "Void" => Value::Void,
        "Null" => Value::AnyPointer(any_pointer::Reader::new(PointerReader::from_words(&NULL))),
        "Bool" => Value::Bool(content == "true"),
        "Int8" => Value::Int8(number(place, content)),
        "Int16" => Value::Int16(number(place, content)),
        "Int32" => Value::Int32(number(place, content)),
        "Int64" => Value::Int64(number(place, content)),
        "UInt8" => Value::UInt8(number(place, content)),
        "UInt16" => Value::UInt16(number(place, content)),
        "UInt32" => Value::UInt32(number(place, content)),
        "UInt64" => Value::UInt64(number(place, content)),
        "Enum" => Value::Enum(Enum::new(number(place, content), schemas.enum_schema(0))),
        "Text" => Value::from(content),
        "Data" => Value::Data(data),
        _ => panic!("{place}: {text:?} is no value"),
    }
}
