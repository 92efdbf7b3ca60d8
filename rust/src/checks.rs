//! The checks of callers in Rust. The prover holds callers in Rattle to the conditions of each call. Here the translator puts
//! a line before such a call's own (`rust/translate/checks.rs`), and these are the functions that the lines call.
//!
//! What is refused is refused before anything has changed. Where the call returns a `Result`, the check returns an error.
//! Else it panics, with a sentence that says what is not so.

use crate::capnp_arena::arena::{Arena, Place};
use crate::capnp_arena::list_reads::ListTarget;
use crate::capnp_arena::lists::get_width;
use crate::capnp_base::introspect::{RawBrandedStructSchema, RawEnumSchema, Type, TypeVariant};
use crate::capnp_device::error::{Error, ErrorKind, Result};
use crate::capnp_dynamic_readers::dynamic_value::Reader as Value;
use crate::capnp_schema::meta;
use crate::capnp_schema::schema::{Field, StructSchema};
use crate::capnp_schema::set::SchemaSet;
use crate::capnp_slots::size_of;
use crate::capnp_wire::size::ElementSize;
use crate::rattle_std::alloc::Global;
use std::fmt;
use std::ptr;

/// An error where something is not so.
#[inline(always)]
fn ask(is_so: bool, kind: ErrorKind) -> Result<()> {
    if is_so {
        Ok(())
    } else {
        Err(Error::from(kind))
    }
}

/// Ends a call with a sentence.
#[cold]
#[inline(never)]
#[track_caller]
fn end(sentence: fmt::Arguments<'_>) -> ! {
    panic!("{sentence}")
}

/// Whether two schemas are one: of one set, and of one number there.
#[inline(always)]
fn is_same(one: StructSchema<'_>, other: StructSchema<'_>) -> bool {
    ptr::eq(one.get_set(), other.get_set()) && one == other
}

// what is refused with an error

/// A field is one of the schema.
#[inline(always)]
pub(crate) fn field(field: Field<'_>, schema: StructSchema<'_>) -> Result<()> {
    ask(is_same(field.get_containing_struct(), schema), ErrorKind::FieldNotFound)
}

/// The set of a value, which one has that a schema describes.
#[inline(always)]
fn set_of<'a>(value: &Value<'a>) -> Option<&'a SchemaSet> {
    match value {
        Value::Struct(held) => Some(held.get_schema().get_set()),
        Value::List(held) => Some(held.schemas),
        Value::Enum(held) => Some(held.schema.get_set()),
        _ => None,
    }
}

/// What a value of another set is refused with; a field without a type takes it.
#[cold]
#[inline(never)]
fn foreign(field: Field<'_>) -> Result<()> {
    let is_untyped = matches!(field.get_type().which(), TypeVariant::AnyPointer);
    ask(is_untyped, ErrorKind::TypeMismatch)
}

/// A value is of the field's set, or the field has no type.
#[inline(always)]
pub(crate) fn value(field: Field<'_>, value: &Value<'_>) -> Result<()> {
    match set_of(value) {
        Some(set) if !ptr::eq(set, field.get_containing_struct().get_set()) => foreign(field),
        _ => Ok(()),
    }
}

/// A value is of a list's set.
#[inline(always)]
pub(crate) fn value_in(schemas: &SchemaSet, value: &Value<'_>) -> Result<()> {
    ask(
        set_of(value).is_none_or(|set| ptr::eq(set, schemas)),
        ErrorKind::TypeMismatch,
    )
}

/// An element is there.
#[inline(always)]
pub(crate) fn element(index: u32, length: u32) -> Result<()> {
    ask(index < length, ErrorKind::NoSuchElement)
}

/// The elements of a list that is not of structs have a size.
#[inline(always)]
pub(crate) fn size(size: ElementSize) -> Result<()> {
    ask(
        !matches!(size, ElementSize::InlineComposite),
        ErrorKind::WrongElementSize,
    )
}

/// Two schemas are those of structs of one set.
pub(crate) fn one_set(one: StructSchema<'_>, other: StructSchema<'_>) -> Result<()> {
    ask(ptr::eq(one.get_set(), other.get_set()), ErrorKind::TypeMismatch)?;
    brands(one.get_set(), one.number, other.number)
}

/// Two schemas are one.
pub(crate) fn same_schema(one: StructSchema<'_>, other: StructSchema<'_>) -> Result<()> {
    ask(is_same(one, other), ErrorKind::TypeMismatch)
}

/// Two numbers are those of structs of a set.
pub(crate) fn brands(schemas: &SchemaSet, one: u32, other: u32) -> Result<()> {
    let count = schemas.brands().len();
    let is_so = (one as usize) < count && (other as usize) < count;
    ask(is_so, ErrorKind::NoSuchElement)
}

/// A schema is that of the records of sets: its set has the lists of the meta set.
pub(crate) fn meta_record(alloc: Global, schema: StructSchema<'_>) -> Result<()> {
    let (nodes, brands, enums) = meta::records(alloc)?;
    let set = schema.get_set();
    let is_meta = *set.nodes() == *nodes && *set.brands() == *brands && *set.enums() == *enums;
    let is_first = RawBrandedStructSchema::from(schema).number == 0;
    ask(is_meta && is_first, ErrorKind::TypeMismatch)
}

/// A struct with a schema's sections stands at a message's root.
pub(crate) fn root(message: &Arena, schema: StructSchema<'_>) -> Result<()> {
    let is_so = message.is_struct(0) && has_sections(message.struct_here(0), schema);
    ask(is_so, ErrorKind::TypeMismatch)
}

/// Bytes are whole words.
pub(crate) fn whole_words(bytes: &[u8]) -> Result<()> {
    ask(bytes.len() % 8 == 0, ErrorKind::Truncated)
}

// what ends a call

/// Whether a struct has the sections of a schema.
fn has_sections(place: Place, schema: StructSchema<'_>) -> bool {
    let size = size_of(schema);
    place.data_words >= size.data_words && place.pointers >= size.pointers
}

/// A struct has the sections of its schema.
#[inline]
#[track_caller]
pub(crate) fn sections(place: Place, schema: StructSchema<'_>) {
    if !has_sections(place, schema) {
        end(format_args!("the struct has fewer words or pointers than its schema"));
    }
}

/// An index is below a length.
#[inline(always)]
#[track_caller]
pub(crate) fn index<T: Into<u32> + Copy>(index: T, length: T) {
    let (index, length) = (index.into(), length.into());
    if index >= length {
        end(format_args!("the index {index} is not below the length {length}"));
    }
}

/// A byte of data is there.
#[inline(always)]
#[track_caller]
pub(crate) fn byte(index: usize, length: usize) {
    if index >= length {
        end(format_args!("the index {index} is not below the length {length}"));
    }
}

/// A number lies inside a struct's data section.
#[inline(always)]
#[track_caller]
pub(crate) fn number(place: Place, offset: u32, width: u8) {
    if (u64::from(offset) + 1) * u64::from(width) > 8 * u64::from(place.data_words) {
        end(format_args!(
            "the number at {offset} lies outside the data of the struct"
        ));
    }
}

/// A bit lies inside a struct's data section.
#[inline(always)]
#[track_caller]
pub(crate) fn bit(place: Place, offset: u32) {
    if u64::from(offset) >= 64 * u64::from(place.data_words) {
        end(format_args!("the bit at {offset} lies outside the data of the struct"));
    }
}

/// A struct has a pointer.
#[inline(always)]
#[track_caller]
pub(crate) fn pointer(place: Place, index: u16) {
    if index >= place.pointers {
        end(format_args!("the struct has no pointer {index}"));
    }
}

/// A list has a bit.
#[inline(always)]
#[track_caller]
pub(crate) fn bit_in(list: ListTarget, index: u32) {
    let is_there = match list {
        ListTarget::Plain(list) => matches!(list.size, ElementSize::Bit) && index < list.count,
        _ => false,
    };
    if !is_there {
        end(format_args!("the list has no bit at {index}"));
    }
}

/// A list has a number of a width: a list of structs, in each that has data.
#[inline(always)]
#[track_caller]
pub(crate) fn number_in(list: ListTarget, index: u32, width: u8) {
    let is_there = match list {
        ListTarget::Nothing(_) => false,
        ListTarget::Plain(list) => get_width(list.size) == usize::from(width) && index < list.count,
        ListTarget::Structs(list) => list.data_words > 0 && index < list.count,
    };
    if !is_there {
        end(format_args!("the list has no number of {width} bytes at {index}"));
    }
}

/// A list has a struct.
#[inline(always)]
#[track_caller]
pub(crate) fn struct_in(list: ListTarget, index: u32) {
    let is_there = match list {
        ListTarget::Structs(list) => index < list.count,
        _ => false,
    };
    if !is_there {
        end(format_args!("the list has no struct at {index}"));
    }
}

/// A list has a pointer: a list of structs, in each that has one.
#[inline(always)]
#[track_caller]
pub(crate) fn pointer_in(list: ListTarget, index: u32) {
    let is_there = match list {
        ListTarget::Nothing(_) => false,
        ListTarget::Plain(list) => matches!(list.size, ElementSize::Pointer) && index < list.count,
        ListTarget::Structs(list) => list.pointers > 0 && index < list.count,
    };
    if !is_there {
        end(format_args!("the list has no pointer at {index}"));
    }
}

/// A text has room for bytes.
#[inline(always)]
#[track_caller]
pub(crate) fn room(count: usize, room: usize) {
    if count > room {
        end(format_args!(
            "the text has no room for {count} bytes: it has room for {room}"
        ));
    }
}

/// A byte is an ASCII character.
#[inline(always)]
#[track_caller]
pub(crate) fn ascii(byte: u8) {
    if !byte.is_ascii() {
        end(format_args!("the byte {byte} is no ASCII character"));
    }
}

/// The part of a device's call has a size.
#[track_caller]
pub(crate) fn chunk(chunk: usize) {
    if chunk == 0 {
        end(format_args!("the chunk of a device is 0"));
    }
}

/// A struct is read under the schema that a call asks for.
#[track_caller]
pub(crate) fn read_under(schema: StructSchema<'_>, asked: StructSchema<'_>) {
    if !is_same(schema, asked) {
        end(format_args!(
            "the struct is read under another schema than that of the pair"
        ));
    }
}

/// A type is that of a struct's schema.
#[inline]
#[track_caller]
pub(crate) fn downcast(named: Type, schema: StructSchema<'_>) {
    if named != Type::from(TypeVariant::Struct(RawBrandedStructSchema::from(schema))) {
        end(format_args!("the type is not that of the struct's schema"));
    }
}

/// A number is that of a struct of a set, and beside it stands that of its node.
#[inline]
#[track_caller]
pub(crate) fn raw_struct(schemas: &SchemaSet, raw: RawBrandedStructSchema) {
    let is_there = match schemas.brands().get(raw.number as usize) {
        Some(brand) => brand.node == raw.generic,
        None => false,
    };
    if !is_there {
        let RawBrandedStructSchema { number, generic } = raw;
        end(format_args!("the set has no struct {number} of the node {generic}"));
    }
}

/// A number is that of an enum of a set.
#[inline]
#[track_caller]
pub(crate) fn raw_enum(schemas: &SchemaSet, raw: RawEnumSchema) {
    let number = raw.number;
    if number as usize >= schemas.enums().len() {
        end(format_args!("the set has no enum {number}"));
    }
}

/// A walk stands at a field.
#[inline(always)]
#[track_caller]
pub(crate) fn stands(at_field: bool) {
    if !at_field {
        end(format_args!("the walk stands at no field"));
    }
}

/// A walk stands at the field of a group: at an index of a schema, which the group knows.
#[inline(always)]
#[track_caller]
pub(crate) fn group(schema: StructSchema<'_>, index: u16, group: StructSchema<'_>) {
    let is_of_set = ptr::eq(schema.get_set(), group.get_set());
    if !is_of_set || group.schemas.group_field(group.number) != Some((schema.number, index)) {
        end(format_args!("the walk stands at another field than that of the group"));
    }
}

/// A number is an index of 16 bits.
#[inline(always)]
#[track_caller]
pub(crate) fn short(index: u32) {
    if index > u32::from(u16::MAX) {
        end(format_args!("the index {index} has more than 16 bits"));
    }
}

/// A copy is not asked to be canonical.
#[inline(always)]
#[track_caller]
pub(crate) fn not_canonical(canonicalize: bool) {
    if canonicalize {
        end(format_args!(
            "canonical copies are not made: `canonicalize` has to be false"
        ));
    }
}

/// An untyped pointer is given no default.
#[inline(always)]
#[track_caller]
pub(crate) fn no_default(is_given: bool) {
    if is_given {
        end(format_args!("an untyped pointer has no default"));
    }
}

// cases that a condition excludes

/// The value is not of the kind that it is taken as.
#[track_caller]
pub(crate) fn other_kind() -> ! {
    end(format_args!("the value is not of the kind that it is taken as"))
}

/// A struct has no field at an index.
#[cold]
#[inline(never)]
#[track_caller]
pub(crate) fn past_end(index: u16, length: u16) -> ! {
    end(format_args!("the index {index} is not below the length {length}"))
}

/// Something else than a text stands at a pointer.
#[track_caller]
pub(crate) fn no_text() -> ! {
    end(format_args!("no text stands at the pointer"))
}

/// Something else than data stands at a pointer.
#[track_caller]
pub(crate) fn no_data() -> ! {
    end(format_args!("no data stands at the pointer"))
}
