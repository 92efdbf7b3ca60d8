//! Structs that are built at the root of a new message, and what is read of them.

use super::built_lists::{nothing, Build};
use super::{size, ONE_EACH};
use crate::capnp_arena::handle_callers::build_struct;
use crate::capnp_arena::handles::StructBuilder;
use crate::capnp_arena::message::Builder;
use crate::capnp_wire::error::Result;
use crate::capnp_wire::size::ElementSize;
use crate::capnp_wire::PointerReader;
use crate::capnp_wire_callers::built::{put_number, put_text};

/// What builds the struct of a row's name.
pub fn struct_named(name: &str) -> Option<Build> {
    let build: Build = match name {
        "example" => |message| example(&mut new_struct(message)?),
        "fields" => |message| Ok(fields(&mut new_struct(message)?)),
        "named" => |message| build_struct(message, ONE_EACH, 0, b"hi").map(nothing),
        "called text" => |message| put_text(&mut new_struct(message)?, b"hi").map(nothing),
        "called number" => called_number,
        "null as struct" => null_as_struct,
        "masked" => |message| Ok(masked(&mut new_struct(message)?)),
        "bit" => |message| Ok(bit(&mut new_struct(message)?)),
        "masked bits" => |message| Ok(masked_bits(&mut new_struct(message)?)),
        "word" => |message| Ok(word(&mut new_struct(message)?)),
        "cleared" => |message| cleared(&mut new_struct(message)?),
        "measured" => |message| measured(&mut new_struct(message)?),
        "struct here" => struct_here,
        "copied text" => |message| copied_text(&mut new_struct(message)?),
        "reading" => reading,
        "lost" => lost,
        "sizes" => |message| sizes(&mut new_struct(message)?),
        _ => return None,
    };
    Some(build)
}

fn new_struct(message: &mut Builder) -> Result<StructBuilder<'_>> {
    message.root().init_struct(ONE_EACH)
}

fn example(fields: &mut StructBuilder<'_>) -> Result<String> {
    fields.set_data_field::<u64>(0, 5);
    fields.pointer_field_mut(0).set_text(b"hi").map(nothing)
}

/// The second bit is stored as false: it is its default.
fn fields(fields: &mut StructBuilder<'_>) -> String {
    fields.set_bool_field(3, true);
    fields.set_data_field_mask::<u16>(1, 5, 1);
    fields.set_bool_field_mask(9, true, true);
    String::new()
}

/// A number in the place of a struct with a text.
fn called_number(message: &mut Builder) -> Result<String> {
    put_text(&mut new_struct(message)?, b"hi")?;
    put_number(&mut new_struct(message)?, 0, 9);
    Ok(String::new())
}

fn null_as_struct(message: &mut Builder) -> Result<String> {
    let mut fields = message.root().get_struct(ONE_EACH)?;
    assert_eq!(fields.get_size(), ONE_EACH);
    fields.set_data_field::<u16>(3, 7);
    Ok(String::new())
}

/// A number with a default.
fn masked(fields: &mut StructBuilder<'_>) -> String {
    fields.set_data_field_mask::<u16>(1, 5, 7);
    let stored = fields.get_data_field::<u16>(1);
    let read = fields.get_data_field_mask::<u16>(1, 7);
    format!("{stored} {read} {}", fields.get_data_field::<u16>(0))
}

/// A bit, and a number of eight bytes at the same place.
fn bit(fields: &mut StructBuilder<'_>) -> String {
    fields.set_bool_field(9, true);
    let word = fields.get_data_field::<u64>(0);
    let (stored, read) = (fields.get_bool_field(9), fields.get_bool_field_mask(9, true));
    format!("{word} {stored} {read}")
}

/// Two bits whose default is true: one that differs from it, and one that doesn't.
fn masked_bits(fields: &mut StructBuilder<'_>) -> String {
    fields.set_bool_field_mask(9, false, true);
    fields.set_bool_field_mask(3, true, true);
    let word = fields.get_data_field::<u64>(0);
    let [ninth, third] = [9, 3].map(|offset| fields.get_bool_field_mask(offset, true));
    format!("{word} {ninth} {third}")
}

fn word(fields: &mut StructBuilder<'_>) -> String {
    fields.set_data_field::<u64>(0, 0x0000_0009_0001_0005);
    String::new()
}

/// A pointer that takes a text and is cleared.
fn cleared(fields: &mut StructBuilder<'_>) -> Result<String> {
    let mut name = fields.pointer_field_mut(0);
    let first = name.is_null();
    name.set_text(b"hi")?;
    let second = name.is_null();
    name.clear();
    Ok(format!("{first} {second} {}", name.is_null()))
}

/// What is below a struct is measured with it.
fn measured(fields: &mut StructBuilder<'_>) -> Result<String> {
    let first = fields.total_size()?;
    fields.pointer_field_mut(0).set_text(b"hi")?;
    let second = fields.total_size()?;
    Ok(format!(
        "{} {} {}",
        first.word_count, second.word_count, second.cap_count
    ))
}

/// A struct that is found after a test.
fn struct_here(message: &mut Builder) -> Result<String> {
    let mut fields = new_struct(message)?;
    let is_null = fields.pointer_field(0).is_null();
    fields.set_data_field::<u16>(1, 7);
    assert!(message.is_struct(0));
    let place = message.struct_here(0);
    Ok(format!("{} {is_null}", message.get_data_field::<u16>(place, 1)))
}

/// A text that is copied to a pointer.
fn copied_text(fields: &mut StructBuilder<'_>) -> Result<String> {
    let text = [1, 0, 0, 0, 0x1a, 0, 0, 0, b'h', b'i', 0, 0, 0, 0, 0, 0];
    let source = PointerReader::from_words(&text);
    fields.pointer_field_mut(0).copy_from(source).map(nothing)
}

/// A reading of examples/reading.capnp.
fn reading(message: &mut Builder) -> Result<String> {
    let mut fields = message.root().init_struct(size(2, 4))?;
    fields.set_data_field::<u64>(0, 7);
    fields.set_data_field_mask::<i8>(8, -2, -1);
    let mut points = fields.pointer_field_mut(2).init_struct_list(2, size(1, 0))?;
    points.set_data_element::<i32>(0, 1);
    points.set_data_element::<i32>(1, -3);
    Ok(String::new())
}

/// A larger struct, all zero and null, is put in the place of one of size zero in a list.
fn lost(message: &mut Builder) -> Result<String> {
    let mut words = [0; 56];
    words[4] = 2;
    words[6] = 4;
    let larger = PointerReader::from_words(&words).get_struct()?;
    let list = message.root().init_struct_list(3, size(0, 0))?;
    list.get_struct_element(1).copy_content_from(&larger).map(nothing)
}

/// The size of a struct, and that of the elements of a list at its pointer.
fn sizes(fields: &mut StructBuilder<'_>) -> Result<String> {
    let size = fields.get_size();
    let list = fields.pointer_field_mut(0).init_list(ElementSize::FourBytes, 3)?;
    let is_four = list.get_element_size() == ElementSize::FourBytes;
    Ok(format!("{} {} {is_four}", size.data_words, size.pointers))
}
