//! Lists that are built at the root of a new message, and what is read of them.

use super::{size, ONE_EACH};
use crate::capnp_arena::handle_callers::{build_data, build_list, set_text_element};
use crate::capnp_arena::handles::ListBuilder;
use crate::capnp_arena::message::Builder;
use crate::capnp_wire::error::Result;
use crate::capnp_wire::size::{ElementSize, StructSize};
use crate::capnp_wire::PointerReader;
use std::fmt::Display;

/// Builds at the root of a message, and returns what is read of that.
pub type Build = fn(&mut Builder) -> Result<String>;

const POINT: StructSize = size(1, 0);

/// The words of a list of the numbers 1 and 2, of two bytes each.
const NUMBERS: [u8; 16] = [1, 0, 0, 0, 0x13, 0, 0, 0, 1, 0, 2, 0, 0, 0, 0, 0];

/// What builds the list of a row's name.
pub fn list_named(name: &str) -> Option<Build> {
    let build: Build = match name {
        "null as numbers" => |message| Ok(numbers_in(&message.root().get_list(ElementSize::TwoBytes)?, [0, 2, 2])),
        "null as bits" => |message| Ok(bits_in(&message.root().get_list(ElementSize::TwoBytes)?, [0; 3])),
        "second number" => |message| Ok(numbers_in(&one_of_three(message, 1)?, [1, 2, 3])),
        "third number" => |message| Ok(numbers_in(&one_of_three(message, 2)?, [2; 3])),
        "third number as bits" => |message| Ok(bits_in(&one_of_three(message, 2)?, [0; 3])),
        "ten bits" => |message| last_bit(message, 10),
        "three bits" => |message| last_bit(message, 3),
        "text list" => text_list,
        "struct list" => struct_list,
        "struct as number" => struct_as_number,
        "numbers as structs" => numbers_as_structs,
        "list here" => list_here,
        "texts" => texts,
        "listed" => |message| build_list(message, 2, ONE_EACH, 1, 0, b"hi").map(nothing),
        "byte" => |message| build_data(message, 3, 9).map(nothing),
        _ => return None,
    };
    Some(build)
}

/// What is read where nothing is.
pub fn nothing(_: ()) -> String {
    String::new()
}

/// The values at some indices.
fn at<T: Display, const N: usize>(indices: [u32; N], get: impl Fn(u32) -> T) -> String {
    indices.map(|index| get(index).to_string()).join(" ")
}

fn numbers_in<const N: usize>(list: &ListBuilder<'_>, indices: [u32; N]) -> String {
    at(indices, |index| list.get_data_element::<u16>(index))
}

fn bits_in<const N: usize>(list: &ListBuilder<'_>, indices: [u32; N]) -> String {
    at(indices, |index| list.get_bool_element(index))
}

/// Three numbers, of which one is set.
fn one_of_three(message: &mut Builder, index: u32) -> Result<ListBuilder<'_>> {
    let mut list = message.root().init_list(ElementSize::TwoBytes, 3)?;
    list.set_data_element::<u16>(index, 0x0201);
    Ok(list)
}

/// Bits, of which the last is set, and the first set and cleared.
fn last_bit(message: &mut Builder, count: u32) -> Result<String> {
    let mut list = message.root().init_list(ElementSize::Bit, count)?;
    list.set_bool_element(count - 1, true);
    list.set_bool_element(0, true);
    list.set_bool_element(0, false);
    Ok(bits_in(&list, [9, 0, 10]))
}

/// The list of a text of two bytes, which are written one by one.
fn text_list(message: &mut Builder) -> Result<String> {
    let mut list = message.root().init_list(ElementSize::Byte, 3)?;
    list.set_data_element::<u8>(0, b'h');
    list.set_data_element::<u8>(1, b'i');
    Ok(at([0, 1, 2], |index| list.get_data_element::<u8>(index)))
}

/// The number at the start of the second of a list of structs.
fn second_of_structs(message: &mut Builder, size: StructSize) -> Result<String> {
    Ok(numbers_in(&message.root().get_struct_list(size)?, [1]))
}

fn struct_list(message: &mut Builder) -> Result<String> {
    let list = message.root().init_struct_list(2, POINT)?;
    list.get_struct_element(1).set_data_field::<u16>(0, 2);
    second_of_structs(message, POINT)
}

/// A number at the start of a struct, and data at its pointer.
fn struct_as_number(message: &mut Builder) -> Result<String> {
    let mut list = message.root().init_struct_list(1, ONE_EACH)?;
    list.set_data_element::<u16>(0, 3);
    list.get_pointer_element(0).set_data(&[9]).map(nothing)
}

fn numbers_as_structs(message: &mut Builder) -> Result<String> {
    message.root().copy_from(PointerReader::from_words(&NUMBERS))?;
    second_of_structs(message, ONE_EACH)
}

/// Data that are got after a test.
fn list_here(message: &mut Builder) -> Result<String> {
    message.root().set_data(&[5, 6])?;
    let is_list = message.root().is_list();
    let list = message.root().get_list(ElementSize::Byte)?;
    Ok(format!("{} {is_list}", list.get_data_element::<u8>(1)))
}

fn texts(message: &mut Builder) -> Result<String> {
    let mut list = message.root().init_list(ElementSize::Pointer, 2)?;
    set_text_element(&mut list, 1, b"hi").map(nothing)
}
