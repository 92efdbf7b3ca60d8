//! Calls that write, each with the path of its place, as `set items.1.a UInt16(7)`.

use super::values::{number, value_of};
use crate::capnp_dynamic::dynamic_value::Reader as Value;
use crate::capnp_dynamic::parts::build::{list_at, list_in, struct_at, struct_in};
use crate::capnp_dynamic::{dynamic_list, dynamic_struct};
use crate::capnp_schema::set::SchemaSet;
use crate::capnp_wire::error::{Error, ErrorKind, Result};
use crate::fixtures::words::first_word;
use crate::rows::Place;

/// What a call does at its place.
#[derive(Clone, Copy)]
enum Write<'a> {
    Get,
    Set(Value<'a>),
    Init,
    Initn(u32),
    Clear,
}

/// A call, and the path of names and indices that leads to its place.
#[derive(Clone, Copy)]
pub struct Call<'a> {
    path: &'a str,
    write: Write<'a>,
}

impl<'a> Call<'a> {
    /// The call that a text names. `data` is what `data_in` returns for the text.
    pub fn read(place: Place, schemas: &'a SchemaSet, text: &'a str, data: &'a [u8]) -> Call<'a> {
        let (word, rest) = first_word(text);
        let (path, rest) = first_word(rest);
        let write = match word {
            "get" => Write::Get,
            "set" => Write::Set(value_of(place, schemas, rest, data)),
            "init" => Write::Init,
            "initn" => Write::Initn(number(place, rest)),
            "clear" => Write::Clear,
            _ => panic!("{place}: {text:?} is no call"),
        };
        Call { path, write }
    }

    /// Makes the call. Only the layer allocates memory here.
    pub fn make(self, root: dynamic_struct::Builder<'_>) -> Result<()> {
        write_in_struct(root, self.path, self.write)
    }
}

/// The index that a path begins with, and the rest of the path.
fn index_in(path: &str) -> Option<(u32, &str)> {
    let (first, rest) = path.split_once('.').unwrap_or((path, ""));
    Some((first.parse().ok()?, rest))
}

/// Makes a call in a struct.
fn write_in_struct(builder: dynamic_struct::Builder<'_>, path: &str, write: Write<'_>) -> Result<()> {
    let Some((name, rest)) = path.split_once('.') else {
        return write_field(builder, path, write);
    };
    match index_in(rest) {
        Some((index, rest)) => write_in_list(list_in(builder, name)?, index, rest, write),
        None => write_in_struct(struct_in(builder, name)?, rest, write),
    }
}

/// Makes a call in a list: at the element of an index, or further inside.
fn write_in_list(list: dynamic_list::Builder<'_>, index: u32, path: &str, write: Write<'_>) -> Result<()> {
    if path.is_empty() {
        return write_element(list, index, write);
    }
    match index_in(path) {
        Some((inner, rest)) => write_in_list(list_at(list, index)?, inner, rest, write),
        None => write_in_struct(struct_at(list, index)?, path, write),
    }
}

/// Makes a call at a field.
fn write_field(mut builder: dynamic_struct::Builder<'_>, name: &str, write: Write<'_>) -> Result<()> {
    match write {
        Write::Get => builder.get_named(name).map(drop),
        Write::Set(value) => builder.set_named(name, value),
        Write::Init => builder.init_named(name).map(drop),
        Write::Initn(size) => builder.initn_named(name, size).map(drop),
        Write::Clear => builder.clear_named(name),
    }
}

/// Makes a call at an element, where `initn` is the list's `init`. Lists have no other `init` and no `clear`.
fn write_element(mut list: dynamic_list::Builder<'_>, index: u32, write: Write<'_>) -> Result<()> {
    if index >= list.len() {
        return Err(Error::from(ErrorKind::NoSuchElement));
    }
    match write {
        Write::Get => list.get(index).map(drop),
        Write::Set(value) => list.set(index, value),
        Write::Initn(size) => list.init(index, size).map(drop),
        Write::Init | Write::Clear => Err(Error::from(ErrorKind::NotAContainer)),
    }
}
