//! Edits of lists: the texts of lists before and after, by the definition of texts.

use crate::capnp_dynamic::{dynamic_list, dynamic_struct, dynamic_value, printer};
use crate::capnp_edits::edit::{change_list, Edit};
use crate::capnp_schema::builtin;
use crate::capnp_schema::schema::StructSchema;
use crate::capnp_schema::set::SchemaSet;
use crate::capnp_splices::read::read_list;
use crate::capnp_wire::error::ErrorKind;
use crate::capnp_wire::message::Reader;
use crate::rattle_std::alloc::Global;
use std::fs;

fn text_of(value: dynamic_value::Reader<'_>) -> String {
    let mut out = crate::rattle_std::string::String::new(Global);
    printer::print(value, &mut out, false).expect("it has a text");
    out.as_str().to_owned()
}

/// The bytes of a message in `examples`.
fn file(name: &str) -> Vec<u8> {
    fs::read(format!("{}/examples/{name}", env!("CARGO_MANIFEST_DIR"))).expect("it is there")
}

fn root<'a>(bytes: &'a [u8], schema: StructSchema<'a>) -> dynamic_struct::Reader<'a> {
    let root = Reader::new(Global, bytes).expect("it is a message").get_root();
    dynamic_struct::Reader::new(root.get_struct().expect("it is a struct"), schema)
}

/// The list of a field of `Lists`.
fn list_of<'a>(lists: dynamic_struct::Reader<'a>, field: &str) -> dynamic_list::Reader<'a> {
    match lists.get_named(field).expect("it can be read") {
        dynamic_value::Reader::List(list) => list,
        _ => unreachable!("it is a list"),
    }
}

/// What an edit makes of a list, as text, or why it makes nothing.
fn edited(set: &SchemaSet, list: dynamic_list::Reader<'_>, edit: Edit<'_>) -> Result<String, ErrorKind> {
    let element = list.element_type();
    let made = change_list(Global, set, &list.get_elements(), element, edit).map_err(|error| error.kind)?;
    let now = read_list(&made).expect("it goes 64 levels down at most");
    Ok(text_of(dynamic_value::Reader::List(dynamic_list::Reader::new(now, element, set))))
}

#[test]
fn lists_are_edited() {
    use dynamic_value::Reader::UInt8;
    let set = builtin::new_set(Global).expect("there is memory");
    let schema = |name| set.find_struct(name).expect("it has the struct");
    let (lists, flat) = (file("lists.bin"), file("flat.bin"));
    let (lists, five) = (root(&lists, schema("Lists")), root(&flat, schema("Flat")).into());
    let (none, past) = (Err(ErrorKind::NoSuchElement), Err(ErrorKind::TypeMismatch));
    for (field, edit, after) in [
        ("bytes", Edit::Append(UInt8(7)), Ok("[1, 2, 255, 7]")),
        ("bytes", Edit::Insert(0, UInt8(7)), Ok("[7, 1, 2, 255]")),
        ("bytes", Edit::Insert(2, UInt8(7)), Ok("[1, 2, 7, 255]")),
        ("bytes", Edit::Insert(3, UInt8(7)), Ok("[1, 2, 255, 7]")),
        ("bytes", Edit::Insert(4, UInt8(7)), none),
        ("bytes", Edit::Append(five), past),
        ("bytes", Edit::Remove(0), Ok("[2, 255]")),
        ("bytes", Edit::Remove(2), Ok("[1, 2]")),
        ("bytes", Edit::Remove(3), none),
        ("bytes", Edit::Resize(0), Ok("[]")),
        ("bytes", Edit::Resize(2), Ok("[1, 2]")),
        ("bytes", Edit::Resize(5), Ok("[1, 2, 255, 0, 0]")),
        ("items", Edit::Append(five), Ok("[(a = 1), (a = 2), (a = 5)]")),
        ("items", Edit::Insert(1, five), Ok("[(a = 1), (a = 5), (a = 2)]")),
        ("items", Edit::Append(UInt8(7)), past),
        ("items", Edit::Remove(0), Ok("[(a = 2)]")),
        ("items", Edit::Resize(3), Ok("[(a = 1), (a = 2), (a = 0)]")),
    ] {
        let said = edited(&set, list_of(lists, field), edit);
        assert_eq!(said.as_deref(), after.as_ref().map(|text| *text), "{field}");
    }
}
