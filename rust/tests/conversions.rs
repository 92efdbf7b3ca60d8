//! What Rust has and what the layer takes, one made of the other.

use riftcalico::memory::{self, Global};
use riftcalico::schema::{builtin, SchemaSet};
use riftcalico::traits::SetterInput;
use riftcalico::{any_pointer, data, dynamic_struct, dynamic_value, message, printer, sets, text};
use std::error::Error;

const REQUEST: &[u8] = include_bytes!("../../examples/addressbook.request");
const FLAT: &[u8] = include_bytes!("../../examples/flat.bin");

#[test]
fn a_refusal_is_an_error_with_number_and_name() {
    let refusal = SchemaSet::from_request(&FLAT[..3])
        .err()
        .expect("three bytes are no message");
    assert_eq!((refusal.number(), refusal.name()), (2, "Truncated"));
    let error: Box<dyn Error> = refusal.into();
    assert_eq!(error.to_string(), "the input is cut short");
}

#[test]
fn a_name_that_no_struct_has_is_refused() {
    let schemas = SchemaSet::from_request(REQUEST).expect("the request is whole");
    let refusal = schemas.get_struct_named("Nobody").expect_err("there is no such struct");
    assert_eq!((refusal.number(), refusal.name()), (64, "NameNotFound"));
}

#[test]
fn vectors_and_strings_go_both_ways() {
    let numbers: memory::Vec<u16> = vec![3, 5].into();
    assert_eq!(Vec::from(numbers), [3, 5]);
    let name: memory::String = String::from("west").into();
    assert_eq!(String::from(name), "west");
}

#[test]
fn a_set_is_the_same_by_its_request_and_by_its_message() {
    let schemas = SchemaSet::from_request(REQUEST).expect("the request is whole");
    let bytes = schemas.to_message().expect("there is memory");
    let again = SchemaSet::from_message(&bytes).expect("what was written is read");
    assert!(schemas.nodes() == again.nodes() && schemas.brands() == again.brands() && schemas.enums() == again.enums());
    assert_eq!(
        bytes,
        Vec::from(sets::write_set(Global, &again).expect("there is memory"))
    );
}

#[test]
fn strings_stand_where_texts_are_wanted() {
    let word = String::from("a \"word\"");
    assert_eq!(text::Reader::from(&word).as_bytes(), word.as_bytes());
    let value = dynamic_value::Reader::from(&word);
    assert_eq!(
        printer::to_string(value, false).expect("it is UTF-8"),
        "\"a \\\"word\\\"\""
    );
    let mut message = message::Builder::new(Global).expect("there is memory");
    <&String>::set_pointer_builder(message.root(), &word, false).expect("there is memory");
    assert_eq!(message.root().get_text().expect("a text stands there"), word.as_bytes());
}

#[test]
fn a_root_is_read_under_a_struct_of_the_built_in_set() {
    let schemas = builtin::new_set(Global).expect("there is memory");
    let root = message::read_root(FLAT, schemas.struct_schema(builtin::FLAT)).expect("the message is whole");
    assert_eq!(
        printer::to_string(root.into(), false).expect("each value is read"),
        "(a = 5)"
    );
}

/// Writes through a value that a value lends, and then through that value: text at its own position, the others where
/// they stand.
fn write_twice(mut owner: dynamic_value::Builder<'_>) {
    write_to(owner.reborrow(), 1);
    write_to(owner, 2);
}

fn write_to(value: dynamic_value::Builder<'_>, number: u8) {
    match value {
        dynamic_value::Builder::Text(mut text) => text.push_str(&"x".repeat(usize::from(number))),
        dynamic_value::Builder::Data(mut data) => data.set(usize::from(number), number),
        dynamic_value::Builder::Struct(mut part) => part
            .set_named(if number == 1 { "id" } else { "name" }, id_or_name(number))
            .expect("there is memory"),
        dynamic_value::Builder::List(list) => match list.get(u32::from(number)).expect("it is there") {
            dynamic_value::Builder::Struct(mut part) => part
                .set_named("id", dynamic_value::Reader::UInt32(u32::from(number)))
                .expect("there is memory"),
            _ => panic!("a list of structs"),
        },
        dynamic_value::Builder::AnyPointer(mut pointer) => pointer
            .set_as(if number == 1 { "a text" } else { "another" })
            .expect("there is memory"),
        _ => panic!("no pointer stands for it"),
    }
}

fn id_or_name(number: u8) -> dynamic_value::Reader<'static> {
    match number {
        1 => dynamic_value::Reader::UInt32(1),
        _ => dynamic_value::Reader::from("two"),
    }
}

#[test]
fn a_value_is_written_where_it_stands_after_what_it_lent() {
    let mut message = message::Builder::new(Global).expect("there is memory");
    message.root().set_text(b"abcd").expect("there is memory");
    write_twice(dynamic_value::Builder::Text(text::Builder::with_pos(message.root(), 1)));
    assert_eq!(message.root().get_text().expect("a text stands there"), b"axxd");
    message.root().set_data(&[7, 7, 7]).expect("there is memory");
    write_twice(dynamic_value::Builder::Data(data::Builder::new(message.root())));
    assert_eq!(message.root().get_data().expect("data stand there"), [7, 1, 2]);
    write_twice(dynamic_value::Builder::AnyPointer(any_pointer::Builder::new(
        message.root(),
    )));
    assert_eq!(message.root().get_text().expect("a text stands there"), b"another");
}

#[test]
fn a_struct_and_a_list_are_written_where_they_stand_after_what_they_lent() {
    let schemas = SchemaSet::from_request(REQUEST).expect("the request is whole");
    let schema = schemas.get_struct_named("AddressBook").expect("it is named");
    let mut message = message::Builder::new(Global).expect("there is memory");
    let book = dynamic_struct::Builder::open(message.root(), schema).expect("there is memory");
    write_twice(book.initn_named("people", 3).expect("there is memory"));
    let book = dynamic_struct::Builder::open(message.root(), schema).expect("it stands there");
    match book.get_named("people").expect("it stands there") {
        dynamic_value::Builder::List(people) => write_twice(people.get(0).expect("it is there")),
        _ => panic!("a list"),
    }
    let book = dynamic_struct::Builder::open(message.root(), schema).expect("it stands there");
    let told = printer::to_string(book.into_reader().into(), false).expect("each value is read");
    assert!(told.contains("id = 1, name = \"two\""), "{told}");
    assert!(told.contains("id = 2"), "{told}");
}
