//! Values and edits that texts say, on structs that are built and on messages in bytes.
#![forbid(unsafe_code)]

use riftcalico::edits::{edit_by_words, Unreadable};
use riftcalico::memory::Global;
use riftcalico::message;
use riftcalico::printer::to_string;
use riftcalico::run::Reply;
use riftcalico::schema::SchemaSet;
use riftcalico::{dynamic_struct, ErrorKind};
use std::fs;

fn file(name: &str) -> Vec<u8> {
    fs::read(format!("{}/examples/{name}", env!("CARGO_MANIFEST_DIR"))).expect("it is there")
}

/// The set of the public tool's address book.
fn address_book() -> SchemaSet {
    SchemaSet::from_request(&file("addressbook.request")).expect("the request is whole")
}

#[test]
fn words_edit_a_message() {
    let set = address_book();
    let schema = set.get_struct_named("AddressBook").expect("it is named");
    let words = [
        "set people.0.name Bob",
        "remove people.1",
        "append people (name = \"Carol\", id = 789)",
        "append people {\"name\": \"Dora\"}",
        "get people.1.id",
        "set people.9.id 1",
    ];
    let (replies, left) = edit_by_words(&file("addressbook.bin"), schema, &words)
        .expect("there is memory")
        .expect("they are read");
    let told: Vec<bool> = replies
        .iter()
        .map(|reply| matches!(reply, Reply::Refused(ErrorKind::NoSuchElement)))
        .collect();
    assert_eq!(told, [false, false, false, false, false, true]);
    let root = message::read_root(&left, schema).expect("it is a message");
    let text = to_string(root.into(), false).expect("it has a text");
    assert!(text.starts_with("(people = [(id = 123, name = \"Bob\", "), "{text}");
    assert!(text.ends_with(", (id = 789, name = \"Carol\", employment = (unemployed = ())), (id = 0, name = \"Dora\", employment = (unemployed = ()))])"), "{text}");
}

#[test]
fn words_that_cannot_be_read_change_nothing() {
    let set = address_book();
    let schema = set.get_struct_named("AddressBook").expect("it is named");
    for (words, index, place) in [
        (["get people", "sat people"], 1, 1),
        (["set people.0.id x", "get people"], 0, 16),
        (["get people", "append people (id = x)"], 1, 20),
    ] {
        let read = edit_by_words(&file("addressbook.bin"), schema, &words).expect("there is memory");
        assert_eq!(read, Err(Unreadable { index, place }), "{words:?}");
    }
    assert!(edit_by_words(&[], schema, &["get people"]).is_err());
}

/// The print of a new person of which a field is set from a text, or the place of what can't be read.
fn person_with(set: &SchemaSet, name: &str, text: &str) -> Result<String, usize> {
    let schema = set.get_struct_named("Person").expect("it is named");
    let field = schema.get_field_by_name(name).expect("it has the field");
    let mut message = message::Builder::new(Global).expect("there is memory");
    let mut person = dynamic_struct::Builder::open(message.root(), schema).expect("there is memory");
    person.set_from_text(field, text).expect("it takes the value")?;
    Ok(to_string(person.into_reader().into(), false).expect("it has a text"))
}

#[test]
fn fields_are_set_from_texts() {
    let set = address_book();
    for (name, text, print) in [
        ("id", "7", Ok("(id = 7, employment = (unemployed = ()))")),
        ("id", "4294967296", Err(9)),
        (
            "name",
            "Bob",
            Ok("(id = 0, name = \"Bob\", employment = (unemployed = ()))"),
        ),
        (
            "name",
            "\"B\\\"b\"",
            Ok("(id = 0, name = \"B\\\"b\", employment = (unemployed = ()))"),
        ),
        (
            "phones",
            "[(number = \"1\", type = home)]",
            Ok("(id = 0, phones = [(number = \"1\", type = home)], employment = (unemployed = ()))"),
        ),
        (
            "phones",
            "[{\"type\": \"work\"}]",
            Ok("(id = 0, phones = [(type = work)], employment = (unemployed = ()))"),
        ),
        ("phones", "[(numbr = \"1\")]", Err(2)),
        (
            "employment",
            "(school = \"MIT\")",
            Ok("(id = 0, employment = (school = \"MIT\"))"),
        ),
        ("employment", "(school = \"MIT\", employer = \"\")", Err(17)),
    ] {
        let made = person_with(&set, name, text);
        assert_eq!(
            made.as_ref().map(String::as_str),
            print.as_ref().map(|print| *print),
            "{name} {text}"
        );
    }
}
