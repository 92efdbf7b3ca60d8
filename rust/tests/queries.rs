//! What stands at paths of a message: lines of `capnp convert --short binary:json` and of `capnp decode` (0.9.2), cut to
//! the part that a path leads to.
#![forbid(unsafe_code)]

use riftcalico::memory::Global;
use riftcalico::query::{get_json, get_length, get_shown, list_paths, NoJson, NoLength, NotListed};
use riftcalico::run::Step;
use riftcalico::schema::SchemaSet;
use riftcalico::ErrorKind;
use std::fs;

fn file(name: &str) -> Vec<u8> {
    fs::read(format!("{}/examples/{name}", env!("CARGO_MANIFEST_DIR"))).expect("the example is there")
}

fn book() -> (SchemaSet, Vec<u8>) {
    let schemas = SchemaSet::from_request(&file("addressbook.request")).expect("the request is taken");
    (schemas, file("addressbook.bin"))
}

/// The steps of a path, as words have them.
fn steps(path: &str) -> Vec<Step<'_>> {
    let words = path.split('.').filter(|word| !word.is_empty());
    words
        .map(|word| match word.parse() {
            Ok(index) => Step::Element(index),
            Err(_) => Step::Named(word),
        })
        .collect()
}

#[test]
fn json_at_a_path() {
    let (schemas, bytes) = book();
    let schema = schemas.get_struct_named("AddressBook").expect("the struct is there");
    for (path, wanted) in [
        ("people.1.phones.0", r#"{"number":"555-4567","type":"home"}"#),
        ("people.1.id", "456"),
        ("people.0.employment", r#"{"school":"MIT"}"#),
        ("people.0.phones", r#"[{"number":"555-1212","type":"mobile"}]"#),
    ] {
        let json = get_json(Global, schema, &steps(path), &bytes, false, 1 << 20);
        assert_eq!(json.ok().map(|json| json.to_vec()), Some(wanted.as_bytes().to_vec()), "{path}");
    }
    let missing = get_json(Global, schema, &steps("people.1.nam"), &bytes, false, 1 << 20);
    assert!(matches!(missing, Err(NoJson::Unreached(refusal)) if refusal.kind == ErrorKind::FieldNotFound));
    let long = get_json(Global, schema, &steps("people.1.id"), &bytes, false, 2);
    assert!(matches!(long, Err(NoJson::Value(_))));
}

#[test]
fn lengths_at_a_path() {
    let (schemas, bytes) = book();
    let schema = schemas.get_struct_named("AddressBook").expect("the struct is there");
    for (path, wanted) in [("people", 2), ("people.0.phones", 1), ("people.1.phones", 2)] {
        let length = get_length(Global, schema, &steps(path), &bytes);
        assert_eq!(length.ok(), Some(wanted), "{path}");
    }
    let text = get_length(Global, schema, &steps("people.1.name"), &bytes);
    assert!(matches!(text, Err(NoLength::NoList(ErrorKind::NotAContainer))));
    let past = get_length(Global, schema, &steps("people.2"), &bytes);
    assert!(matches!(past, Err(NoLength::Unreached(refusal)) if refusal.kind == ErrorKind::NoSuchElement));
}

#[test]
fn texts_and_bytes_at_a_path() {
    let (schemas, bytes) = book();
    let schema = schemas.get_struct_named("AddressBook").expect("the struct is there");
    for (path, raw, wanted) in [
        ("people.1.name", false, "\"Bob\"\n"),
        ("people.1.name", true, "Bob"),
        ("people.1.id", true, "456\n"),
    ] {
        let shown = get_shown(Global, schema, &steps(path), &bytes, raw, false, 1 << 20);
        assert_eq!(shown.ok().map(|shown| shown.to_vec()), Some(wanted.as_bytes().to_vec()), "{path}");
    }
    let long = get_shown(Global, schema, &steps("people.1.name"), &bytes, true, false, 2);
    assert_eq!(long.err().map(|error| error.kind), Some(ErrorKind::TooLarge));
}

/// The words of steps.
fn words(steps: &[Step<'_>]) -> String {
    let words = steps.iter().map(|step| match step {
        Step::Named(name) => name.to_string(),
        Step::Element(index) => index.to_string(),
        Step::Field(index) => format!("#{index}"),
    });
    words.collect::<Vec<_>>().join(".")
}

#[test]
fn paths_of_a_pattern() {
    let (schemas, bytes) = book();
    let schema = schemas.get_struct_named("AddressBook").expect("the struct is there");
    for (pattern, wanted) in [
        ("people.*.name", "people.0.name people.1.name"),
        ("people.*.phones.*.number", "people.0.phones.0.number people.1.phones.0.number people.1.phones.1.number"),
        ("people.*.employment.*", "people.0.employment.school people.1.employment.unemployed"),
        ("people.*.employment.school", "people.0.employment.school"),
        ("people.*.employment.employer", ""),
        ("people.1.*", "people.1.id people.1.name people.1.email people.1.phones people.1.employment"),
        ("people.1.id", "people.1.id"),
    ] {
        let paths = list_paths(Global, schema, &steps(pattern), &bytes, 5);
        let paths = paths.ok().map(|paths| paths.iter().map(|path| words(path)).collect::<Vec<_>>().join(" "));
        assert_eq!(paths.as_deref(), Some(wanted), "{pattern}");
    }
}

#[test]
fn patterns_that_are_refused() {
    let (schemas, bytes) = book();
    let schema = schemas.get_struct_named("AddressBook").expect("the struct is there");
    for (pattern, kind, wanted) in [
        ("people.*.nam", ErrorKind::FieldNotFound, "people.0.nam"),
        ("people.1.employment.school.*", ErrorKind::InactiveMember, "people.1.employment.school"),
        ("people.*.employment.*.*", ErrorKind::NotAContainer, "people.0.employment.school"),
        ("people.0.name.*", ErrorKind::NotAContainer, "people.0.name"),
        ("people.2.*", ErrorKind::NoSuchElement, "people.2"),
    ] {
        match list_paths(Global, schema, &steps(pattern), &bytes, 5) {
            Err(NotListed::Refused(refused)) => assert_eq!((refused.kind, words(&refused.steps)), (kind, wanted.to_string())),
            _ => panic!("{pattern} is not refused"),
        }
    }
    let many = list_paths(Global, schema, &steps("people.*.id"), &bytes, 1);
    assert!(matches!(many, Err(NotListed::Unmade(ErrorKind::TooLarge))));
    let cut = list_paths(Global, schema, &steps("people.*.id"), &bytes[..20], 9);
    assert!(matches!(cut, Err(NotListed::Refused(refused)) if refused.kind == ErrorKind::Truncated && refused.steps.is_empty()));
}
