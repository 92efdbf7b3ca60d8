//! Each example prints what the public tool prints of the same values and schemas, but for what docs/PROGRAM.md says is
//! printed otherwise.

#[allow(dead_code, reason = "its main is not called")]
#[path = "../examples/address_book.rs"]
mod address_book;
#[allow(dead_code, reason = "its main is not called")]
#[path = "../examples/build_message.rs"]
mod build_message;
#[allow(dead_code, reason = "its main is not called")]
#[path = "../examples/first_steps.rs"]
mod first_steps;
#[allow(dead_code, reason = "its main is not called")]
#[path = "../examples/older_program.rs"]
mod older_program;
#[allow(dead_code, reason = "its main is not called")]
#[path = "../examples/query_schema.rs"]
mod query_schema;
#[allow(dead_code, reason = "its main is not called")]
#[path = "../examples/sum_numbers.rs"]
mod sum_numbers;

use riftcalico::{message, patch, printer, schema::SchemaSet};

const REQUEST: &[u8] = include_bytes!("../../examples/addressbook.request");
const BOOK: &[u8] = include_bytes!("../../examples/addressbook.bin");

#[test]
fn an_address_book_is_read_and_patched() {
    let wanted = concat!(
        "\"555-4567\"\n",
        "(people = [(id = 123, name = \"Alice\", email = \"alice@example.com\", ",
        "phones = [(number = \"555-1212\", type = mobile)], employment = (school = \"MIT\")), ",
        "(id = 456, name = \"Bob\", email = \"bob@example.org\", ",
        "phones = [(number = \"555-4567\", type = home), (number = \"555-7654\", type = work)], ",
        "employment = (unemployed = ()))])\n",
        "(people = [(id = 123, name = \"Alice\", email = \"alice@example.com\", ",
        "phones = [(number = \"555-1212\", type = mobile)], employment = (school = \"MIT\")), ",
        "(id = 456, name = \"Bob\", email = \"bob@example.org\", ",
        "phones = [(number = \"555-4567\", type = home), (number = \"555-7654\", type = work)], ",
        "employment = (unemployed = ())), ",
        "(id = 123, name = \"Alice\", email = \"alice@example.com\", ",
        "phones = [(number = \"555-1212\", type = mobile)], employment = (school = \"MIT\"))])\n",
    );
    assert_eq!(address_book::lines(REQUEST, BOOK).expect("it is answered"), wanted);
}

#[test]
fn the_first_steps_patch_the_book() {
    let patched = first_steps::patch_book(REQUEST, BOOK).expect("it is answered");
    let schemas = SchemaSet::from_request(REQUEST).expect("the request is whole");
    let schema = schemas.get_struct_named("AddressBook").expect("it has the struct");
    let root = message::read_root(&patched, schema).expect("it is a message");
    for (path, wanted) in [("people.1.email", "\"bob@example.org\""), ("people.2.name", "\"Carol\""), ("people.2.id", "789")] {
        let value = patch::get_path(root.into(), path).expect("it is there");
        assert_eq!(printer::to_string(value, false).expect("it is printed"), wanted);
    }
}

#[test]
fn a_message_is_built() {
    let wanted = concat!(
        "(people = [(id = 123, name = \"Alice\", email = \"alice@example.com\", ",
        "phones = [(number = \"555-1212\", type = mobile)], employment = (unemployed = ()))])\n",
    );
    assert_eq!(build_message::lines(REQUEST).expect("it is answered"), wanted);
}

#[test]
fn a_schema_is_queried() {
    // the places are those that `capnp compile -ocapnp` tells of the schema
    let wanted = concat!(
        "id: UInt32, 32 bits from bit 0\n",
        "name: Text, pointer 0\n",
        "email: Text, pointer 1\n",
        "phones: List(Person.PhoneNumber), pointer 2\n",
        "employment: Person.employment, a group\n",
    );
    assert_eq!(query_schema::lines(REQUEST).expect("it is answered"), wanted);
}

#[test]
fn an_older_program_reads_what_it_knows() {
    assert_eq!(
        older_program::lines().expect("it is answered"),
        "(name = \"Alice\", balance = 12)\n(name = \"Alice\")\n"
    );
}

#[test]
fn numbers_are_summed() {
    assert_eq!(sum_numbers::lines().expect("it is answered"), "4000000003\n");
}
