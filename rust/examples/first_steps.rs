//! A message read and patched under a schema that is read when the program runs.
//!
//! `capnp compile -o- examples/sets/addressbook.capnp` made the request.

use riftcalico::{edits, message, patch, printer, run::Reply, schema::SchemaSet};
use std::error::Error;

/// The address book with another address of its second person, and one person more.
pub fn patch_book(request: &[u8], book: &[u8]) -> Result<Vec<u8>, Box<dyn Error>> {
    let schemas = SchemaSet::from_request(request)?;
    let schema = schemas.get_struct_named("AddressBook")?;

    let root = message::read_root(book, schema)?;
    let number = patch::get_path(root.into(), "people.1.phones.0.number")?;
    println!("{}", printer::to_string(number, false)?); // "555-4567"

    let calls = [
        "set people.1.email bob@example.org",
        "append people (name = \"Carol\", id = 789)",
    ];
    let (replies, patched) = edits::edit_by_words(book, schema, &calls)?
        .map_err(|at| format!("{}: can't be read at {}", calls[at.index], at.place))?;
    for (call, reply) in calls.iter().zip(replies) {
        if let Reply::Refused(why) = reply {
            return Err(format!("{call}: {why}").into());
        }
    }
    Ok(patched)
}

fn main() -> Result<(), Box<dyn Error>> {
    let request = std::fs::read("examples/addressbook.request")?;
    let book = std::fs::read("examples/addressbook.bin")?;
    let patched = patch_book(&request, &book)?;
    println!("{} bytes", patched.len());
    Ok(())
}
