//! An address book, read and patched under a schema that is read when the program runs.
//!
//! `capnp compile -o- examples/sets/addressbook.capnp` made the request.

use riftcalico::edits::{self, Act, Change, ListEdit};
use riftcalico::run::{Call, Op, Step};
use riftcalico::{message, patch, printer, schema::SchemaSet};

/// The number of a phone, the book with another address in it, and then with its first person behind the last once more.
pub fn lines(request: &[u8], book: &[u8]) -> riftcalico::Result<String> {
    let schemas = SchemaSet::from_request(request)?;
    let schema = schemas.get_struct_named("AddressBook")?;
    let root = message::read_root(book, schema)?;
    let number = patch::get_path(root.into(), "people.1.phones.0.number")?;
    let number = printer::to_string(number, false)?;

    let email = Call {
        path: &[Step::Named("people"), Step::Element(1)],
        last: Step::Named("email"),
        op: Op::Set("bob@example.org".into()),
    };
    let (_replies, patched) = patch::patch_bytes(book, schema, &[email])?;

    let root = message::read_root(&patched, schema)?;
    let again = [patch::get_path(root.into(), "people.0")?];
    let append = Act::Edit(ListEdit { path: &[Step::Named("people")], change: Change::Append(&again) });
    let (_replies, longer) = edits::edit_bytes(&patched, schema, &[append])?;
    let longer = message::read_root(&longer, schema)?;
    let [root, longer] = [root, longer].map(|book| printer::to_string(book.into(), false));
    Ok(format!("{number}\n{}\n{}\n", root?, longer?))
}

fn main() -> Result<(), Box<dyn std::error::Error>> {
    let request = std::fs::read("examples/addressbook.request")?;
    let book = std::fs::read("examples/addressbook.bin")?;
    print!("{}", lines(&request, &book)?);
    Ok(())
}
