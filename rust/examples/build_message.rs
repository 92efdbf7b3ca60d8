//! A message that is built by calls under a schema that is read when the program runs.

use riftcalico::memory::Global;
use riftcalico::{dynamic_list, dynamic_struct, dynamic_value, message, printer, schema::SchemaSet};
use std::error::Error;

/// Starts a list of structs in a field, and hands it out.
fn init_list<'a>(
    parent: dynamic_struct::Builder<'a>,
    name: &str,
    count: u32,
) -> Result<dynamic_list::Builder<'a>, Box<dyn Error>> {
    match parent.initn_named(name, count)? {
        dynamic_value::Builder::List(list) => Ok(list),
        _ => Err("the field is no list".into()),
    }
}

/// A struct of a list.
fn element(list: dynamic_list::Builder<'_>, index: u32) -> Result<dynamic_struct::Builder<'_>, Box<dyn Error>> {
    match list.get(index)? {
        dynamic_value::Builder::Struct(element) => Ok(element),
        _ => Err("the element is no struct".into()),
    }
}

/// The bytes of an address book with one person in it.
fn build(request: &[u8]) -> Result<Vec<u8>, Box<dyn Error>> {
    let schemas = SchemaSet::from_request(request)?;
    let schema = schemas.get_struct_named("AddressBook")?;
    let mut message = message::Builder::new(Global)?;
    let book = dynamic_struct::Builder::open(message.root(), schema)?;
    let mut alice = element(init_list(book, "people", 1)?, 0)?;
    alice.set_named("id", 123u32.into())?;
    alice.set_named("name", "Alice".into())?;
    alice.set_named("email", (&format!("{}@example.com", "alice")).into())?;
    let mut phone = element(init_list(alice, "phones", 1)?, 0)?;
    phone.set_named("number", "555-1212".into())?;
    Ok(message.write_message()?.into())
}

/// What is printed: the text of the message that is built.
pub fn lines(request: &[u8]) -> Result<String, Box<dyn Error>> {
    let bytes = build(request)?;
    let schemas = SchemaSet::from_request(request)?;
    let book = message::read_root(&bytes, schemas.get_struct_named("AddressBook")?)?;
    Ok(format!("{}\n", printer::to_string(book.into(), false)?))
}

fn main() -> Result<(), Box<dyn Error>> {
    let request = std::fs::read("examples/addressbook.request")?;
    print!("{}", lines(&request)?);
    Ok(())
}
