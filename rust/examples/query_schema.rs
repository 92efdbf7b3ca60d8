//! What a schema says of a struct: its fields with their types, and where each one stands in a message.

use riftcalico::introspect::TypeVariant;
use riftcalico::schema::plan::Place;
use riftcalico::schema::{Field, SchemaSet};
use std::error::Error;

/// A type in the words of a schema.
fn name_of(schemas: &SchemaSet, variant: TypeVariant) -> String {
    match variant {
        TypeVariant::List(element) => format!("List({})", name_of(schemas, element.which())),
        TypeVariant::Struct(schema) => {
            let found = schemas.get_struct(schema.number);
            found.map_or("?".to_string(), |found| found.get_proto().display_name.to_string())
        }
        other => format!("{other:?}"),
    }
}

/// A field, its type and its place.
fn describe(schemas: &SchemaSet, field: Field<'_>) -> String {
    let place = match field.plan().place {
        Place::Nothing => "no room".to_string(),
        Place::Bits { start, width, .. } => format!("{width} bits from bit {start}"),
        Place::Pointer(index) => format!("pointer {index}"),
        Place::Group(_) => "a group".to_string(),
    };
    format!(
        "{}: {}, {place}\n",
        field.get_proto().name,
        name_of(schemas, field.get_type().which())
    )
}

/// What is printed: a line for each field of a person.
pub fn lines(request: &[u8]) -> Result<String, Box<dyn Error>> {
    let schemas = SchemaSet::from_request(request)?;
    let person = schemas.get_struct_named("Person")?;
    Ok(person.get_fields()?.iter().map(|field| describe(&schemas, field)).collect())
}

fn main() -> Result<(), Box<dyn Error>> {
    let request = std::fs::read("examples/addressbook.request")?;
    print!("{}", lines(&request)?);
    Ok(())
}
