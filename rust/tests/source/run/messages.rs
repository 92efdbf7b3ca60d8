//! The structs and the messages that rows name.

use crate::capnp_dynamic::dynamic_struct;
use crate::capnp_schema::schema::StructSchema;
use crate::capnp_schema::set::SchemaSet;
use crate::capnp_wire::message::Reader;
use crate::fixtures::bytes::bytes_of;
use crate::fixtures::messages::shared_message;
use crate::rattle_std::alloc::Global;
use crate::rows::{row_file, Line, Place, Reading, RowFile};

static ROWS: RowFile = row_file!("messages.rows");

/// The message of a name: one of the file, or one of the fixtures.
pub fn message_of(name: &str) -> &'static [u8] {
    let rows = ROWS.section("messages").table();
    let Some(row) = rows.iter().find(|row| row.all()[0] == name) else {
        return shared_message(name).unwrap_or_else(|| panic!("no message is named {name:?}"));
    };
    let _reading = Reading(row.place);
    bytes_of(&row.all()[1..].concat()).leak()
}

/// The root of a message under a schema.
pub fn root<'a>(schema: StructSchema<'a>, bytes: &'a [u8]) -> dynamic_struct::Reader<'a> {
    let root = Reader::new(Global, bytes).expect("it is a message").get_root();
    dynamic_struct::Reader::new(root.get_struct().expect("its root is a struct"), schema)
}

/// What the first line of a block names: a struct by its name or its number in the set, and maybe messages whose roots
/// are such structs, `Lists from structs`.
pub struct Head<'a> {
    pub place: Place,
    pub schema: StructSchema<'a>,
    pub messages: Vec<&'static [u8]>,
}

impl<'a> Head<'a> {
    pub fn read(schemas: &'a SchemaSet, line: Line) -> Head<'a> {
        let _reading = Reading(line.place);
        let (name, messages) = line.text.split_once(" from ").unwrap_or((line.text, ""));
        let schema = match name.parse() {
            Ok(number) => schemas.get_struct(number),
            Err(_) => schemas.find_struct(name),
        };
        Head {
            place: line.place,
            schema: schema.unwrap_or_else(|| panic!("the set has no struct {name:?}")),
            messages: messages.split_whitespace().map(message_of).collect(),
        }
    }

    /// The only message, if there is one.
    pub fn message(&self) -> Option<&'static [u8]> {
        assert!(self.messages.len() < 2, "{}: more than one message", self.place);
        self.messages.first().copied()
    }
}
