//! The messages that scripts name.

use crate::capnp_wire::message::Reader;
use crate::capnp_wire::StructReader;
use crate::fixtures::bytes::bytes_of;
use crate::fixtures::messages::shared_message;
use crate::rattle_std::alloc::Global;
use crate::rows::{row_file, Reading, RowFile};

static ROWS: RowFile = row_file!("messages.rows");

/// The message of a name: one of the file, or one of the fixtures.
pub fn message_of(name: &str) -> &'static [u8] {
    let rows = ROWS.section("messages").table();
    let Some(row) = rows.iter().find(|row| row.all()[0] == name) else {
        return shared_message(name).unwrap_or_else(|| panic!("no message is named {name:?}"));
    };
    let _reading = Reading(row.place);
    bytes_of(&row.all()[1..].concat()).leak()
}

/// The root of a message, without a schema.
pub fn root_of(name: &str) -> StructReader<'static> {
    let message = Reader::new(Global, message_of(name)).expect("it is a message");
    message.get_root().get_struct().expect("its root is a struct")
}
