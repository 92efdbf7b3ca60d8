//! The structs and the messages that scripts name. `messages.rows` has the sets of the structs, and the messages.

use crate::capnp_schema::set::SchemaSet;
use crate::fixtures::bytes::bytes_of;
use crate::fixtures::kinds::{KINDS, KINDS_SET};
use crate::fixtures::messages::shared_message;
use crate::fixtures::set_text::set_of;
use crate::rows::{row_file, Place, RowFile};

static ROWS: RowFile = row_file!("messages.rows");

/// The set that a section of the file says.
fn set_in(section: &str) -> SchemaSet {
    let lines = ROWS.section(section).lines();
    let lines: Vec<&str> = lines.iter().map(|line| line.text).collect();
    set_of(lines.join(" ").leak())
}

/// The set that has a struct, and the number of the struct in it.
pub fn struct_named(place: Place, name: &str) -> (SchemaSet, u32) {
    let built_in = |number| (set_of("built-in"), number);
    match name {
        "mixed" => built_in(1),
        "many" => built_in(2),
        "shapes" => built_in(3),
        "lists" => built_in(7),
        "node" => built_in(8),
        "kinds" => (set_of(KINDS_SET), KINDS),
        "untyped" => (set_in("untyped"), 0),
        "shared" => (set_in("shared"), 0),
        "each_list" => (set_in("each_list"), 0),
        "linked" => (set_in("linked"), 0),
        "past_enum" => (set_in("past_enum"), 0),
        _ => panic!("{place}: no struct is named {name:?}"),
    }
}

/// A message of a chain of 65 structs, each right after its pointer. The number of each is how many follow it and it,
/// but that of the first is 5.
fn chain() -> Vec<u8> {
    let mut bytes = bytes_of("0000000083000000 0000000001000100 0500000000000000 0000000001000100");
    for left in 0..64 {
        let more = u8::from(left < 63);
        bytes.extend([64 - left, 0, 0, 0, 0, 0, 0, 0, 0, 0, 0, 0, more, 0, more, 0]);
    }
    bytes
}

/// The message of a name: one of the file, the chain, or one that the tests of several layers read.
pub fn message_named(place: Place, name: &str) -> Vec<u8> {
    if name == "chain" {
        return chain();
    }
    let blocks = ROWS.section("messages").blocks();
    if let Some(block) = blocks.iter().find(|block| block.lines[0].text == name) {
        return block.lines[1..].iter().flat_map(|line| bytes_of(line.text)).collect();
    }
    let shared = shared_message(name);
    shared
        .unwrap_or_else(|| panic!("{place}: no message is named {name:?}"))
        .to_vec()
}
