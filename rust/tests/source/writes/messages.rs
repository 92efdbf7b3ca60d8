//! The structs and the messages that rows name. `messages.rows` lists them.

use crate::capnp_schema::set::SchemaSet;
use crate::fixtures::bytes::bytes_of;
use crate::fixtures::kinds::KINDS_SET;
use crate::fixtures::messages::shared_message;
use crate::fixtures::set_text::{read_texts, set_of};
use crate::fixtures::words::{first_word, number};
use crate::rows::{row_file, Place, Row, RowFile};
use std::collections::HashMap;
use std::sync::LazyLock;

static ROWS: RowFile = row_file!("messages.rows");

/// The messages of the file, by name.
static MESSAGES: LazyLock<HashMap<String, Vec<u8>>> = LazyLock::new(|| {
    let read = |row: Row| {
        let [name, words] = row.columns();
        (name.to_owned(), bytes_of(words))
    };
    ROWS.section("messages").table().into_iter().map(read).collect()
});

/// The message that a row names: one of the file, or one of the fixtures. The root of the one without a name is null.
pub fn message_of(place: Place, name: &str) -> &'static [u8] {
    if let Some(message) = MESSAGES.get(name) {
        return message;
    }
    let shared = if name.is_empty() { "null_root" } else { name };
    shared_message(shared).unwrap_or_else(|| panic!("{place}: no message is named {name:?}"))
}

/// The set of a name: one of the file, the built-in set, or the set of the struct with a field of every kind.
fn set_named(place: Place, name: &str) -> SchemaSet {
    match name {
        "built-in" => return set_of("built-in"),
        "kinds" => return set_of(KINDS_SET),
        _ => {}
    }
    let blocks = ROWS.section("sets").blocks();
    let block = blocks.iter().find(|block| block.lines[0].text == name);
    let block = block.unwrap_or_else(|| panic!("{place}: no set is named {name:?}"));
    let texts: Vec<&str> = block.lines[1..].iter().map(|line| line.text).collect();
    read_texts(&texts).expect("the check accepts the set")
}

/// The struct that a row names: the set that has it, and its number in the set.
pub fn struct_of(place: Place, name: &str) -> (SchemaSet, u32) {
    let lines = ROWS.section("structs").lines();
    let line = lines.iter().find(|line| first_word(line.text).0 == name);
    let line = line.unwrap_or_else(|| panic!("{place}: no struct is named {name:?}"));
    let (set, number_in_set) = first_word(first_word(line.text).1);
    (set_named(line.place, set), number(number_in_set))
}
