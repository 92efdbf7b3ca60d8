//! Tests of `capnp_arena`: what its calls build and return, and the message that is written then.
//!
//! Most of them are rows of calls, which `calls` makes on a message. `messages.rows` has the messages that rows name.

mod build_tests;
mod built_lists;
mod built_structs;
mod built_tests;
mod call_tests;
mod caller_tests;
mod calls;
mod copy_tests;
mod default_tests;
mod depth_tests;
mod message_tests;
mod read_copy_tests;

use crate::capnp_arena::message::Builder;
use crate::capnp_wire::size::StructSize;
use crate::fixtures::bytes::bytes_of;
use crate::rattle_std::alloc::Global;
use crate::rows::{row_file, RowFile};
use std::fmt::Display;

const MESSAGES: RowFile = row_file!("messages.rows");

const fn size(data_words: u16, pointers: u16) -> StructSize {
    StructSize { data_words, pointers }
}

/// A data word and a pointer.
const ONE_EACH: StructSize = size(1, 1);

fn new_message() -> Builder {
    Builder::new(Global).expect("there is memory")
}

/// The bytes that a row spells in hexadecimal digits, if it does.
fn spelled(text: &str) -> Option<Vec<u8>> {
    let is_spelled =
        |part: &str| part.chars().all(|c| c.is_ascii_hexdigit()) && (part == "0" || part.len().is_multiple_of(2));
    text.split(' ').all(is_spelled).then(|| bytes_of(text))
}

/// The bytes of a message, or of a segment's words, that a row spells in hexadecimal digits or names.
fn message_of(place: &dyn Display, text: &str) -> Vec<u8> {
    if let Some(bytes) = spelled(text) {
        return bytes;
    }
    let named = ["messages", "words"].map(|name| MESSAGES.section(name).table());
    for row in named.iter().flatten() {
        let [name, bytes] = row.columns();
        if name == text {
            return spelled(bytes).unwrap_or_else(|| panic!("{}: {bytes:?} are no bytes", row.place));
        }
    }
    panic!("{place}: {text:?} are no bytes, and no message has that name");
}
