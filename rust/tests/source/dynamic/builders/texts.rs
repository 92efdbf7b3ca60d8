//! Texts as they are built, against what the public crate's documentation and std's printed forms say.

use super::calls::new_message;
use crate::capnp_arena::message::Builder as Message;
use crate::capnp_builders::data;
use crate::capnp_builders::text::{Builder, Reader};
use crate::capnp_builders::traits::FromPointerBuilder;
use crate::rattle_std::alloc::Global;

/// Asserts that a builder has room for so many bytes more, and holds this text, as its reader does.
#[track_caller]
fn assert_built(builder: &Builder<'_>, room: usize, text: &str) {
    assert_eq!(builder.room(), room);
    assert!(builder.eq_str(text), "{builder:?}");
    assert_eq!(builder.reborrow_as_reader(), Reader(text.as_bytes()));
    assert_eq!(builder.len(), text.len());
    assert!(!builder.is_empty());
}

/// A reborrowed builder's position moves, and the builder's own does not.
#[test]
fn pushes_write_at_the_position() {
    let mut message = new_message();
    let mut builder = Builder::init_pointer(message.root(), 5).expect("there is memory");
    builder.push_str("ab");
    assert_built(&builder, 3, "ab\0\0\0");
    builder.reborrow().push_ascii(b'c');
    assert_built(&builder, 3, "abc\0\0");
    builder.push_ascii(b'd');
    assert_built(&builder, 2, "abd\0\0");
    builder.clear();
    assert_built(&builder, 5, "\0\0\0\0\0");
    assert_eq!(builder.as_bytes(), [0; 5]);
}

#[test]
fn a_reborrow_leaves_the_position() {
    for position in 0..4 {
        let mut message = new_message();
        message.root().init_text(3).expect("there is memory");
        let mut builder = Builder::with_pos(message.root(), position);
        let room = 3 - position;
        assert_eq!(builder.reborrow().room(), room);
        if room > 0 {
            builder.reborrow().push_ascii(b'x');
        }
        assert_eq!(builder.room(), room);
        builder.reborrow().clear();
        assert_eq!(builder.room(), room);
    }
}

/// A message whose root is a text.
fn text_message(bytes: &[u8]) -> Message {
    let mut message = new_message();
    message.set_text(0, bytes).expect("there is memory");
    message
}

/// A message whose root is the text `ab`, over which `ac` is written.
fn written_message() -> Message {
    let mut message = text_message(b"ab");
    let mut builder = Builder::get_from_pointer(message.root(), None).expect("it is a text");
    builder.clear();
    builder.push_str("a");
    builder.push_ascii(b'c');
    message
}

/// Whether two builders of texts of two bytes are equal: the one stands at the end, the other at the start.
fn are_equal(mut one: Message, mut other: Message) -> bool {
    Builder::with_pos(one.root(), 2) == Builder::new(other.root())
}

#[test]
fn builders_compare_by_their_bytes_alone() {
    assert!(are_equal(text_message(b"ab"), text_message(b"ab")));
    assert!(!are_equal(text_message(b"ab"), written_message()));
    let mut message = text_message(b"ab");
    assert_eq!(Builder::new(message.root()).to_str(), Ok("ab"));
    let mut message = written_message();
    let text = Builder::new(message.root()).to_string(Global).expect("there is memory");
    assert_eq!(text.expect("it is in UTF-8").as_str(), "ac");
    let builder = Builder::get_from_pointer(message.root(), None).expect("it is a text");
    assert_eq!(builder.into_reader(), Reader::from("ac"));
}

#[test]
fn data_print_as_numbers() {
    let mut message = new_message();
    message.set_data(0, &[1, 255]).expect("there is memory");
    assert_eq!(format!("{:?}", data::Builder::new(message.root())), "[1, 255]");
}

#[test]
fn texts_print_as_strings() {
    for (bytes, printed) in [(b"hi".as_slice(), r#""hi""#), (b"\xff", "<invalid utf-8>")] {
        assert_eq!(format!("{:?}", Builder::new(text_message(bytes).root())), printed);
    }
}
