//! Copies that are read in the message that they were made in.

use super::{message_of, new_message};
use crate::capnp_wire::size::ElementSize;
use crate::capnp_wire::PointerReader;
use crate::rows::{hex, row_file, RowFile};

const WHOLE: RowFile = row_file!("whole.rows");

/// A copy of what the root of these words leads to holds the same tree.
#[test]
fn structs_of_size_zero_are_the_same_in_a_copy() {
    for row in WHOLE.section("structs of size zero").lines() {
        let words = message_of(&row.place, row.text);
        let source = PointerReader::from_words(&words);
        let mut message = new_message();
        message.set_root(source).expect("a copy has room");
        assert!(message.root().as_reader().has_same_tree(&source), "{}", row.place);
    }
}

/// A number, a text, and structs as a list of bytes.
#[test]
fn a_copy_is_read_as_it_stands() {
    for row in WHOLE.section("a text and structs").table() {
        let [words] = row.columns();
        let words = message_of(&row.place, words);
        let mut message = new_message();
        let source = PointerReader::from_words(&words);
        message.set_root(source).expect("a copy has room");
        let root = message.root();
        let fields = root.as_reader().get_struct().expect("the root is a struct");
        assert_eq!(fields.get_data_field::<u16>(0), 42, "{}", row.place);
        let text = fields.get_pointer_field(0).get_text();
        assert_eq!(text, Ok(b"hi".as_slice()), "{}", row.place);
        let list = fields.get_pointer_field(1).get_list(ElementSize::Byte);
        let list = list.expect("structs are read as bytes");
        assert_eq!((list.len(), list.get_data_element::<u8>(1)), (2, 9), "{}", row.place);
    }
}

/// A null is got as a list of pointers, then as one of bytes, and the latter is copied.
#[test]
fn a_null_is_copied_as_bytes_whatever_it_was_got_as() {
    let (mut source, mut target) = (new_message(), new_message());
    let pointers = source.root().get_list(ElementSize::Pointer);
    assert_eq!(pointers.map(|list| list.len()), Ok(0));
    let bytes = source.root().get_list(ElementSize::Byte).expect("a null is a list");
    target.root().set_list(&bytes.as_reader()).expect("a copy has room");
    let written = target.write_message().expect("there is memory");
    assert_eq!(hex(&written), "0000000001000000 0100000002000000");
}
