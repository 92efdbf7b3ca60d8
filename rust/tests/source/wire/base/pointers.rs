//! Texts, data and untyped pointers that are read at the root of a message, against bytes of the encoding.

use crate::capnp_base::traits::FromPointerReader;
use crate::capnp_base::{any_pointer, data, text};
use crate::capnp_wire::error::ErrorKind::BadPointer;
use crate::capnp_wire::error::Result;
use crate::capnp_wire::PointerReader;
use crate::fixtures::bytes::{answer, bytes_of, root_of};
use crate::rows::{assert_text, row_file, Reading, RowFile};
use crate::wire::reads::quoted;

static ROWS: RowFile = row_file!("pointers.rows");

/// The text or data at a root, read as a row says.
fn read<'a>(root: PointerReader<'a>, how: &str, default: Option<PointerReader<'a>>) -> Result<&'a [u8]> {
    let untyped = any_pointer::Reader::new(root);
    match (how, default) {
        ("text", _) => text::Reader::get_from_pointer(&root, default).map(text::Reader::as_bytes),
        ("data", _) => data::Reader::get_from_pointer(&root, default),
        ("untyped text", None) => untyped.get_as::<text::Reader<'_>>().map(text::Reader::as_bytes),
        ("untyped data", None) => untyped.get_as::<data::Reader<'_>>(),
        ("untyped untyped data", None) => {
            let again: any_pointer::Reader<'_> = untyped.get_as()?;
            again.get_as::<data::Reader<'_>>()
        }
        _ => panic!("no root is read as {how:?}"),
    }
}

#[test]
fn messages_are_read_by_type_and_with_defaults() {
    for row in ROWS.section("read").table() {
        let _reading = Reading(row.place);
        let [message, how, wanted] = row.columns();
        let message = bytes_of(message);
        let root = root_of(&message).expect("it is a message");
        // the words that follow the root pointer are all its own
        let untyped = any_pointer::Reader::new(root);
        let size = untyped.target_size().expect("its pointers can be followed").word_count;
        assert_eq!(size + 2, message.len() as u64 / 8, "{}", row.place);
        assert_eq!(untyped.is_null(), size == 0, "{}", row.place);
        let (how, words) = how.split_once(" or ").unwrap_or((how, ""));
        let words = bytes_of(words);
        let default = (!words.is_empty()).then(|| PointerReader::from_words(&words));
        let bytes = read(root, how, default).expect("it can be read");
        assert_text(row.place, &quoted(bytes), wanted);
    }
}

#[test]
fn what_leaves_its_segment_has_no_size() {
    for line in ROWS.section("past the segment").lines() {
        let _reading = Reading(line.place);
        let message = bytes_of(line.text);
        let root = any_pointer::Reader::new(root_of(&message).expect("it is a message"));
        assert_eq!(answer(root.target_size()), Err(BadPointer), "{}", line.place);
    }
}
