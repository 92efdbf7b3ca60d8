//! Texts, against the public crate's documentation and the printed forms of std.

use crate::capnp_base::text::Reader;
use crate::fixtures::bytes::bytes_of;
use crate::rattle_std::alloc::Global;
use crate::rows::{assert_text, row_file, Reading, RowFile};
use std::cmp::Ordering;
use std::str::Utf8Error;

static ROWS: RowFile = row_file!("texts.rows");

#[test]
fn texts_compare_by_their_bytes() {
    for line in ROWS.section("compared").lines() {
        let _reading = Reading(line.place);
        let words: Vec<&str> = line.text.split(' ').collect();
        let [first, sign, second] = words[..] else {
            panic!("a row is a text, a sign and a text");
        };
        let order = match sign {
            "<" => Ordering::Less,
            "=" => Ordering::Equal,
            ">" => Ordering::Greater,
            _ => panic!("{sign:?} is no sign"),
        };
        let (one, another) = (Reader::from(first), Reader::from(second.as_bytes()));
        assert_eq!(one.partial_cmp(&another), Some(order), "{}", line.place);
        assert_eq!(one < another, order.is_lt(), "{}", line.place);
        assert_eq!(one == another, order.is_eq(), "{}", line.place);
        assert_eq!(one.eq_str(second), order.is_eq(), "{}", line.place);
        assert_eq!(one.cmp_str(second), order, "{}", line.place);
    }
    let text = Reader::from(b"fghij");
    assert_eq!(text.len(), 5);
    assert_eq!(text.as_bytes(), b"fghij");
    assert!(!text.is_empty());
    assert!(Reader::from([].as_slice()).is_empty());
}

/// A string, or how many bytes of a text are UTF-8.
fn shown(string: Result<&str, Utf8Error>) -> String {
    string.map_or_else(|error| format!("UTF-8 up to {}", error.valid_up_to()), str::to_string)
}

#[test]
fn texts_are_strings_where_they_are_utf8() {
    for row in ROWS.section("strings").table() {
        let _reading = Reading(row.place);
        let [bytes, wanted] = row.columns();
        let bytes = bytes_of(bytes);
        let text = Reader(&bytes);
        assert_text(row.place, &shown(text.to_str()), wanted);
        assert_text(row.place, &shown(text.try_into()), wanted);
        let copy = text.to_string(Global).expect("there is memory");
        let copied = copy.as_ref().map(|string| string.as_str()).map_err(Utf8Error::clone);
        assert_text(row.place, &shown(copied), wanted);
    }
}

#[test]
fn texts_print_as_strings() {
    for row in ROWS.section("printed").table() {
        let _reading = Reading(row.place);
        let [bytes, wanted] = row.columns();
        let printed = format!("{:?}", Reader(&bytes_of(bytes)));
        assert_text(row.place, &printed, wanted);
    }
}
