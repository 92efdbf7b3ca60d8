//! What the builders write into the parts of a message, what is read there, and the message then.

use super::built_lists::{list_named, Build};
use super::built_structs::struct_named;
use super::{message_of, new_message};
use crate::rows::{assert_bytes, assert_text, row_file, Row, RowFile};

const BUILT: RowFile = row_file!("built.rows");

fn are_built(rows: &[Row], named: fn(&str) -> Option<Build>) {
    for row in rows {
        let place = row.place;
        let (name, read, message) = match row.all() {
            [name, message] => (name, "", message),
            [name, read, message] => (name, read.as_str(), message),
            other => panic!("{place}: {} columns", other.len()),
        };
        let build = named(name).unwrap_or_else(|| panic!("{place}: nothing builds {name:?}"));
        let mut built = new_message();
        let seen = build(&mut built).unwrap_or_else(|error| panic!("{place}: {error}"));
        assert_text(place, &seen, read);
        let written = built.write_message().expect("there is memory");
        assert_bytes(place, &written, &message_of(&place, message));
    }
}

#[test]
fn lists_hold_what_is_written() {
    are_built(&BUILT.section("lists").table(), list_named);
}

#[test]
fn structs_hold_what_is_written() {
    are_built(&BUILT.section("structs").table(), struct_named);
}
