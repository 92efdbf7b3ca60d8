//! Writes of the built-in structs: unions, groups, lists and errors, by what is printed, read and written afterwards.

use super::messages::message_of;
use super::script::{copy_of, scripts_hold, sides, written, Start};
use super::values::{data_in, must, number, text_of, value_of};
use crate::capnp_callers::read_back::set_and_get;
use crate::capnp_wire::size::StructSize;
use crate::fixtures::words::first_word;
use crate::rows::{assert_bytes, assert_text, row_file, RowFile};

static ROWS: RowFile = row_file!("built_in.rows");

#[test]
fn writes_are_printed() {
    scripts_hold(&ROWS.section("printed"));
}

#[test]
fn writes_are_read() {
    scripts_hold(&ROWS.section("read"));
}

#[test]
fn what_is_written_is_the_messages_bytes() {
    scripts_hold(&ROWS.section("bytes"));
}

#[test]
fn numbers_become_structs_of_a_word() {
    for line in ROWS.section("numbers").lines() {
        let (name, wanted) = sides(line);
        let (words, structs) = first_word(wanted);
        let word = StructSize {
            data_words: 1,
            pointers: 0,
        };
        let mut message = copy_of(line.place, message_of(line.place, name));
        must(line.place, message.root().get_struct_list(word));
        let count = must(line.place, message.size_in_words());
        assert_eq!(count, number::<u64>(line.place, words), "{}", line.place);
        assert_bytes(
            line.place,
            &written(line.place, &message),
            message_of(line.place, structs),
        );
    }
}

#[test]
fn what_is_set_is_got() {
    for line in ROWS.section("set and got").lines() {
        let (text, wanted) = sides(line);
        let (name, rest) = first_word(text);
        let (field, value) = first_word(rest);
        let start = Start::read(line.place, name);
        let data = data_in(value);
        let value = value_of(line.place, &start.schemas, value, &data);
        let field = must(line.place, start.schema().get_field_by_name(field));
        let mut message = start.message();
        let root = must(line.place, start.open(&mut message));
        let got = set_and_get(root, field, value).and_then(text_of);
        assert_text(line.place, &must(line.place, got), wanted);
    }
}
