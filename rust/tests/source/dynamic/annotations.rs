//! Annotations under their types, and enumerants.

use super::script::{answer_about, assert_answers};
use crate::fixtures::messages::shared_message;
use crate::fixtures::set_text::read_texts;
use crate::rows::{assert_text, row_file, RowFile};

static ROWS: RowFile = row_file!("annotations.rows");

#[test]
fn annotations_are_read_under_their_types() {
    assert_answers(&ROWS.section("notes"));
}

#[test]
fn numbers_of_enums() {
    assert_answers(&ROWS.section("enums"));
}

/// A struct and an enum.
const SET: &str = "struct 1 0, v Void; enum red blue";

#[test]
fn values_of_every_kind() {
    for line in ROWS.section("values").lines() {
        let row = line.text.split_once(" => ");
        let (note, value) = row.unwrap_or_else(|| panic!("{}: no value", line.place));
        let schemas = read_texts(&[SET, note]).unwrap_or_else(|error| panic!("{}: {error}", line.place));
        let root = shared_message("null_root").expect("it is there");
        assert_text(
            line.place,
            &answer_about(line.place, &schemas, 0, root, "note 3"),
            value,
        );
    }
}
