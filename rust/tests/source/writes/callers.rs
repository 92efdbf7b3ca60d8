//! `capnp_callers::values`: setting and reading the numbers of a list, and writing over a text.

use super::script::{outcome, printed, sides, Start};
use super::values::{must, number};
use crate::capnp_callers::values::{numbers_of, set_number, text_in};
use crate::capnp_dynamic::dynamic_struct;
use crate::capnp_dynamic::dynamic_value::{Builder as Part, Reader as Value};
use crate::capnp_wire::error::Result;
use crate::fixtures::words::first_word;
use crate::rattle_std::alloc::Global;
use crate::rows::{assert_text, row_file, Place, RowFile};

static ROWS: RowFile = row_file!("callers.rows");

/// Starts a list, sets elements of it, and reads its numbers. Returns the outcome of each set, and the numbers.
fn set_and_read(place: Place, text: &str) -> String {
    let (list, sets) = text.split_once("; ").unwrap_or((text, ""));
    let (field, size) = first_word(list);
    let start = Start::read(place, "numbered");
    let mut message = start.message();
    let root = must(place, start.open(&mut message));
    let Ok(Part::List(mut list)) = root.initn_named(field, number(place, size)) else {
        panic!("{place}: {field} is no list");
    };
    let mut answers = Vec::new();
    for set in sets.split_terminator("; ") {
        let (index, value) = set
            .split_once(" = ")
            .unwrap_or_else(|| panic!("{place}: {set:?} is no set"));
        answers.push(outcome(set_number(
            &mut list,
            number(place, index),
            number(place, value),
        )));
    }
    answers.push(match numbers_of(Global, list.into_reader()) {
        Ok(numbers) => format!("{numbers:?}"),
        Err(error) => format!("{:?}", error.kind),
    });
    answers.join("; ")
}

#[test]
fn numbers_that_are_set_are_read() {
    for line in ROWS.section("numbers").lines() {
        let (text, wanted) = sides(line);
        assert_text(line.place, &set_and_read(line.place, text), wanted);
    }
}

/// Fills a field's text with zeros, and writes `xy` at its beginning.
fn write_over(root: dynamic_struct::Builder<'_>, field: &str) -> Result<()> {
    let mut text = text_in(root, field)?;
    text.clear();
    if text.room() >= 2 {
        text.push_str("xy");
    }
    Ok(())
}

#[test]
fn a_text_is_written_over() {
    for line in ROWS.section("texts").lines() {
        let (field, wanted) = sides(line);
        let start = Start::read(line.place, "numbered");
        let mut message = start.message();
        let mut root = must(line.place, start.open(&mut message));
        must(line.place, root.set_named("name", Value::from("abc")));
        let answer = outcome(write_over(root, field));
        let left = must(line.place, printed(&message, start.schema()));
        assert_text(line.place, &format!("{answer}; {left}"), wanted);
    }
}
