//! Each kind of call at each kind of field and element, in a struct with a field of every kind.

use super::script::{answer, scripts_hold, Start};
use super::values::must;
use crate::capnp_base::introspect::TypeVariant;
use crate::rows::{assert_text, row_file, Place, RowFile};
use std::collections::HashMap;

static ROWS: RowFile = row_file!("kinds.rows");

/// Makes a call at each field, or at each field that is a list, and compares the answers.
///
/// The first column of a row is the call, with `FIELD` or `LIST` for the field. Each further column is an answer and
/// the fields that give it, where `*` is all other fields.
fn holds_at_each(section: &str, built: &str) {
    for row in ROWS.section(section).table() {
        let place = row.place;
        let (call, answers) = row.all().split_first().expect("a row has a column");
        let mut wanted = by_field(place, answers);
        let others = wanted.remove("*");
        let start = Start::read(place, built);
        for field in must(place, start.schema().get_fields()) {
            let is_list = matches!(field.get_type().which(), TypeVariant::List(_));
            if call.contains("LIST") && !is_list {
                continue;
            }
            let name = field.get_proto().name.as_str();
            let call = call.replace("FIELD", name).replace("LIST", name);
            let wanted = wanted.remove(name).or(others).unwrap_or("not said");
            let seen = answer(place, &start, &mut start.message(), &call);
            assert_text(place, &format!("{call} => {seen}"), &format!("{call} => {wanted}"));
        }
        assert!(wanted.is_empty(), "{place}: no such fields: {wanted:?}");
    }
}

/// The answers of columns as `ok: text any`, by field.
fn by_field(place: Place, columns: &[String]) -> HashMap<&str, &str> {
    let answers = columns.iter().map(|column| {
        let named = column.split_once(": ");
        named.unwrap_or_else(|| panic!("{place}: {column:?} has no fields"))
    });
    answers
        .flat_map(|(answer, names)| names.split(' ').map(move |name| (name, answer)))
        .collect()
}

#[test]
fn every_value_for_every_field() {
    holds_at_each("sets of fields", "kinds from empty");
    scripts_hold(&ROWS.section("values that are set"));
}

#[test]
fn every_value_for_every_element() {
    holds_at_each("sets of elements", "kinds from full");
}

#[test]
fn every_field_is_started_and_cleared() {
    holds_at_each("other calls", "kinds from full");
    scripts_hold(&ROWS.section("lengths past the format"));
}

#[test]
fn what_is_started_and_cleared() {
    scripts_hold(&ROWS.section("what is started and cleared"));
}

/// A message that is built call by call has the bytes that the public `capnp` tool made of the same values.
#[test]
fn built_as_the_tool_builds() {
    scripts_hold(&ROWS.section("built as the tool builds"));
}
