//! Values of every kind as words of a call: at the bounds of their types, and beyond them, where the error names the place
//! of the first wrong byte. Versions of a set, and names that meet in JSON.

use crate::programs::devices::{Outcome, FAST};
use crate::programs::rows::{bytes_in, check_rows_with, Row};
use crate::programs::words::split_words;
use crate::rows::{row_file, Line, RowFile};

const VALUES: RowFile = row_file!("values.rows");

/// What stands on both sides of the arrow of a line.
fn sides(line: &Line) -> (&'static str, &'static str) {
    let sides = line.text.split_once(" -> ");
    sides.unwrap_or_else(|| panic!("{}: there is no arrow", line.place))
}

/// The field and the word of a line, and what stands behind its arrow.
fn value_of(line: &Line) -> (String, String, &'static str) {
    let (value, wanted) = sides(line);
    match split_words(value).as_deref() {
        Some([field, word]) => (field.clone(), word.clone(), wanted),
        _ => panic!("{}: {value} are no field and word", line.place),
    }
}

/// The row of a command and its calls on a message of `Values`.
fn row_of(line: &Line, options: &[&str], calls: [String; 2]) -> Row {
    let words = options.iter().map(|word| word.to_string()).chain(calls);
    let words: Vec<String> = words.collect();
    let mut row = Row::new(line.place, words.join(" "), words);
    row.add_file("set", &bytes_in(&VALUES.section("set of Values")));
    row
}

#[test]
fn values_are_read_at_their_bounds() {
    for line in VALUES.section("read").lines() {
        let (field, word, printed) = value_of(&line);
        let calls = [format!("set {field} {word}"), format!("get {field}")];
        let row = row_of(&line, &["riftcalico", "new", "--set", "set", "Values"], calls);
        let seen = row.run(FAST);
        let wanted = Outcome {
            output: seen.output.clone(),
            errors: format!("2: get {field} = {printed}\n").into_bytes(),
            ..row.wanted
        };
        row.assert_outcome(FAST, &seen, &wanted);
    }
}

/// What the error says is wanted for the field of a line.
fn wanted_for(line: &Line, field: &str) -> &'static str {
    let lines = VALUES.section("wanted").lines();
    let known = lines.iter().map(sides).find(|(known, _)| *known == field);
    known
        .unwrap_or_else(|| panic!("{}: {field} is no known field", line.place))
        .1
}

#[test]
fn values_past_their_bounds_are_told() {
    for line in VALUES.section("unread").lines() {
        let (field, word, at) = value_of(&line);
        let calls = [format!("get {field}"), format!("set {field} {word}")];
        let options = ["riftcalico", "patch", "--set", "set", "--keep-going", "Values"];
        let mut row = row_of(&line, &options, calls);
        let wanted = wanted_for(&line, &field);
        let error = format!("2: set {field} {word}: can't be read at {at}; wanted: {wanted}\n");
        row.wanted.errors = error.into_bytes();
        row.wanted.status = 2;
        row.check_over(FAST, &row.wanted);
    }
}

#[test]
fn a_message_of_all_values_is_the_public_tools() {
    let set = bytes_in(&VALUES.section("set of Values"));
    check_rows_with(&VALUES.section("all values"), &[("set", &set)]);
}

#[test]
fn a_set_follows_itself() {
    let set = bytes_in(&VALUES.section("set of Values"));
    check_rows_with(&VALUES.section("versions"), &[("old", &set), ("new", &set)]);
}

#[test]
fn names_that_meet_are_refused_before_a_read() {
    let set = bytes_in(&VALUES.section("set of P"));
    check_rows_with(&VALUES.section("names that meet"), &[("set", &set)]);
}
