//! What makes one message into another, as calls that `patch` makes.

use crate::programs::rows::{bytes_in, check_rows, check_rows_with, rows_of, Row};
use crate::rows::{row_file, RowFile};

const DIFFS: RowFile = row_file!("diffs.rows");

/// The row that patches the older message of a row of `diff` with the calls that this writes. It writes the newer one.
fn patching(diff: &Row) -> Row {
    let [(_, old), (_, new)] = diff.files.as_slice() else {
        panic!("{}: there are two messages", diff.place);
    };
    let command = format!("riftcalico patch --calls calls {}", diff.words[2]);
    let words = command.split(' ').map(str::to_string).collect();
    let mut patch = Row::new(diff.place, command, words);
    patch.set_input(old);
    patch.add_file("calls", &diff.wanted.output);
    patch.wanted.output = new.clone();
    patch
}

#[test]
fn calls_that_are_told_make_the_newer_message() {
    for diff in rows_of(&DIFFS.section("differences")) {
        diff.check();
        patching(&diff).check();
    }
}

#[test]
fn what_no_call_says_is_told() {
    check_rows(&DIFFS.section("other differences"));
}

#[test]
fn calls_under_a_set_are_told() {
    let set = bytes_in(&DIFFS.section("set of F"));
    check_rows_with(&DIFFS.section("differences under a set"), &[("set", &set)]);
}
