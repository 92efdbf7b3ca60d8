//! Messages, files and words that the program refuses, and devices that fail.

use crate::programs::devices::{Device, Outcome};
use crate::programs::rows::{check_rows, rows_of, Row};
use crate::rows::{row_file, RowFile};

const REFUSED: RowFile = row_file!("refused.rows");
const WORDS: RowFile = row_file!("words.rows");

#[test]
fn hostile_messages_are_refused_and_nothing_is_written() {
    check_rows(&REFUSED.section("hostile messages"));
}

#[test]
fn other_words_are_told_the_usage() {
    check_rows(&WORDS.section("other words"));
}

#[test]
fn words_that_cannot_be_read_are_told_with_their_place() {
    check_rows(&WORDS.section("malformed calls"));
}

#[test]
fn json_that_cannot_be_read_is_told_with_its_place() {
    check_rows(&WORDS.section("malformed JSON"));
}

#[test]
fn printed_values_that_cannot_be_read_are_told() {
    check_rows(&WORDS.section("malformed printed values"));
}

#[test]
fn sets_and_names_are_refused_before_the_message_is_read() {
    check_rows(&REFUSED.section("missing files"));
}

#[test]
fn calls_are_the_lines_of_a_file() {
    check_rows(&REFUSED.section("files of calls"));
}

#[test]
fn an_empty_file_has_no_calls() {
    check_rows(&REFUSED.section("an empty file of calls"));
}

#[test]
fn lines_that_cannot_be_read_are_told_with_their_place() {
    check_rows(&REFUSED.section("malformed files of calls"));
}

/// The outcome of a row if a write of standard output fails after so many bytes.
fn with_failed_write(row: &Row, written: usize) -> Outcome {
    Outcome {
        output: row.wanted.output[..written].to_vec(),
        errors: b"refused: 13 WriteFailed (standard output)\n".to_vec(),
        status: 1,
        ..row.wanted
    }
}

#[test]
fn each_write_fails_in_turn() {
    for row in rows_of(&REFUSED.section("failing writes")) {
        row.check();
        let calls = row.wanted.output.len();
        row.check_failures(Device::Output, calls, |call| with_failed_write(&row, call));
    }
}

#[test]
fn each_read_fails_in_turn() {
    for row in rows_of(&REFUSED.section("failing reads")) {
        // the last call finds the end
        let calls = row.input().len() + 1;
        row.check_failures(Device::Input, calls, |call| Outcome {
            is_unread: call == 0,
            ..row.wanted.clone()
        });
    }
}

#[test]
fn each_read_of_a_file_fails_in_turn() {
    for row in rows_of(&REFUSED.section("failing reads of a file")) {
        let calls = row.files[0].1.len() + 1;
        row.check_failures(Device::Files, calls, |_| row.wanted.clone());
    }
}

#[test]
fn what_cannot_be_told_changes_no_status() {
    for row in rows_of(&REFUSED.section("failing errors")) {
        row.check();
        let calls = row.wanted.errors.len();
        row.check_failures(Device::Errors, calls, |call| Outcome {
            errors: row.wanted.errors[..call].to_vec(),
            ..row.wanted.clone()
        });
    }
}
