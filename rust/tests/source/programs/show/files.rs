//! `capnp_show --set`, over files in memory and over the system's files.

use super::{check, check_failures, rows_under};
use crate::capnp_show_engine::command::command;
use crate::programs::devices::{Device, Outcome, FAST};
use crate::programs::rows::{bytes_in, rows_of, Row};
use crate::rattle_std::alloc::Global;
use crate::rattle_std::rt::HostRuntime;
use crate::rows::{row_file, RowFile};

const FILES: RowFile = row_file!("files.rows");
const SETS: RowFile = row_file!("sets.rows");

/// The message of a set.
fn set_of(section: &str) -> Vec<u8> {
    bytes_in(&SETS.section(section))
}

/// The rows with the set of `Flat`.
fn rows_under_flat() -> Vec<Row> {
    rows_under(&set_of("set of Flat"), &FILES.section("under Flat"))
}

#[test]
fn a_struct_of_the_files_set_is_shown() {
    check(&rows_under_flat());
}

#[test]
fn the_first_struct_of_a_name_is_shown() {
    check(&rows_under(&set_of("set of Twice"), &FILES.section("under Twice")));
}

#[test]
fn a_default_that_feeds_itself_in_a_list() {
    check(&rows_under(&set_of("set of Nest"), &FILES.section("under Nest")));
}

/// A text of one line, which is wrapped in the file of rows.
fn line_of(section: &str) -> Vec<u8> {
    let lines = SETS.section(section).lines();
    let words: Vec<&str> = lines.iter().map(|line| line.text).collect();
    format!("{}\n", words.join(" ")).into_bytes()
}

#[test]
fn sets_are_shown_under_the_meta_set() {
    let meta = set_of("set of sets");
    for mut row in rows_under(&meta, &FILES.section("under the set of sets")) {
        for (set, text) in [
            ("set of Flat", "set of Flat, printed"),
            ("set of sets", "set of sets, printed"),
        ] {
            row.set_input(&set_of(set));
            row.wanted.output = line_of(text);
            check(std::slice::from_ref(&row));
        }
    }
}

#[test]
fn refused_sets_leave_the_message_unread() {
    check(&rows_of(&FILES.section("refused sets")));
}

#[test]
fn unknown_names_and_paths_leave_the_message_unread() {
    check(&rows_under(&set_of("set of Flat"), &FILES.section("unknown")));
}

#[test]
fn each_failed_read_of_a_set_leaves_the_message_unread() {
    check_failures(&rows_under_flat(), Device::Files);
}

#[test]
fn failed_reads_and_writes_after_a_set_are_told() {
    check_failures(&rows_under_flat(), Device::Input);
    check_failures(&rows_under_flat(), Device::Output);
}

/// Asserts that a row is so over the system's files.
fn check_over_files(row: &Row) {
    let words = row.arguments();
    let seen = Outcome::of(row.input(), FAST, |source, output, errors| {
        command(&HostRuntime, Global, &words, source, output, errors)
    });
    row.assert_outcome(FAST, &seen, &row.wanted);
}

#[test]
fn files_of_the_system_are_opened() {
    for row in rows_of(&FILES.section("the system's files")) {
        check_over_files(&row);
    }
}

#[test]
fn a_file_of_the_system_is_shown() {
    let path = std::env::temp_dir().join(format!("riftcalico-{}.set", std::process::id()));
    std::fs::write(&path, set_of("set of Flat")).expect("the folder can be written");
    let rows = rows_of(&FILES.section("a file of the system"));
    for mut row in rows {
        row.words[2] = path.to_str().expect("the path is UTF-8").to_string();
        check_over_files(&row);
    }
    std::fs::remove_file(&path).expect("the file is there");
}
