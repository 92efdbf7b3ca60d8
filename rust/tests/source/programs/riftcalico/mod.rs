//! `riftcalico` over messages, sets and files in memory.

mod diffs;
mod edits;
mod refused;
mod streams;
mod values;

use super::rows::check_rows;
use crate::rows::{row_file, RowFile};

const GET: RowFile = row_file!("get.rows");
const QUERIES: RowFile = row_file!("queries.rows");
const JSON: RowFile = row_file!("json.rows");
const PATCH: RowFile = row_file!("patch.rows");
const STRUCTS: RowFile = row_file!("structs.rows");

#[test]
fn values_are_shown() {
    check_rows(&GET.section("values"));
}

#[test]
fn queries_are_answered() {
    check_rows(&QUERIES.section("queries"));
}

#[test]
fn words_that_ask_for_nothing_are_told() {
    check_rows(&QUERIES.section("malformed paths"));
}

#[test]
fn json_texts_are_made_messages() {
    check_rows(&JSON.section("JSON texts"));
}

#[test]
fn json_texts_are_made_messages_one_after_another() {
    check_rows(&JSON.section("JSON texts one after another"));
}

#[test]
fn messages_are_patched() {
    check_rows(&PATCH.section("calls"));
}

#[test]
fn structs_are_listed() {
    check_rows(&STRUCTS.section("structs"));
}

#[test]
fn the_program_tells_of_itself() {
    check_rows(&STRUCTS.section("help"));
}
