//! Calls at fields and elements of every kind, of a message that the public tool made and of built-in structs: what
//! they answer, and what they write.

use super::cases::cases_hold;
use crate::capnp_schema::builtin::new_set;
use crate::fixtures::kinds::KINDS_SET;
use crate::fixtures::set_text::set_of;
use crate::rattle_std::alloc::Global;
use crate::rows::{row_file, RowFile};

static ROWS: RowFile = row_file!("kinds.rows");

#[test]
fn each_kind_of_field_and_element_is_answered() {
    let section = ROWS.section("each_kind_of_field_and_element_is_answered");
    cases_hold(&set_of(KINDS_SET), &section);
}

#[test]
fn each_kind_of_element_is_set() {
    cases_hold(&set_of(KINDS_SET), &ROWS.section("each_kind_of_element_is_set"));
}

#[test]
fn numbers_beside_their_defaults() {
    let schemas = new_set(Global).expect("there is memory");
    cases_hold(&schemas, &ROWS.section("numbers_beside_their_defaults"));
}
