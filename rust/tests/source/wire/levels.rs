//! Levels of nesting, and the order of errors.

use super::reads::scripts_are_answered;
use crate::capnp_wire::error::Result;
use crate::fixtures::bytes::root_of;
use crate::refusing::with_refused;
use crate::rows::{row_file, RowFile};

static ROWS: RowFile = row_file!("levels.rows");

#[test]
fn a_cycle_ends_where_no_level_is_left() {
    scripts_are_answered(&ROWS.section("cycles"));
}

#[test]
fn the_65th_struct_is_too_deep() {
    scripts_are_answered(&ROWS.section("structs"));
}

/// Whether a pointer is null in the struct that the first pointers of so many structs lead to.
fn is_null(message: &[u8], structs: u32, field: u16) -> Result<bool> {
    let mut pointer = root_of(message)?;
    for _ in 0..structs {
        pointer = pointer.get_struct()?.get_pointer_field(0);
    }
    Ok(pointer.get_struct()?.get_pointer_field(field).is_null())
}

#[test]
fn forty_structs_read_without_memory() {
    // each of the 40 structs names the next one twice, so a tree of them would have 2^40 leaves
    let mut message = [0u8; 656];
    message[4] = 81;
    message[14] = 2;
    for k in 0..39 {
        message[16 + 16 * k] = 4;
        message[22 + 16 * k] = 2;
        message[30 + 16 * k] = 2;
    }
    // the two pointers of the last struct, and of the one before
    for (structs, field, wanted) in [(39, 0, true), (39, 1, true), (38, 0, false), (38, 1, false)] {
        let (read, asks_for_memory) = with_refused(1, || is_null(&message, structs, field));
        assert_eq!(read, Ok(wanted), "pointer {field} behind {structs} structs");
        assert!(!asks_for_memory, "pointer {field} behind {structs} structs");
    }
}

#[test]
fn refusals_come_in_their_order() {
    scripts_are_answered(&ROWS.section("order of errors"));
}

#[test]
fn structs_of_a_list_take_a_level_of_their_own() {
    scripts_are_answered(&ROWS.section("elements"));
}
