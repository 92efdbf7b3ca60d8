//! Sets that are written as messages: what is written reads back as equal records.
//!
//! What takes gigabytes is not tested: a text, data or list of 2^29 bytes or elements, and a message of 2^29 words.

use super::sets::assert_lists;
use crate::capnp_base::introspect::{Type, TypeVariant};
use crate::capnp_request::request_set;
use crate::capnp_schema::set::SchemaSet;
use crate::capnp_schema::{builtin, meta};
use crate::capnp_set_writer::set_writer::write_set;
use crate::capnp_wire::error::ErrorKind;
use crate::fixtures::bytes::answer;
use crate::fixtures::records::{add_struct, list_type, records_of, slot, struct_type, typed_slot, Records, StructOf};
use crate::fixtures::set_text::set_of;
use crate::rattle_std::alloc::Global;
use crate::refusing::refuse_each;
use crate::rows::{row_file, Reading, RowFile};

static SETS: RowFile = row_file!("set_writer.rows");

/// Asserts that a set is written, and reads back as the same lists, also with bytes after the message.
#[track_caller]
fn assert_same_again(schemas: &SchemaSet) {
    let mut bytes: Vec<u8> = write_set(Global, schemas).expect("the set can be written").into();
    bytes.extend([255, 0, 1]);
    assert_lists(&bytes, schemas.nodes(), schemas.brands(), schemas.enums());
}

#[test]
fn the_built_in_set_is_read_back() {
    assert_same_again(&builtin::new_set(Global).expect("the check accepts it"));
}

#[test]
fn the_meta_set_is_read_back() {
    assert_same_again(&meta::new_set(Global).expect("the check accepts it"));
}

#[test]
fn the_request_set_is_read_back() {
    assert_same_again(&request_set::new_set(Global).expect("the check accepts it"));
}

#[test]
fn sets_of_texts_are_read_back() {
    assert_same_again(&set_of(""));
    for row in SETS.section("written").lines() {
        let _reading = Reading(row.place);
        assert_same_again(&set_of(row.text));
    }
}

/// The set of so many structs. Each has its own number as its id, and a pointer to the struct of another number.
fn many_structs(count: u32) -> SchemaSet {
    let mut records = Records::new();
    for number in 0..count {
        let fields = [
            slot("value", 0, TypeVariant::UInt16),
            typed_slot("next", 0, struct_type((number * 7 + 1) % count)),
        ];
        let of = StructOf {
            data_words: 1,
            pointers: 1,
            is_group: false,
            discriminant_count: 0,
            discriminant_offset: 0,
            fields: &fields,
        };
        add_struct(&mut records, number, &of);
        records.nodes.last_mut().expect("a struct was added").id = number.into();
    }
    records.into_set().expect("the check accepts it")
}

#[test]
fn a_set_of_2000_structs_is_read_back() {
    let schemas = many_structs(2_000);
    assert_eq!(schemas.nodes().len(), 2_000);
    assert_same_again(&schemas);
}

#[test]
fn untyped_values_but_one_zero_word_are_refused() {
    for row in SETS.section("formless").lines() {
        let _reading = Reading(row.place);
        let written = answer(write_set(Global, &set_of(row.text)));
        assert_eq!(written.err(), Some(ErrorKind::UnknownKind), "{}", row.place);
    }
}

/// The set of a struct with a pointer to a list of lists of nothing, so many lists deep.
fn lists_in_lists(count: u32) -> SchemaSet {
    let innermost = Type::from(TypeVariant::Void);
    let records = records_of(StructOf {
        data_words: 0,
        pointers: 1,
        is_group: false,
        discriminant_count: 0,
        discriminant_offset: 0,
        fields: &[typed_slot("a", 0, (0..count).fold(innermost, |of, _| list_type(of)))],
    });
    records.into_set().expect("the check accepts it")
}

#[test]
fn lists_around_a_type_are_counted_in_16_bits() {
    assert_same_again(&lists_in_lists(3));
    assert_same_again(&lists_in_lists(65_535));
    let written = answer(write_set(Global, &lists_in_lists(65_536)));
    assert_eq!(written.err(), Some(ErrorKind::SizePastFormat));
}

#[test]
fn a_good_set_is_refused_for_memory_alone() {
    let schemas = builtin::new_set(Global).expect("the check accepts it");
    let whole = write_set(Global, &schemas).expect("there is memory");
    let requests = refuse_each(
        || (),
        |()| write_set(Global, &schemas),
        |(), written, is_refused| match written {
            Ok(bytes) => assert!(!is_refused && bytes == whole),
            Err(error) => {
                assert!(is_refused, "{:?}, although there was memory", error.kind);
                assert_eq!(error.kind, ErrorKind::OutOfMemory);
            }
        },
    );
    assert!(requests > 0, "a message takes memory");
}
