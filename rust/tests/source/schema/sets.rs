//! Sets that are read from messages of the public tool, and messages that are refused.

use crate::capnp_dynamic_readers::dynamic_struct;
use crate::capnp_schema::record::{BrandRecord, EnumRecord, NodeRecord};
use crate::capnp_schema::{builtin, meta};
use crate::capnp_sets::message::read_message;
use crate::capnp_sets::sets::read_set;
use crate::capnp_wire::error::{ErrorKind, Result};
use crate::capnp_wire::message::Reader;
use crate::fixtures::bytes::{bytes_in, bytes_of};
use crate::fixtures::records::Records;
use crate::fixtures::wire_messages;
use crate::fixtures::words::number;
use crate::rattle_std::alloc::Global;
use crate::rows::{assert_text, hex, row_file, Place, Reading, RowFile};
use std::fmt::Debug;

static SETS: RowFile = row_file!("sets.rows");

/// The lists of the set that the first message in these bytes stands for, unchecked.
pub fn lists_in(bytes: &[u8]) -> Result<Records> {
    let meta_set = meta::new_set(Global)?;
    let reader = Reader::new(Global, bytes)?;
    let root = reader.get_root().get_struct()?;
    let record = dynamic_struct::Reader::new(root, meta_set.struct_schema(0));
    let (nodes, brands, enums) = read_set(Global, record)?;
    Ok(Records { nodes, brands, enums })
}

/// Asserts that the first message in these bytes stands for these lists.
#[track_caller]
pub fn assert_lists(bytes: &[u8], nodes: &[NodeRecord], brands: &[BrandRecord], enums: &[EnumRecord]) {
    let read = lists_in(bytes).expect("the set can be read");
    assert_eq!(read.nodes.as_slice(), nodes);
    assert_eq!(read.brands.as_slice(), brands);
    assert_eq!(read.enums.as_slice(), enums);
}

#[test]
fn the_built_in_set_is_read() {
    let (nodes, brands, enums) = builtin::records(Global).expect("there is memory");
    assert_lists(&bytes_in(&SETS.section("built_in")), &nodes, &brands, &enums);
}

#[test]
fn the_meta_set_is_read() {
    let (nodes, brands, enums) = meta::records(Global).expect("there is memory");
    assert_lists(&wire_messages::meta(), &nodes, &brands, &enums);
}

/// Asserts that records are printed as the row of a section.
#[track_caller]
fn assert_printed(records: impl Debug, section: &str) {
    for row in SETS.section(section).table() {
        let [wanted] = row.columns();
        assert_text(row.place, &format!("{records:?}"), wanted);
    }
}

#[test]
fn each_kind_of_part_is_read() {
    let read = lists_in(&bytes_in(&SETS.section("kinds"))).expect("the set can be read");
    assert_printed(read.nodes, "nodes_of_kinds");
    assert_printed(read.brands, "brands_of_kinds");
    assert_printed(read.enums, "enums_of_kinds");
}

#[test]
fn a_small_set_is_read_and_checked() {
    let schemas = read_message(Global, &wire_messages::flat()).expect("the check accepts it");
    let names: Vec<&str> = schemas.nodes().iter().map(|node| node.display_name.as_str()).collect();
    assert_eq!(names, ["Flat"]);
}

/// Asserts that a set is refused with the error of a number, or is read if that is 0.
#[track_caller]
fn assert_refused(place: Place, bytes: &[u8], wanted: &str) {
    let error = read_message(Global, bytes).err();
    let seen = error.map_or(0, |error| error.kind.number());
    assert_eq!(seen, number::<u32>(wanted), "{place}: {error:?} of {}", hex(bytes));
}

#[test]
fn each_broken_set_is_refused() {
    for row in SETS.section("refused").table() {
        let _reading = Reading(row.place);
        let [wanted, message] = row.columns();
        assert_refused(row.place, &bytes_of(message), wanted);
    }
}

#[test]
fn each_broken_pointer_is_refused() {
    for row in SETS.section("hostile").lines() {
        let _reading = Reading(row.place);
        let words: Vec<&str> = row.text.split(' ').collect();
        let [place, word, wanted] = words[..] else {
            panic!("{} words, and not 3", words.len());
        };
        let mut bytes = wire_messages::flat();
        let at = 8 + 8 * number::<usize>(place);
        bytes[at..at + 8].copy_from_slice(&bytes_of(word));
        assert_refused(row.place, &bytes, wanted);
    }
}

#[test]
fn each_proper_beginning_is_refused() {
    let bytes = wire_messages::flat();
    for length in 0..bytes.len() {
        let error = read_message(Global, &bytes[..length]).err();
        assert!(
            error.is_some_and(|error| error.kind == ErrorKind::Truncated),
            "{length} bytes"
        );
    }
}

#[test]
fn a_null_root_is_the_empty_set() {
    assert_lists(&bytes_of("0000000001000000 0000000000000000"), &[], &[], &[]);
}
