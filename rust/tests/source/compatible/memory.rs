//! Comparisons that run out of memory, and large sets.

use super::evolution;
use super::messages::message_of;
use crate::capnp_base::introspect::TypeVariant;
use crate::capnp_callers::brands::{between, is_successor};
use crate::capnp_dynamic::dynamic_struct;
use crate::capnp_dynamic::dynamic_value::Reader as Value;
use crate::capnp_schema::set::SchemaSet;
use crate::capnp_wire::error::{ErrorKind, Result};
use crate::capnp_wire::message::Reader;
use crate::fixtures::bytes::answer;
use crate::fixtures::records::{
    add_struct, list_type, one_word, slot, struct_type, typed_slot, FieldOf, Records, StructOf,
};
use crate::fixtures::set_text::{read_entries, read_texts, texts_in};
use crate::rattle_std::alloc::Global;
use crate::refusing::{refuse_each, with_refused};

/// A struct of the built-in set, and the one that it became in the set `grown`.
const MIXED: u32 = 1;
const GROWN_MIXED: u32 = 9;

/// Refuses each request of a call in turn: it fails with `OutOfMemory`. Returns how many requests there are.
fn refuse<S, T>(start: impl FnMut() -> S, act: impl Fn(&mut S) -> Result<T>) -> u64 {
    refuse_each(start, act, |_, returned, is_refused| {
        let wanted = if is_refused {
            Err(ErrorKind::OutOfMemory)
        } else {
            Ok(())
        };
        assert_eq!(answer(returned).map(|_| ()), wanted);
    })
}

/// The number of a field by its name; nothing where it is no number of 16 or 8 bits.
fn number(reader: dynamic_struct::Reader<'_>, name: &str) -> Option<u16> {
    match reader.get_named(name) {
        Ok(Value::UInt16(x)) => Some(x),
        Ok(Value::UInt8(x)) => Some(x.into()),
        _ => None,
    }
}

// What comes before the pair fails for memory alone. Once there is a pair, nothing takes memory.
#[test]
fn narrow_and_widen_take_no_memory() {
    let grown = texts_in(&evolution::ROWS.section("grown"));
    let make = |records: &mut Option<Records>| records.take().expect("a set is made once").into_set();
    assert_ne!(refuse(|| Some(read_entries(&grown)), make), 0);
    let schemas = read_texts(&grown).expect("the check accepts the set");
    let bytes = message_of("nine");
    refuse(|| (), |()| Reader::new(Global, bytes));
    let find = || between(Global, &schemas, MIXED, GROWN_MIXED);
    assert_ne!(refuse(|| (), |()| find()), 0);
    let root = Reader::new(Global, bytes).expect("there is memory").get_root();
    let root = root.get_struct().expect("the root is a struct");
    let older = dynamic_struct::Reader::new(root, schemas.struct_schema(MIXED));
    let pair = find().expect("there is memory").expect("the struct that grew follows");
    let read = || {
        let newer = pair.widen(older);
        let again = pair.narrow(newer);
        let numbers = [(newer, "y"), (newer, "c"), (again, "a"), (again, "y")];
        numbers.map(|(reader, name)| number(reader, name))
    };
    let (numbers, takes_memory) = with_refused(1, read);
    assert_eq!(numbers, [9, 0, 5, 9].map(Some));
    assert!(!takes_memory);
}

/// A struct that names two others: by a pointer, and by a list.
fn link(next: u32, other: u32) -> [FieldOf; 3] {
    [
        slot("value", 0, TypeVariant::UInt16),
        typed_slot("next", 0, struct_type(next)),
        typed_slot("others", 1, list_type(struct_type(other))),
    ]
}

/// A set of so many structs. Each names the next one, and another, and from each one all are reached.
fn ring(count: u32) -> SchemaSet {
    let mut records = Records::new();
    for number in 0..count {
        let fields = link((number + 1) % count, (number * 7 + 3) % count);
        let of = StructOf {
            pointers: 2,
            ..one_word(&fields)
        };
        add_struct(&mut records, number, &of);
    }
    records.into_set().expect("the check accepts the set")
}

/// Whether a struct follows another.
fn follows(schemas: &SchemaSet, older: u32, newer: u32) -> bool {
    is_successor(Global, schemas, older, newer).expect("there is memory")
}

#[test]
fn a_large_set_has_itself_as_a_successor() {
    assert!(follows(&ring(2_000), 0, 0));
}

// Each pair leads to all pairs that stand as far apart, and these to others by their lists.
#[test]
fn all_pairs_of_a_ring() {
    let schemas = ring(12);
    for older in 0..12 {
        for newer in 0..12 {
            assert!(follows(&schemas, older, newer), "{older} {newer}");
        }
    }
}
