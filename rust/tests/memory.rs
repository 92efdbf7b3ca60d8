//! A limit on a message's words bounds the memory that a call takes, whatever the message says.

use super::refusing::most_held;
use riftcalico::memory::Global;
use riftcalico::message::{Builder, ElementSize, Reader, StructSize};
use riftcalico::patch::patch_bytes;
use riftcalico::run::{run_copied, Call, Op, Reply, Step};
use riftcalico::schema::{SchemaSet, StructSchema};
use riftcalico::{ErrorKind, Result};

/// How many words a message may have here.
const LIMIT: usize = 60;

/// The bytes that a call may hold under that limit: the words once and the part that is copied, with what a vector takes
/// more when it grows, and some for what is small.
const FEW_BYTES: isize = 4_096;

/// As many structs of a word as a pointer can lead to.
const MOST_ELEMENTS: u32 = (1 << 29) - 1;

/// As many structs of five words, the size of a `Person`, as a list can have: more than a message has room for.
const MANY_ELEMENTS: u64 = ((1 << 29) - 1) / 5;

const ONE_WORD: StructSize = StructSize {
    data_words: 1,
    pointers: 0,
};

/// Asserts that a call was refused for memory, and held few bytes.
fn assert_refused_at_once<T>((answer, held): (Result<T>, isize)) {
    assert_eq!(answer.err().map(|error| error.kind), Some(ErrorKind::OutOfMemory));
    assert!(held < FEW_BYTES, "{held} bytes");
}

#[test]
fn a_limit_bounds_memory_of_steps() {
    let mut message = Builder::with_limit(Global, LIMIT).expect("there is memory");
    let nothings = message.root().init_list(ElementSize::Void, MOST_ELEMENTS);
    assert_eq!(nothings.expect("nothings take no words").len(), MOST_ELEMENTS);
    assert_refused_at_once(most_held(|| {
        message.root().get_struct_list(ONE_WORD).map(|list| list.len())
    }));
    let made = message.root().init_struct(ONE_WORD);
    assert_eq!(made.expect("a struct of a word has room").get_size(), ONE_WORD);
    let large = StructSize {
        data_words: u16::MAX,
        pointers: u16::MAX,
    };
    assert_refused_at_once(most_held(|| {
        message.root().get_struct(large).map(|made| made.get_size())
    }));
    let left = message.as_reader().get_struct();
    assert_eq!(left.expect("the struct is left").get_size(), ONE_WORD);
}

#[test]
fn a_limit_bounds_memory_of_copies() {
    for size in [ElementSize::Bit, ElementSize::EightBytes, ElementSize::Pointer] {
        let mut source = Builder::new(Global).expect("there is memory");
        let made = source.root().init_list(size, 1 << 20);
        assert_eq!(made.expect("there is memory for some megabytes").len(), 1 << 20);
        let mut message = Builder::with_limit(Global, LIMIT).expect("there is memory");
        assert_refused_at_once(most_held(|| message.root().copy_from(source.as_reader())));
        assert_refused_at_once(most_held(|| message.set_root(source.as_reader())));
    }
}

/// A message of two words: a struct with a list of so many nothings at its pointer.
fn many_nothings() -> [u8; 24] {
    let mut bytes = [0; 24];
    bytes[4] = 2;
    bytes[8..16].copy_from_slice(&(1u64 << 48).to_le_bytes());
    bytes[16..].copy_from_slice(&(1 | MANY_ELEMENTS << 35).to_le_bytes());
    bytes
}

/// Reads a number of the first of the people.
const FIRST_NUMBER: Call<'_> = Call {
    path: &[Step::Named("people"), Step::Element(0)],
    last: Step::Named("id"),
    op: Op::Get,
};

/// The address book's schema.
fn book(schemas: &SchemaSet) -> StructSchema<'_> {
    schemas
        .get_struct_named("AddressBook")
        .expect("the request has the struct")
}

fn book_set() -> SchemaSet {
    let request = include_bytes!("../../examples/addressbook.request");
    SchemaSet::from_request(request).expect("the request is sound")
}

fn is_out_of_room(replies: &[Reply]) -> bool {
    matches!(replies, [Reply::Refused(ErrorKind::OutOfMemory)])
}

#[test]
fn a_limit_bounds_memory_of_runs() {
    let schemas = book_set();
    let bytes = many_nothings();
    let source = Reader::new(Global, &bytes).expect("the message is whole");
    let (left, held) = most_held(|| {
        let calls = [FIRST_NUMBER];
        run_copied(Global, LIMIT, source.get_root(), book(&schemas), &calls)
    });
    assert!(left.is_ok_and(|left| is_out_of_room(&left.replies)));
    assert!(held < FEW_BYTES, "{held} bytes");
    let (patched, held) = most_held(|| patch_bytes(&bytes, book(&schemas), &[FIRST_NUMBER]));
    let (replies, left) = patched.expect("the message is copied, and written again");
    assert!(is_out_of_room(&replies));
    assert_eq!(left, bytes);
    assert!(held < FEW_BYTES, "{held} bytes");
}
