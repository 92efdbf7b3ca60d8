//! Messages whose pointers share targets: a text far longer than its message is refused where its limit is passed.
#![forbid(unsafe_code)]

use riftcalico::dynamic_value::Reader as Value;
use riftcalico::introspect::{RawBrandedStructSchema, Type, TypeVariant};
use riftcalico::memory::{Global, String, Vec as List};
use riftcalico::message::read_root;
use riftcalico::printer::{print, print_within};
use riftcalico::schema::record::{BrandRecord, FieldRecord, NodeRecord, ValueRecord};
use riftcalico::schema::SchemaSet;
use riftcalico::ErrorKind;

/// The structs of the long message, one in the other.
const STRUCTS: usize = 60;

/// A set of one struct, which has itself twice.
fn new_set() -> SchemaSet {
    let null = || List::from_slice(Global, &[0; 8]).expect("there is memory");
    let fields = [
        FieldRecord::slot(Global, "left", 0, ValueRecord::Struct(null())),
        FieldRecord::slot(Global, "right", 1, ValueRecord::Struct(null())),
    ];
    let fields = fields.map(|field| field.expect("there is memory"));
    let fields = List::from_array(Global, fields).expect("there is memory");
    let own = Type::from(TypeVariant::Struct(RawBrandedStructSchema { generic: 0, number: 0 }));
    let types = List::from_array(Global, [own, own]).expect("there is memory");
    let node = NodeRecord::structure(Global, 1, "Twice", 0, 2, fields).expect("there is memory");
    let brand = BrandRecord::new(Global, 0, types).expect("there is memory");
    let nodes = List::from_array(Global, [node]).expect("there is memory");
    let brands = List::from_array(Global, [brand]).expect("there is memory");
    SchemaSet::new(Global, nodes, brands, List::new(Global)).expect("the set meets the rules")
}

/// A message of so many structs: both pointers of each lead to the next, and those of the last are null.
fn message_of(structs: usize) -> std::vec::Vec<u8> {
    let words = 1 + 2 * structs;
    let mut bytes = vec![0; 4];
    bytes.extend_from_slice(&u32::try_from(words).expect("they are few").to_le_bytes());
    let pointer = |offset: u64| (offset << 2 | 2 << 48).to_le_bytes();
    bytes.extend_from_slice(&pointer(0));
    for _ in 1..structs {
        bytes.extend_from_slice(&pointer(1));
        bytes.extend_from_slice(&pointer(0));
    }
    bytes.extend_from_slice(&[0; 16]);
    bytes
}

/// What is printed within a limit, or the refusal, with the text that stood before.
fn printed(set: &SchemaSet, bytes: &[u8], limit: u64) -> (std::string::String, Option<ErrorKind>) {
    let schema = set.struct_schema(0);
    let root = read_root(bytes, schema).expect("the root is a struct");
    let mut out = String::from_str(Global, "before ").expect("there is memory");
    let refused = print_within(Value::Struct(root), &mut out, false, limit).err();
    (out.into(), refused.map(|error| error.kind))
}

#[test]
fn a_text_of_exactly_the_limit_is_printed() {
    let (set, bytes) = (new_set(), message_of(5));
    let root = read_root(&bytes, set.struct_schema(0)).expect("the root is a struct");
    let mut whole = String::new(Global);
    print(Value::Struct(root), &mut whole, false).expect("there is memory");
    let whole = std::string::String::from(whole);
    let length = whole.len() as u64;
    assert_eq!(printed(&set, &bytes, length), (format!("before {whole}"), None));
    for limit in 0..length {
        let refused = ("before ".to_string(), Some(ErrorKind::TooLarge));
        assert_eq!(printed(&set, &bytes, limit), refused, "limit {limit}");
    }
}

#[test]
fn a_text_without_measure_stops_at_its_limit() {
    let bytes = message_of(STRUCTS);
    assert!(bytes.len() < 1000);
    let refused = ("before ".to_string(), Some(ErrorKind::TooLarge));
    assert_eq!(printed(&new_set(), &bytes, 100_000), refused);
}
