//! Types of Rust types, equality of types, and their hashes.

use crate::capnp_base::introspect::{Introspect, RawBrandedStructSchema, RawEnumSchema, Type, TypeVariant};
use crate::capnp_wire::size::ElementSize;
use std::hash::{DefaultHasher, Hash, Hasher};

fn struct_type(number: u32, generic: u32) -> Type {
    Type::from(TypeVariant::Struct(RawBrandedStructSchema { number, generic }))
}

fn enum_type(number: u32) -> Type {
    Type::from(TypeVariant::Enum(RawEnumSchema { number }))
}

fn hash_of<T: Hash>(value: &T) -> u64 {
    let mut state = DefaultHasher::new();
    value.hash(&mut state);
    state.finish()
}

#[test]
fn each_rust_type_has_its_type() {
    for (named, wanted) in [
        (<()>::introspect(), TypeVariant::Void),
        (bool::introspect(), TypeVariant::Bool),
        (i8::introspect(), TypeVariant::Int8),
        (i16::introspect(), TypeVariant::Int16),
        (i32::introspect(), TypeVariant::Int32),
        (i64::introspect(), TypeVariant::Int64),
        (u8::introspect(), TypeVariant::UInt8),
        (u16::introspect(), TypeVariant::UInt16),
        (u32::introspect(), TypeVariant::UInt32),
        (u64::introspect(), TypeVariant::UInt64),
    ] {
        assert_eq!(named.which(), wanted);
    }
    assert_ne!(u32::introspect().which(), TypeVariant::Int32);
}

/// Structs are equal by number, and loosely by their generic number. Types have one hash where they are equal.
#[test]
fn equal_types_have_one_hash_and_brands_are_loosely_equal() {
    let list_of = Type::list_of;
    for (one, another, is_equal, is_loosely_equal) in [
        (struct_type(0, 0), struct_type(9, 0), false, true),
        (list_of(struct_type(0, 0)), list_of(struct_type(9, 0)), false, true),
        (struct_type(0, 0), list_of(struct_type(0, 0)), false, false),
        (enum_type(0), enum_type(9), false, false),
        (enum_type(9), enum_type(9), true, true),
        (enum_type(3), enum_type(3), true, true),
        (struct_type(7, 1), struct_type(7, 2), true, false),
        (struct_type(8, 1), struct_type(7, 1), false, true),
    ] {
        let row = format!("{one:?} and {another:?}");
        assert_eq!(one == another, is_equal, "{row}");
        assert_eq!(one.loose_equals(another), is_loosely_equal, "{row}");
        assert_eq!(hash_of(&one) == hash_of(&another), is_equal, "{row}");
        assert_eq!(hash_of(&one.which()) == hash_of(&another.which()), is_equal, "{row}");
    }
}

#[test]
fn lists_are_pointers_and_enums_are_not() {
    for (named, is_pointer, size) in [
        (Type::list_of(u8::introspect()), true, ElementSize::Pointer),
        (enum_type(1), false, ElementSize::TwoBytes),
        (<()>::introspect(), false, ElementSize::Void),
        (struct_type(1, 1), true, ElementSize::InlineComposite),
    ] {
        assert_eq!(named.is_pointer_type(), is_pointer, "{named:?}");
        assert_eq!(named.expected_element_size(), size, "{named:?}");
    }
}

#[test]
fn lists_of_lists_are_taken_apart() {
    for inner in [i16::introspect(), Type::list_of(i16::introspect())] {
        let outer = Type::list_of(inner);
        assert_eq!(outer.which(), TypeVariant::List(inner));
        assert_eq!(Type::from(outer.which()), outer);
    }
}
