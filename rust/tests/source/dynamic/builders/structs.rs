//! The traits of a struct type that is set and built, as a caller meets them.

use super::calls::new_message;
use crate::capnp_arena::handles::{PointerBuilder, StructBuilder};
use crate::capnp_base::introspect::{Introspect, RawBrandedStructSchema, Type, TypeVariant};
use crate::capnp_builders::traits::{HasStructSize, IntoInternalStructReader, OwnedStruct, SetterInput};
use crate::capnp_wire::error::Result;
use crate::capnp_wire::size::StructSize;
use crate::capnp_wire::{PointerReader, StructReader};
use crate::fixtures::bytes::bytes_of;

/// A struct of one word, as it is read.
#[derive(Clone, Copy)]
struct Flat<'a> {
    reader: StructReader<'a>,
}

/// A struct of one word, as it is built.
struct FlatBuilder<'a> {
    builder: StructBuilder<'a>,
}

impl HasStructSize for FlatBuilder<'_> {
    const STRUCT_SIZE: StructSize = StructSize {
        data_words: 1,
        pointers: 0,
    };
}

impl<'a> From<StructReader<'a>> for Flat<'a> {
    fn from(reader: StructReader<'a>) -> Flat<'a> {
        Flat { reader }
    }
}

impl<'a> IntoInternalStructReader<'a> for Flat<'a> {
    fn into_internal_struct_reader(self) -> StructReader<'a> {
        self.reader
    }
}

impl<'a> From<StructBuilder<'a>> for FlatBuilder<'a> {
    fn from(builder: StructBuilder<'a>) -> FlatBuilder<'a> {
        FlatBuilder { builder }
    }
}

/// The struct type of these handles: brand 0 of node 0 in a set.
const FLAT: RawBrandedStructSchema = RawBrandedStructSchema { number: 0, generic: 0 };

struct FlatType;

impl Introspect for FlatType {
    fn introspect() -> Type {
        Type::from(TypeVariant::Struct(FLAT))
    }
}

impl<'a> SetterInput<FlatType> for Flat<'a> {
    fn set_pointer_builder(builder: PointerBuilder<'_>, input: Flat<'a>, _canonicalize: bool) -> Result<()> {
        let PointerBuilder { arena, at } = builder;
        arena.set_struct(at, &input.into_internal_struct_reader())
    }
}

impl<'a> OwnedStruct<'a> for FlatType {
    type Reader = Flat<'a>;

    type Builder = FlatBuilder<'a>;
}

/// Sets the pointer to a struct of the type, and stands its builder on what is there then.
fn set_and_build<'a, T: OwnedStruct<'a>>(builder: PointerBuilder<'a>, source: StructReader<'a>) -> Result<T::Builder> {
    let PointerBuilder { arena, at } = builder;
    let pointer = PointerBuilder { arena: &mut *arena, at };
    T::Reader::set_pointer_builder(pointer, T::Reader::from(source), false)?;
    let built = PointerBuilder { arena, at }.get_struct(T::Builder::STRUCT_SIZE)?;
    Ok(T::Builder::from(built))
}

#[test]
fn a_struct_type_is_set_and_built() {
    let five = bytes_of("0000000001000000 0500000000000000");
    let source = PointerReader::from_words(&five).get_struct().expect("it is a struct");
    let mut message = new_message();
    let flat = set_and_build::<FlatType>(message.root(), source).expect("there is memory");
    assert_eq!(flat.builder.get_data_field::<u16>(0), 5);
    let mut message = new_message();
    let built = message
        .root()
        .init_struct(FlatBuilder::STRUCT_SIZE)
        .expect("there is memory");
    assert_eq!(built.get_size().data_words, 1);
    assert_eq!(FlatType::introspect().which(), TypeVariant::Struct(FLAT));
}
