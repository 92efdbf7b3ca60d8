//! The traits of a struct type that is read, as a caller meets them.

use crate::capnp_base::introspect::{Introspect, RawBrandedStructSchema, Type, TypeVariant};
use crate::capnp_base::traits::{HasTypeId, IntoInternalListReader, IntoInternalStructReader, OwnedStruct};
use crate::capnp_wire::size::ElementSize;
use crate::capnp_wire::{ListReader, PointerReader, StructReader};
use crate::fixtures::bytes::bytes_of;

#[derive(Clone, Copy)]
struct Flat<'a> {
    reader: StructReader<'a>,
}

#[derive(Clone, Copy)]
struct Numbers<'a> {
    reader: ListReader<'a>,
}

impl HasTypeId for Flat<'_> {
    const TYPE_ID: u64 = 100;
}

impl<'a> From<StructReader<'a>> for Flat<'a> {
    fn from(reader: StructReader<'a>) -> Flat<'a> {
        Flat { reader }
    }
}

impl<'a> IntoInternalStructReader<'a> for Flat<'a> {
    fn into_internal_struct_reader(self) -> StructReader<'a> {
        self.reader
    }
}

impl<'a> IntoInternalListReader<'a> for Numbers<'a> {
    fn into_internal_list_reader(self) -> ListReader<'a> {
        self.reader
    }
}

/// The struct type of `Flat`: brand 0 of node 0 in a set.
const FLAT: RawBrandedStructSchema = RawBrandedStructSchema { number: 0, generic: 0 };

struct FlatType;

impl Introspect for FlatType {
    fn introspect() -> Type {
        Type::from(TypeVariant::Struct(FLAT))
    }
}

impl<'a> OwnedStruct<'a> for FlatType {
    type Reader = Flat<'a>;
}

/// The first number of a struct, by its type.
fn number_in<'a, T: OwnedStruct<'a>>(reader: StructReader<'a>) -> u16 {
    T::Reader::from(reader).into_internal_struct_reader().get_data_field(0)
}

fn length_of<'a, T: IntoInternalListReader<'a>>(list: T) -> u32 {
    list.into_internal_list_reader().len()
}

#[test]
fn struct_types_have_numbers_and_readers() {
    assert_eq!(Flat::TYPE_ID, 100);
    assert_eq!(FlatType::introspect().which(), TypeVariant::Struct(FLAT));
    let five = bytes_of("0000000001000000 0500000000000000");
    let reader = PointerReader::from_words(&five).get_struct().expect("it is a struct");
    assert_eq!(number_in::<FlatType>(reader), 5);
    let three_bytes = bytes_of("010000001a000000 0102030000000000");
    let list = PointerReader::from_words(&three_bytes).get_list(ElementSize::Byte);
    let reader = list.expect("it is a list of bytes");
    assert_eq!(length_of(Numbers { reader }), 3);
}
