//! What the callers of `capnp_arena` and `capnp_wire_callers` count and build, each in a message of its own.

use super::{message_of, new_message, size, ONE_EACH};
use crate::capnp_arena::callers::refill;
use crate::capnp_arena::handle_callers::{
    build_data_by_builders, fill_struct, set_first_byte, set_text_at, set_text_field, write_struct,
};
use crate::capnp_arena::handles::{get_and_set, PointerBuilder};
use crate::capnp_arena::lists::ListPlace;
use crate::capnp_arena::message::Builder;
use crate::capnp_wire::error::Result;
use crate::capnp_wire::size::ElementSize;
use crate::capnp_wire_callers::built::{count_new, count_structs};
use crate::rattle_std::alloc::Global;
use crate::rows::{assert_bytes, row_file, Place, Row, RowFile};

const BUILT: RowFile = row_file!("built.rows");

#[test]
fn new_numbers_and_structs_are_counted() {
    assert_eq!(count_new(new_message().root(), 3), Ok(3));
    let mut message = new_message();
    let list = message.root().init_list(ElementSize::TwoBytes, 3);
    assert_eq!(list.map(|list| list.len()), Ok(3));
    assert_eq!(count_structs(message.root(), ONE_EACH), Ok(3));
}

#[test]
fn a_struct_with_a_text_is_read() {
    let mut message = new_message();
    let mut made = message.root().init_struct(ONE_EACH).expect("there is memory");
    set_text_field(&mut made, 0, b"hi").expect("there is memory");
    made.set_data_field::<u64>(0, 5);
    assert_eq!(made.total_size().map(|size| size.word_count), Ok(3));
    assert_eq!(made.get_data_field::<u64>(0), 5);
    assert_eq!(made.get_data_field_mask::<u64>(0, 1), 4);
    assert!(!made.get_bool_field(1));
    assert!(made.get_bool_field_mask(1, true));
    assert_eq!(made.get_size().pointers, 1);
    assert_eq!(made.as_reader().get_data_field::<u64>(0), 5);
}

#[test]
fn a_struct_holds_what_fits_of_a_larger_one() {
    let mut source = new_message();
    let mut larger = source.root().init_struct(size(2, 2)).expect("there is memory");
    fill_struct(&mut larger, 0, b"hi", 5).expect("there is memory");
    let mut message = new_message();
    let PointerBuilder { arena, at } = message.root();
    let place = arena.init_struct(at, ONE_EACH).expect("there is memory");
    refill(arena, at, place, &larger.as_reader()).expect("there is memory");
    let reader = arena.get_struct_reader(place);
    assert_eq!(reader.total_size().map(|size| size.word_count), Ok(3));
    assert_eq!(reader.get_data_field::<u64>(0), 5);
}

/// Builds by the caller that a row names.
fn build(place: Place, name: &str, message: &mut Builder) -> Result<()> {
    match name {
        "set_text_at" => set_text_at(message.root(), b"hi"),
        "build_data_by_builders" => build_data_by_builders(message, 3, 5),
        "set_first_byte" => {
            let (size, count) = (ElementSize::Byte, 3);
            let start = message.init_list(0, size, count)?;
            set_first_byte(message, ListPlace { start, size, count }, 5);
            Ok(())
        }
        "get_and_set" => get_and_set::<u16>(message, 0, ONE_EACH, 1, 7),
        "set_bool" => {
            message.init_struct_list(0, 2, ONE_EACH)?;
            let second = message.get_struct_at(0, 1);
            message.set_bool(second, 9, true);
            Ok(())
        }
        other => panic!("{place}: nothing builds {other:?}"),
    }
}

fn are_written(rows: &[Row]) {
    for row in rows {
        let [name, message] = row.columns();
        let written = match name {
            "write_struct" => write_struct(Global, ONE_EACH, 0, b"hi"),
            _ => {
                let mut built = new_message();
                build(row.place, name, &mut built).and_then(|()| built.write_message())
            }
        };
        let written = written.unwrap_or_else(|error| panic!("{}: {error}", row.place));
        assert_bytes(row.place, &written, &message_of(&row.place, message));
    }
}

#[test]
fn callers_write_what_they_build() {
    are_written(&BUILT.section("by callers").table());
}

#[test]
fn numbers_and_bits_are_set_at_places() {
    are_written(&BUILT.section("at places").table());
}
