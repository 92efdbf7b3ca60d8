//! What the arena's own calls build at places of its segment.

use super::{message_of, ONE_EACH};
use crate::capnp_arena::arena::Arena;
use crate::capnp_arena::callers::{init_and_set, set_element_number};
use crate::capnp_arena::lists::{ListPlace, StructsPlace};
use crate::capnp_wire::error::Result;
use crate::capnp_wire::size::ElementSize;
use crate::rattle_std::alloc::Global;
use crate::rows::{assert_bytes, row_file, RowFile};

const BUILT: RowFile = row_file!("built.rows");

/// A struct behind a pointer of a struct, with a number.
fn nested(arena: &mut Arena) -> Result<()> {
    let place = arena.init_struct(0, ONE_EACH)?;
    init_and_set::<u8>(arena, 0, place, 0, ONE_EACH, 1, 9)
}

fn numbers(arena: &mut Arena) -> Result<()> {
    let size = ElementSize::TwoBytes;
    let start = arena.init_list(0, size, 3)?;
    let list = ListPlace { start, size, count: 3 };
    arena.set_list_number::<u16>(0, list, 1, 0x0201);
    Ok(())
}

fn structs(arena: &mut Arena) -> Result<()> {
    let tag = arena.init_struct_list(0, 2, ONE_EACH)?;
    let list = StructsPlace {
        tag,
        count: 2,
        data_words: 1,
        pointers: 1,
    };
    set_element_number::<u64>(arena, 0, list, 1, 0, 7);
    Ok(())
}

/// The number at the start of the second of two structs.
fn first(arena: &mut Arena) -> Result<()> {
    arena.init_struct_list(0, 2, ONE_EACH)?;
    arena.set_data_element::<u8>(0, 1, 5);
    Ok(())
}

#[test]
fn what_is_built_is_written() {
    for row in BUILT.section("by the arena").table() {
        let [name, message] = row.columns();
        let build = match name {
            "nested" => nested,
            "numbers" => numbers,
            "structs" => structs,
            "first" => first,
            other => panic!("{}: nothing builds {other:?}", row.place),
        };
        let mut arena = Arena::new(Global).expect("there is memory");
        build(&mut arena).expect("there is memory");
        let written = arena.write_message().expect("there is memory");
        assert_bytes(row.place, &written, &message_of(&row.place, message));
    }
}
