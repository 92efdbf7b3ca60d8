//! Readers of words, which may stand on any: a struct that points to itself is gone down as far as was asked, and no further
//! than a stack bears.

use crate::capnp_arena::arena::Arena;
use crate::capnp_device::error::{ErrorKind, Result};
use crate::capnp_wire::PointerReader;
use crate::rattle_std::alloc::Global;

/// The bytes of a thread's stack, as in `stack.rs`.
const STACK: usize = if cfg!(debug_assertions) { 2 << 20 } else { 512 << 10 };

/// What a size and copies of what a reader stands on answer.
fn answers(reader: PointerReader<'_>) -> Result<[Option<ErrorKind>; 3]> {
    let mut copy = Arena::new(Global)?;
    let copied = copy.root().copy_from(reader).err();
    let set = copy.set_root(reader).err();
    let sized = reader.total_size().err();
    Ok([sized, copied, set].map(|error| error.map(|error| error.kind)))
}

fn loops_are_cut_off() -> Result<()> {
    let itself: u64 = (1 << 48) | (((1 << 30) - 1) << 2);
    let words = itself.to_le_bytes();
    for depth in [0, 1, 2, 65, 130, u8::MAX] {
        let reader = PointerReader::of_word(&words, 0, depth, 64);
        assert_eq!(answers(reader)?, [Some(ErrorKind::TooDeep); 3]);
    }
    let mut message = Arena::new(Global)?;
    message.root().set_data(&words)?;
    // the data begins at the second word
    assert_eq!(answers(message.peek(1))?, [Some(ErrorKind::TooDeep); 3]);
    Ok(())
}

#[test]
fn a_struct_that_points_to_itself_is_cut_off() {
    let thread = std::thread::Builder::new().stack_size(STACK).spawn(loops_are_cut_off);
    let ended = thread.expect("a thread can be begun").join();
    ended.expect("no assertion failed").expect("there is memory");
}
