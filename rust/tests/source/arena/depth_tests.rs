//! Messages that are as deep as a walk goes, and one level deeper.

use super::{new_message, size};
use crate::capnp_arena::message::Builder;
use crate::capnp_wire::error::ErrorKind::{self, OutOfMemory, TooDeep};
use crate::capnp_wire::error::Result;

/// A struct whose pointer leads to a copy of another message's root. If it isn't in order, it replaces a text, whose
/// words are still before it in the segment.
fn wrap(inner: &Builder, is_in_order: bool) -> Result<Builder> {
    let mut outer = new_message();
    if !is_in_order {
        outer.root().set_text(b"replaced")?;
    }
    let fields = outer.root().init_struct(size(0, 1))?;
    fields.get_pointer_field(0).copy_from(inner.as_reader())?;
    Ok(outer)
}

/// So many structs, each behind the one before.
fn nest(count: u32, is_in_order: bool) -> Builder {
    (0..count).fold(new_message(), |inner, _| {
        wrap(&inner, is_in_order).expect("a copy has room for each level")
    })
}

/// Why so many structs are not written, copied or made anew.
fn refusals(count: u32, is_in_order: bool) -> [Option<ErrorKind>; 3] {
    let mut message = nest(count, is_in_order);
    let written = message.write_message().map(|_| ());
    let copied = new_message().root().copy_from(message.as_reader());
    let compacted = message.compact();
    [written, copied, compacted].map(|made| made.err().map(|error| error.kind))
}

#[test]
fn a_message_of_64_levels_is_shallow() {
    assert!(nest(64, true).is_shallow());
    assert!(!nest(65, true).is_shallow());
}

#[test]
fn the_deepest_message_is_gone_down() {
    for is_in_order in [true, false] {
        assert_eq!(refusals(129, is_in_order), [None, None, None]);
    }
    let message = nest(129, true);
    assert_eq!(message.size_in_words(), Ok(130));
    assert_eq!(message.target_size(0).map(|size| size.word_count), Ok(129));
}

#[test]
fn a_deeper_message_is_refused() {
    for is_in_order in [true, false] {
        let wanted = [OutOfMemory, TooDeep, OutOfMemory].map(Some);
        assert_eq!(refusals(130, is_in_order), wanted);
    }
    let words = nest(130, true).size_in_words();
    assert_eq!(words.map_err(|error| error.kind), Err(OutOfMemory));
}
