//! No stack runs out on the levels of a message: each call on one that is far deeper than a walk goes answers.
#![forbid(unsafe_code)]

use riftcalico::any_pointer;
use riftcalico::memory::Global;
use riftcalico::message::{Builder, ElementSize, PointerBuilder, PointerReader, Reader, StructSize};
use riftcalico::{ErrorKind, Result};

/// The bytes of a thread's stack: far fewer than any system gives. Without optimizations each copy of a value has a place
/// of its own in a frame, which makes frames some times as large, so a debug build has what Rust gives to a thread.
const STACK: usize = if cfg!(debug_assertions) { 2 << 20 } else { 512 << 10 };

/// More layers than in any message that is meant.
const MANY: usize = 100_000;

const ONE_POINTER: StructSize = StructSize {
    data_words: 0,
    pointers: 1,
};

/// One more object at a pointer, and the pointer in it.
type Layer = for<'a> fn(PointerBuilder<'a>) -> Result<PointerBuilder<'a>>;

fn structure(at: PointerBuilder<'_>) -> Result<PointerBuilder<'_>> {
    Ok(at.init_struct(ONE_POINTER)?.get_pointer_field(0))
}

fn list(at: PointerBuilder<'_>) -> Result<PointerBuilder<'_>> {
    Ok(at.init_list(ElementSize::Pointer, 1)?.get_pointer_element(0))
}

fn structs(at: PointerBuilder<'_>) -> Result<PointerBuilder<'_>> {
    let list = at.init_struct_list(1, ONE_POINTER)?;
    Ok(list.get_struct_element(0).get_pointer_field(0))
}

/// Each kind of layer, and how many of them are gone down. What is behind a composite list is two levels below it.
const LAYERS: [(Layer, usize); 3] = [(structure, 129), (list, 129), (structs, 65)];

/// A message of so many layers. They are made in the order of the encoding, or out of it: then a layer that was replaced
/// lies before them.
fn built(layer: Layer, count: usize, in_order: bool) -> Result<Builder> {
    let mut message = Builder::new(Global)?;
    if !in_order {
        layer(message.root())?;
    }
    let mut at = message.root();
    for _ in 0..count {
        at = layer(at)?;
    }
    Ok(message)
}

/// Does what takes a stack of its own.
fn on_a_small_stack(work: fn() -> Result<()>) {
    let thread = std::thread::Builder::new().stack_size(STACK).spawn(work);
    let ended = thread.expect("a thread can be begun").join();
    ended.expect("no assertion failed").expect("there is memory");
}

/// The kind of a refusal.
fn kind<T>(answer: Result<T>) -> Option<ErrorKind> {
    answer.err().map(|error| error.kind)
}

/// What the calls on a message's own segment answer: the kind of each refusal.
fn segment_answers(message: &mut Builder) -> [Option<ErrorKind>; 4] {
    [
        kind(message.write_message()),
        kind(message.size_in_words()),
        kind(any_pointer::Builder::new(message.root()).target_size()),
        kind(message.compact()),
    ]
}

/// What the calls on a reader answer: its size, and copies of what it stands on.
fn reader_answers(reader: PointerReader<'_>) -> Result<[Option<ErrorKind>; 3]> {
    let mut copy = Builder::new(Global)?;
    let copied = kind(copy.root().copy_from(reader));
    Ok([kind(reader.total_size()), copied, kind(copy.set_root(reader))])
}

fn deepest_are_gone_down() -> Result<()> {
    for (layer, most) in LAYERS {
        for in_order in [true, false] {
            let mut message = built(layer, most, in_order)?;
            assert_eq!(reader_answers(message.as_reader())?, [None; 3]);
            let other = built(layer, most, true)?;
            assert!(message.as_reader().has_same_tree(&other.as_reader()));
            assert_eq!(segment_answers(&mut message), [None; 4]);
        }
    }
    Ok(())
}

fn deeper_are_refused(more: usize) -> Result<()> {
    for (layer, most) in LAYERS {
        for in_order in [true, false] {
            let mut message = built(layer, most + more, in_order)?;
            assert_eq!(segment_answers(&mut message), [Some(ErrorKind::OutOfMemory); 4]);
            let reader = message.as_reader();
            assert_eq!(reader_answers(reader)?, [Some(ErrorKind::TooDeep); 3]);
            let other = built(layer, most + more, true)?;
            reader.has_same_tree(&other.as_reader());
        }
    }
    Ok(())
}

#[test]
fn the_deepest_messages_are_gone_down() {
    on_a_small_stack(deepest_are_gone_down);
}

#[test]
fn messages_one_level_deeper_are_refused() {
    on_a_small_stack(|| deeper_are_refused(1));
}

#[test]
fn messages_that_are_far_deeper_are_refused() {
    on_a_small_stack(|| deeper_are_refused(MANY));
}

/// A struct of one word, the pointer to itself: no builder makes it, but what is received may have any words.
fn loops_are_cut_off() -> Result<()> {
    let itself: u64 = (1 << 48) | (((1 << 30) - 1) << 2);
    let words = itself.to_le_bytes();
    assert_eq!(
        reader_answers(PointerReader::from_words(&words))?,
        [Some(ErrorKind::TooDeep); 3]
    );
    let received = [[0, 0, 0, 0, 1, 0, 0, 0], words].concat();
    let root = Reader::new(Global, &received)?.get_root();
    assert_eq!(reader_answers(root)?, [Some(ErrorKind::TooDeep); 3]);
    Ok(())
}

#[test]
fn a_struct_that_points_to_itself_is_cut_off() {
    on_a_small_stack(loops_are_cut_off);
}
