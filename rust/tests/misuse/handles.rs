//! Misuse of handles of a message whose schema nobody gives: numbers outside a struct, elements outside a list, sizes that
//! lists don't have.

use super::builders::{on_data, on_text, on_untyped, size};
use super::came::Came;
use super::world::{index, World, LIMIT};
use crate::common::random::Random;
use riftcalico::memory::Global;
use riftcalico::message::{
    Builder, ElementSize, ListBuilder, PointerBuilder, PointerReader, StructBuilder, StructReader, StructSize,
};
use riftcalico::traits::{FromPointerBuilder, SetterInput};
use riftcalico::{any_pointer, data, dynamic_struct, text, Result};

const ROOT: StructSize = StructSize {
    data_words: 2,
    pointers: 7,
};

const ELEMENT: StructSize = StructSize {
    data_words: 1,
    pointers: 1,
};

const SIZES: [ElementSize; 8] = [
    ElementSize::Void,
    ElementSize::Bit,
    ElementSize::Byte,
    ElementSize::TwoBytes,
    ElementSize::FourBytes,
    ElementSize::EightBytes,
    ElementSize::Pointer,
    ElementSize::InlineComposite,
];

/// A message whose root has a pointer of each kind, the last of them null.
pub fn message() -> Result<Builder> {
    let mut message = Builder::with_limit(Global, LIMIT)?;
    let mut root = message.root().init_struct(ROOT)?;
    root.set_data_field(0, 0x0102_0304_0506_0708u64);
    root.pointer_field_mut(0).set_text(b"hello")?;
    root.pointer_field_mut(1).set_data(&[1, 2, 3])?;
    let mut numbers = root.pointer_field_mut(2).init_list(ElementSize::TwoBytes, 5)?;
    numbers.set_data_element(4, 9u16);
    let mut structs = root.pointer_field_mut(3).init_struct_list(3, ELEMENT)?;
    structs.struct_element_mut(1).pointer_field_mut(0).set_text(b"one")?;
    root.pointer_field_mut(4).init_list(ElementSize::Pointer, 2)?;
    root.pointer_field_mut(5).init_list(ElementSize::Bit, 9)?;
    Ok(message)
}

/// What a call may have written: the root's data, or what is behind one of its pointers.
#[derive(Clone, Copy, Debug, PartialEq, Eq)]
pub enum Part {
    Data,
    Pointer(u16),
    /// All of it.
    Root,
}

/// Makes one call, by a seed.
pub fn call<'w>(world: &'w World<'w>, random: &mut Random, message: &'w mut Builder) -> (Came, Part) {
    if random.below(8) == 0 {
        return (on_root(world, random, message.root()), Part::Root);
    }
    let mut root = message.root().get_struct(ROOT).expect("it is a struct of that size");
    let kind = random.below(6);
    if kind == 0 {
        return (on_data_section(random, &mut root), Part::Data);
    }
    let at = random.below(ROOT.pointers.into()) as u16;
    let pointer = root.get_pointer_field(at);
    let came = match kind {
        1 => on_pointer(world, random, pointer),
        2 => on_init(random, pointer),
        3 => on_list(world, random, pointer),
        4 => on_blob(random, pointer),
        _ => on_other(world, random, pointer),
    };
    (came, Part::Pointer(at))
}

/// Reads and writes the root's data and pointers, within and past their ends.
fn on_data_section(random: &mut Random, root: &mut StructBuilder<'_>) -> Came {
    let at = index(random, 16);
    match random.below(8) {
        0 => root.set_data_field(at, random.next()),
        1 => root.set_data_field(at, random.next() as u16),
        2 => root.set_data_field_mask(at, random.next() as i32, 5),
        3 => root.set_bool_field(at.saturating_mul(9), true),
        4 => root.set_bool_field_mask(at.saturating_mul(9), true, true),
        5 => drop(root.pointer_field(at as u16).is_null()),
        6 => drop(root.pointer_field_mut(at as u16).is_null()),
        _ => return Came::if_there(root.get_data_field::<u64>(at) > 0),
    }
    Came::Done
}

fn any_size(random: &mut Random) -> StructSize {
    StructSize {
        data_words: *random.one_of(&[0, 1, 2, 300, u16::MAX]),
        pointers: *random.one_of(&[0, 1, 5, u16::MAX]),
    }
}

fn reader<'w>(world: &World<'w>, random: &mut Random) -> StructReader<'w> {
    random.one_of(&world.structs).get_sections()
}

/// Reads what stands at a pointer, or sets it.
fn on_pointer(world: &World<'_>, random: &mut Random, mut pointer: PointerBuilder<'_>) -> Came {
    let elements = random.one_of(&world.lists).get_elements();
    let sections = reader(world, random);
    match random.below(11) {
        0 => Came::of(pointer.get_struct(any_size(random))),
        1 => Came::of(pointer.get_struct_list(any_size(random))),
        2 => Came::of(pointer.get_list(*random.one_of(&SIZES))),
        3 => Came::of(pointer.set_text(b"a text")),
        4 => Came::of(pointer.set_data(&[])),
        5 => Came::of(pointer.set_struct(&sections)),
        6 => Came::of(pointer.set_list(&elements)),
        7 => Came::of(pointer.copy_from(sections.get_pointer_field(0))),
        8 => Came::of(pointer.get_list_or_default(*random.one_of(&SIZES), Some(sections.get_pointer_field(1)))),
        9 => Came::of(pointer.get_struct_or_default(any_size(random), Some(sections.get_pointer_field(0)))),
        _ => {
            pointer.clear();
            Came::Done
        }
    }
}

/// Replaces what stands at a pointer.
fn on_init(random: &mut Random, pointer: PointerBuilder<'_>) -> Came {
    let count = size(random);
    match random.below(5) {
        0 => Came::of(pointer.init_struct(any_size(random))),
        1 => Came::of(pointer.init_list(*random.one_of(&SIZES), count)),
        2 => Came::of(pointer.init_struct_list(count, any_size(random))),
        3 => Came::of(pointer.init_text(count).map(|blob| blob.into_bytes().fill(b'a'))),
        _ => Came::of(pointer.init_data(count).map(|blob| blob.into_bytes().fill(0))),
    }
}

/// Takes an element of a list, or writes it.
fn on_list(world: &World<'_>, random: &mut Random, pointer: PointerBuilder<'_>) -> Came {
    let list = if random.once_in(3) {
        pointer.get_struct_list(ELEMENT)
    } else {
        pointer.get_list(*random.one_of(&SIZES[..7]))
    };
    let list = match list {
        Ok(list) => list,
        Err(error) => return Came::Refused(error.kind),
    };
    // what is smaller has been extended by now, whatever comes of the call
    match on_element(world, random, list) {
        Came::Refused(_) => Came::Done,
        came => came,
    }
}

fn on_element(world: &World<'_>, random: &mut Random, mut list: ListBuilder<'_>) -> Came {
    let at = index(random, list.len());
    match random.below(9) {
        0 => list.set_bool_element(at, true),
        1 => list.set_data_element(at, 7u8),
        2 => list.set_data_element(at, 7u16),
        3 => list.set_data_element(at, 7i64),
        4 => list.struct_element_mut(at).set_data_field(0, 7u32),
        5 => list.get_struct_element(at).set_bool_field(63, true),
        6 => return Came::of(list.pointer_element_mut(at).set_text(b"an element")),
        7 => return Came::of(list.get_pointer_element(at).set_struct(&reader(world, random))),
        _ => return Came::if_there(list.get_data_element::<u32>(at) > 0 || list.get_bool_element(at)),
    }
    Came::Done
}

/// Takes a pointer as a text or data, which it may not be.
fn on_blob(random: &mut Random, mut pointer: PointerBuilder<'_>) -> Came {
    match random.below(6) {
        0 => on_text(random, text::Builder::new(pointer)),
        1 => {
            let place = random.below(9);
            on_text(random, text::Builder::with_pos(pointer, place))
        }
        2 => on_data(random, data::Builder::new(pointer)),
        3 => Came::of(pointer.get_text_mut().map(|blob| blob.into_bytes().fill(b'b'))),
        4 => Came::of(pointer.get_data_mut().map(|blob| blob.into_bytes().fill(8))),
        _ => {
            let asks = random.once_in(2);
            Came::of(<&str>::set_pointer_builder(pointer.reborrow(), "abc", asks))
        }
    }
}

/// Takes a pointer as a value of a schema, or of no type.
fn on_other<'w>(world: &'w World<'w>, random: &mut Random, pointer: PointerBuilder<'w>) -> Came {
    let default = random.once_in(2).then(|| PointerReader::from_words(&[0; 8]));
    match random.below(4) {
        0 => Came::of(dynamic_struct::Builder::open(pointer, *random.one_of(&world.schemas))),
        1 => Came::of(any_pointer::Builder::get_from_pointer(pointer, default)),
        2 => Came::of(text::Builder::get_from_pointer(pointer, default)),
        _ => on_untyped(world, random, any_pointer::Builder::new(pointer)),
    }
}

/// Takes the root as a struct of a schema.
fn on_root<'w>(world: &'w World<'w>, random: &mut Random, root: PointerBuilder<'w>) -> Came {
    let schema = *random.one_of(&world.schemas);
    let mut sections = root.get_struct(ROOT).expect("it is a struct of that size");
    if random.once_in(2) {
        return Came::of(sections.copy_content_from(&reader(world, random)));
    }
    let built = dynamic_struct::Builder::new(sections, schema);
    Came::if_there(built.which().expect("it is always answered").is_some())
}

/// What a call on one part leaves as it was.
pub fn is_kept(part: Part, before: &Builder, after: &Builder) -> bool {
    if part == Part::Root {
        return true;
    }
    let read = |message: PointerReader<'_>| message.get_struct().is_ok();
    let (old, new) = (before.as_reader(), after.as_reader());
    if !read(old) || !read(new) {
        return false;
    }
    let (Ok(old), Ok(new)) = (old.get_struct(), new.get_struct()) else {
        return false;
    };
    let same = |at: u16| old.get_pointer_field(at).has_same_tree(&new.get_pointer_field(at));
    let others = (0..ROOT.pointers).filter(|at| part != Part::Pointer(*at));
    let is_data_kept = part == Part::Data || old.get_data_section() == new.get_data_section();
    is_data_kept && { others }.all(same)
}
