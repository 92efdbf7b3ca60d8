//! Misuse of what is read: fields of other structs, indices past ends, numbers of no schema, pairs of two sets.

use super::came::Came;
use super::world::{belongs, index, World};
use crate::common::random::Random;
use riftcalico::compatible::{explain, explain_all, Compatible, Pair};
use riftcalico::device::{MemorySink, MemorySource};
use riftcalico::dynamic_value::Reader as Value;
use riftcalico::introspect::{RawBrandedStructSchema, RawEnumSchema, Type, TypeVariant};
use riftcalico::memory::Global;
use riftcalico::message::{PointerReader, PrimitiveElement};
use riftcalico::schema::{EnumSchema, GroupWalk, StructSchema};
use riftcalico::traits::{FromPointerReader, Index, IndexIter, ShortListIter};
use riftcalico::{any_pointer, data, diffs, dynamic_list, dynamic_struct, dynamic_value, serialize_packed, sets, text};

/// Makes one call, by a seed.
pub fn call(world: &World<'_>, random: &mut Random) -> Came {
    match random.below(15) {
        0..3 => read_field(world, random),
        3 => read_element(world, random),
        4 => list_of_schema(world, random),
        5 => downcast(world, random),
        6 => raw_schema(world, random),
        7 => of_type(world, random),
        8 => pair_of_schemas(world, random),
        9 => pair_of_structs(world, random),
        10 => walk(world, random),
        11 => iterate(world, random),
        12 => read_a_set(world, random),
        13 => sections(world, random),
        _ => device(random),
    }
}

/// Reads a field that may be of another struct.
fn read_field(world: &World<'_>, random: &mut Random) -> Came {
    let held = *random.one_of(&world.structs);
    let fields = held.get_schema().get_fields().expect("it is always answered");
    let own = fields.iter().nth(random.below(fields.len() as usize + 1));
    let field = match own {
        Some(field) if random.once_in(2) => field,
        _ => *random.one_of(&world.fields),
    };
    let came = match random.below(3) {
        0 => Came::of(held.get(field)),
        1 => Came::of(held.has(field)),
        _ => Came::if_there(held.is_active(field)),
    };
    if !belongs(field, held.get_schema()) {
        let is_refused = matches!(
            came,
            Came::Nothing | Came::Refused(riftcalico::ErrorKind::FieldNotFound)
        );
        assert!(is_refused, "a field of another struct: {came:?}");
    }
    came
}

/// Reads an element, which past the end is zero, false, null or empty.
fn read_element(world: &World<'_>, random: &mut Random) -> Came {
    let list = *random.one_of(&world.lists);
    let at = index(random, list.len());
    match list.get(at) {
        Ok(Value::Text(text)) if at >= list.len() => Came::if_there(!text.is_empty()),
        Ok(Value::List(inner)) if at >= list.len() => Came::if_there(!inner.is_empty()),
        answer => Came::of(answer),
    }
}

/// Takes an entry of a list of a schema.
fn list_of_schema(world: &World<'_>, random: &mut Random) -> Came {
    let schema = *random.one_of(&world.schemas);
    let fields = schema.get_fields().expect("it is always answered");
    let members = schema.get_union_fields().expect("it is always answered");
    let others = schema.get_non_union_fields().expect("it is always answered");
    let notes = schema.get_annotations().expect("it is always answered");
    let set = *random.one_of(&world.sets);
    let enumeration = set.enum_schema(index(random, set.enums().len() as u32));
    let enumerants = enumeration.get_enumerants().expect("it is always answered");
    let short = |random: &mut Random, count: u16| index(random, u32::from(count)) as u16;
    match random.below(5) {
        0 => drop(fields.get(short(random, fields.len()))),
        1 => drop(members.get(short(random, members.len()))),
        2 => drop(others.get(short(random, others.len()))),
        3 => drop(notes.get(index(random, notes.len())).get_id()),
        _ => drop(enumerants.get(short(random, enumerants.len()))),
    }
    Came::Done
}

/// Takes a value as a type that it may not be of.
fn downcast(world: &World<'_>, random: &mut Random) -> Came {
    let value = *random.one_of(&world.values);
    match random.below(9) {
        0 => value.downcast::<()>(),
        1 => drop(value.downcast::<bool>()),
        2 => drop(value.downcast::<u16>()),
        3 => drop(value.downcast::<i64>()),
        4 => drop(value.downcast::<text::Reader<'_>>()),
        5 => drop(value.downcast::<data::Reader<'_>>()),
        6 => drop(value.downcast::<dynamic_struct::Reader<'_>>()),
        7 => drop(value.downcast::<dynamic_list::Reader<'_>>()),
        _ => drop(value.downcast::<dynamic_value::Enum<'_>>().get_value()),
    }
    Came::Done
}

/// Makes a schema of numbers that a set may not have.
fn raw_schema(world: &World<'_>, random: &mut Random) -> Came {
    let set = *random.one_of(&world.sets);
    if random.once_in(2) {
        let number = index(random, set.enums().len() as u32);
        return Came::of(EnumSchema::new(set, RawEnumSchema { number }).get_enumerants());
    }
    let number = index(random, set.brands().len() as u32);
    let right = RawBrandedStructSchema::from(set.struct_schema(number)).generic;
    let generic = if random.once_in(3) { random.next() as u32 } else { right };
    Came::of(StructSchema::new(set, RawBrandedStructSchema { number, generic }).get_fields())
}

/// A type, of a set or of none.
pub fn any_type(world: &World<'_>, random: &mut Random) -> Type {
    let made = match random.below(4) {
        0 => TypeVariant::Struct(RawBrandedStructSchema {
            number: random.next() as u32,
            generic: 0,
        }),
        1 => TypeVariant::Enum(RawEnumSchema {
            number: random.next() as u32,
        }),
        2 => TypeVariant::UInt32,
        _ => return random.one_of(&world.fields).get_type(),
    };
    match random.below(3) {
        0 => Type::from(TypeVariant::List(Type::from(made))),
        _ => Type::from(made),
    }
}

/// Reads a default, or a list, under a type that may be another.
fn of_type(world: &World<'_>, random: &mut Random) -> Came {
    let set = *random.one_of(&world.sets);
    let other = any_type(world, random);
    if random.once_in(2) {
        let default = random.one_of(&world.fields).get_default();
        return Came::of(Value::new(set, default, other));
    }
    let list = random.one_of(&world.lists).get_elements();
    let read = dynamic_list::Reader::new(list, other, set);
    Came::of(read.get(index(random, read.len())))
}

/// Compares two schemas, which may be of two sets.
fn pair_of_schemas(world: &World<'_>, random: &mut Random) -> Came {
    let (older, newer) = (*random.one_of(&world.schemas), *random.one_of(&world.schemas));
    let set = older.get_set();
    match random.below(3) {
        0 => Came::of(Compatible::check(Global, older, newer).map(|found| found.is_some())),
        1 => Came::of(explain(Global, older, newer)),
        _ => {
            let count = set.brands().len() as u32;
            let pair = Pair {
                older: index(random, count),
                newer: index(random, count),
            };
            Came::of(explain_all(Global, set, &[pair]))
        }
    }
}

/// Compares two structs, or reads one under a pair that it may not be of.
fn pair_of_structs(world: &World<'_>, random: &mut Random) -> Came {
    let (old, new) = (*random.one_of(&world.structs), *random.one_of(&world.structs));
    if random.once_in(2) {
        return Came::of(diffs::find_changes(Global, old, new));
    }
    let schema = old.get_schema();
    let pair = Compatible::check(Global, schema, schema).expect("there is memory");
    let pair = pair.expect("a schema follows itself");
    let read = if random.once_in(2) {
        pair.narrow(new)
    } else {
        pair.widen(new)
    };
    assert_eq!(read.get_schema(), schema);
    Came::Done
}

/// Goes on in a walk through groups.
fn walk(world: &World<'_>, random: &mut Random) -> Came {
    let mut walk = GroupWalk::start(*random.one_of(&world.schemas));
    for _ in 0..random.below(4) {
        walk = match walk.get_field() {
            Some(field) => match field.get_group() {
                Some(group) if random.once_in(2) => walk.enter(group),
                _ => walk.advance(),
            },
            None => break,
        };
    }
    let next = match random.below(3) {
        0 => walk.enter(*random.one_of(&world.schemas)),
        1 => walk.advance(),
        _ => match walk.leave() {
            Some(next) => next,
            None => return Came::Nothing,
        },
    };
    Came::if_there(next.get_field().is_some())
}

/// Iterates over more than there is.
fn iterate(world: &World<'_>, random: &mut Random) -> Came {
    let fields = random
        .one_of(&world.schemas)
        .get_fields()
        .expect("it is always answered");
    let list = *random.one_of(&world.lists);
    match random.below(3) {
        0 => {
            let size = fields.len() + random.below(3) as u16;
            Came::if_there(ShortListIter::new(fields, size).last().is_some())
        }
        1 => {
            let mut items = IndexIter::new(list, index(random, list.len()));
            Came::if_there(items.nth(random.below(4)).is_some() || items.next_back().is_some())
        }
        _ => Came::if_there(u16::from_number(index(random, 70_000)) > 0),
    }
}

/// Reads a set from a record that may be of another set.
fn read_a_set(world: &World<'_>, random: &mut Random) -> Came {
    let held = *random.one_of(&world.structs);
    match random.below(2) {
        0 => Came::of(sets::read_set(Global, held)),
        _ => Came::of(sets::read_schema_set(Global, held)),
    }
}

/// Reads and writes numbers in bytes of the caller's own, and packs bytes that may be no words.
pub fn of_bytes(random: &mut Random) -> Came {
    let mut bytes = vec![7; random.below(40)];
    let at = index(random, bytes.len() as u32 / 4);
    match random.below(5) {
        0 => drop(u32::read_inside(&bytes, at as usize)),
        1 => u32::write(&mut bytes, at, 1),
        2 => i64::write_masked(&mut bytes, at, 1, 2),
        3 => drop(u8::read_inside(&bytes, usize::MAX - at as usize)),
        _ => return Came::of(serialize_packed::pack(Global, &bytes)),
    }
    Came::Done
}

/// Reads sections past their ends, and gives an untyped pointer a default.
fn sections(world: &World<'_>, random: &mut Random) -> Came {
    let held = random.one_of(&world.structs).get_sections();
    let at = index(random, 70_000);
    let pointer = held.get_pointer_field(at as u16);
    match random.below(4) {
        0 => Came::if_there(held.get_data_field::<u32>(at) > 0),
        1 => Came::if_there(held.get_bool_field(at)),
        2 => Came::of(pointer.get_struct()),
        _ => {
            let default = random.once_in(2).then(|| PointerReader::from_words(&[0; 8]));
            Came::of(any_pointer::Reader::get_from_pointer(&pointer, default))
        }
    }
}

/// Makes a device of parts without a size.
fn device(random: &mut Random) -> Came {
    let chunk = random.below(3);
    match random.below(2) {
        0 => drop(MemorySource::new(&[1, 2], chunk, None)),
        _ => drop(MemorySink::new(Global, chunk, None)),
    }
    Came::Done
}
