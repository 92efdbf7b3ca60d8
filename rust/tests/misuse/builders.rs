//! Misuse of values that are built under schemas.

use super::came::Came;
use super::world::{belongs, index, is_foreign, World};
use crate::common::random::Random;
use riftcalico::dynamic_value::{Builder, Reader as Value};
use riftcalico::introspect::{Introspect, Type, TypeVariant};
use riftcalico::message::{self, StructBuilder, StructReader, StructSize};
use riftcalico::printer::to_string;
use riftcalico::schema::{Field, StructSchema};
use riftcalico::traits::{HasStructSize, IntoInternalStructReader, OwnedStruct, SetterInput};
use riftcalico::{any_pointer, data, dynamic_list, dynamic_struct, text, ErrorKind, Result};

/// A step to a part that is there.
#[derive(Clone, Copy)]
pub enum Step<'w> {
    Field(Field<'w>),
    Element(u32),
}

/// A way to a part of a message's root that is there, of at most three steps.
pub fn way<'w>(message: &message::Builder, schema: StructSchema<'w>, random: &mut Random) -> Vec<Step<'w>> {
    let root = message.as_reader().get_struct().expect("the root is a struct");
    let mut at = Value::Struct(dynamic_struct::Reader::new(root, schema));
    let mut of = schema;
    let mut way = Vec::new();
    for _ in 0..random.below(4) {
        let next = match at {
            Value::Struct(held) => {
                let fields = of.get_fields().expect("it is always answered");
                let field = fields.iter().nth(random.below(fields.len() as usize + 1));
                let Some(field) = field.filter(|field| held.has(*field) == Ok(true)) else {
                    break;
                };
                way.push(Step::Field(field));
                held.get(field)
            }
            Value::List(list) if !list.is_empty() => {
                let element = random.below(list.len() as usize) as u32;
                way.push(Step::Element(element));
                list.get(element)
            }
            _ => break,
        };
        let Ok(next) = next else {
            break;
        };
        if let Value::Struct(held) = next {
            // the same schema, for as long as the world is there
            let number = riftcalico::introspect::RawBrandedStructSchema::from(held.get_schema()).number;
            of = schema.get_set().struct_schema(number);
        }
        at = next;
    }
    way
}

/// The part at a way, to be written. What is smaller than its schema is extended.
pub fn part<'a>(message: &'a mut message::Builder, schema: StructSchema<'a>, way: &[Step<'a>]) -> Result<Builder<'a>> {
    let mut at = Builder::Struct(dynamic_struct::Builder::open(message.root(), schema)?);
    for step in way {
        at = match (at, step) {
            (Builder::Struct(held), Step::Field(field)) => held.get(*field)?,
            (Builder::List(list), Step::Element(element)) => list.get(*element)?,
            (at, _) => at,
        };
    }
    Ok(at)
}

/// Makes one call on a part, by a seed.
pub fn call<'w>(world: &'w World<'w>, random: &mut Random, part: Builder<'w>) -> Came {
    match part {
        Builder::Struct(held) => on_struct(world, random, held),
        Builder::List(list) => on_list(world, random, list),
        Builder::Text(held) => on_text(random, held),
        Builder::Data(held) => on_data(random, held),
        Builder::AnyPointer(held) => on_untyped(world, random, held),
        number => Came::if_there(!matches!(number.into_reader(), Value::Void)),
    }
}

/// A field of the struct, or of any.
fn field<'w>(world: &World<'w>, random: &mut Random, schema: StructSchema<'w>) -> Field<'w> {
    let fields = schema.get_fields().expect("it is always answered");
    let own = fields.iter().nth(random.below(fields.len() as usize + 1));
    match own {
        Some(field) if random.below(3) > 0 => field,
        _ => *random.one_of(&world.fields),
    }
}

/// A size: small, larger than the message may be, or past the format's limits.
pub fn size(random: &mut Random) -> u32 {
    *random.one_of(&[0, 1, 3, 9, 200_000, (1 << 29) - 1, 1 << 29, u32::MAX])
}

fn on_struct<'w>(world: &'w World<'w>, random: &mut Random, mut held: dynamic_struct::Builder<'w>) -> Came {
    let schema = held.get_schema();
    let field = field(world, random, schema);
    let is_inactive = belongs(field, schema) && !is_active(&held, field);
    let came = match random.below(12) {
        0..3 => set(world, random, held, field),
        3..5 => Came::of(held.get(field)),
        5 => Came::of(held.has(field)),
        6 => Came::of(held.init(field)),
        7 => Came::of(held.initn(field, size(random))),
        8 => Came::of(held.clear(field)),
        9 => set_from_text(random, held, field),
        10 => by_name(world, random, held, field),
        _ => downcast(random, held),
    };
    if !belongs(field, schema) && came == Came::Refused(ErrorKind::FieldNotFound) {
        return came;
    }
    match came {
        // a get asks no union
        Came::Done if is_inactive => Came::Loose,
        _ => came,
    }
}

fn is_active(held: &dynamic_struct::Builder<'_>, field: Field<'_>) -> bool {
    let active = held.which().expect("it is always answered");
    !field.get_proto().is_member() || active.is_some_and(|active| active == field)
}

fn set<'w>(world: &World<'w>, random: &mut Random, mut held: dynamic_struct::Builder<'w>, field: Field<'w>) -> Came {
    let schema = held.get_schema();
    let value = world.value_for(field, random);
    let came = Came::of(held.set(field, value));
    if !belongs(field, schema) {
        assert_eq!(came, Came::Refused(ErrorKind::FieldNotFound));
        return came;
    }
    let is_untyped = matches!(field.get_type().which(), TypeVariant::AnyPointer);
    if is_foreign(schema.get_set(), value) && !is_untyped {
        assert_eq!(came, Came::Refused(ErrorKind::TypeMismatch));
        return came;
    }
    match came {
        // a group is left with what was copied before
        Came::Refused(ErrorKind::CannotSetAnyPointerFieldToAPrimitiveValue) if field.get_group().is_some() => {
            Came::Loose
        }
        _ => came,
    }
}

fn set_from_text<'w>(random: &mut Random, mut held: dynamic_struct::Builder<'w>, field: Field<'w>) -> Came {
    let text = *random.one_of(&[
        "5",
        "true",
        "\"a\"",
        "a",
        "[1, 2]",
        "(",
        "()",
        "{\"id\": 3}",
        "null",
        "",
    ]);
    match held.set_from_text(field, text) {
        Ok(Ok(())) => Came::Done,
        Ok(Err(_)) => Came::Nothing,
        Err(error) => Came::Refused(error.kind),
    }
}

fn by_name<'w>(
    world: &World<'w>,
    random: &mut Random,
    mut held: dynamic_struct::Builder<'w>,
    field: Field<'w>,
) -> Came {
    let name = field.get_proto().name.as_str();
    let own = held
        .get_schema()
        .find_field_by_name(name)
        .expect("it is always answered");
    let is_inactive = own.is_some_and(|own| !is_active(&held, own));
    let came = match random.below(5) {
        0 => match own {
            Some(own) => return set(world, random, held, own),
            None => Came::of(held.set_named(name, world.value(random))),
        },
        1 => Came::of(held.get_named(name)),
        2 => Came::of(held.init_named(name)),
        3 => Came::of(held.initn_named(name, size(random))),
        _ => Came::of(held.clear_named(name)),
    };
    match came {
        Came::Done if is_inactive => Came::Loose,
        _ => came,
    }
}

/// A handle of a struct type that no schema has.
struct Other;

/// What it is read and built by.
struct OtherReader<'a>(StructReader<'a>);
struct OtherBuilder;

impl Introspect for Other {
    fn introspect() -> Type {
        Type::from(TypeVariant::Bool)
    }
}

impl<'a> OwnedStruct<'a> for Other {
    type Reader = OtherReader<'a>;
    type Builder = OtherBuilder;
}

impl<'a> From<StructReader<'a>> for OtherReader<'a> {
    fn from(reader: StructReader<'a>) -> Self {
        OtherReader(reader)
    }
}

impl<'a> IntoInternalStructReader<'a> for OtherReader<'a> {
    fn into_internal_struct_reader(self) -> StructReader<'a> {
        self.0
    }
}

impl SetterInput<Other> for OtherReader<'_> {
    fn set_pointer_builder(mut builder: message::PointerBuilder<'_>, input: Self, _: bool) -> Result<()> {
        builder.set_struct(&input.0)
    }
}

impl From<StructBuilder<'_>> for OtherBuilder {
    fn from(_: StructBuilder<'_>) -> Self {
        OtherBuilder
    }
}

impl HasStructSize for OtherBuilder {
    const STRUCT_SIZE: StructSize = StructSize {
        data_words: 0,
        pointers: 0,
    };
}

/// Takes a struct as what it isn't.
fn downcast(random: &mut Random, held: dynamic_struct::Builder<'_>) -> Came {
    match random.below(4) {
        0 => drop(held.downcast::<Other>()),
        1 => drop(Builder::Struct(held).downcast::<dynamic_list::Builder<'_>>()),
        2 => drop(Builder::Struct(held).downcast::<text::Builder<'_>>()),
        _ => drop(Builder::from(held).downcast_struct::<Other>()),
    }
    Came::Done
}

fn on_list<'w>(world: &World<'w>, random: &mut Random, mut list: dynamic_list::Builder<'w>) -> Came {
    let at = index(random, list.len());
    let is_past = at >= list.len();
    let came = match random.below(4) {
        0 => Came::of(list.get(at)),
        1 => Came::of(list.init(at, size(random))),
        2 => Came::of(Builder::List(list).downcast::<dynamic_list::Builder<'_>>().get(at)),
        _ => match value_in(world, random, &list) {
            Some(value) => Came::of(list.set(at, value)),
            None => return Came::Nothing,
        },
    };
    assert!(
        !is_past || came == Came::Refused(ErrorKind::NoSuchElement),
        "past the end: {came:?}"
    );
    came
}

/// A value for an element: a list is of the element's own type, which no set of one asks.
fn value_in<'w>(world: &World<'w>, random: &mut Random, list: &dynamic_list::Builder<'w>) -> Option<Value<'w>> {
    let value = world.value(random);
    match (list.element_type().which(), value) {
        (TypeVariant::List(element), Value::List(held)) => (element == held.element_type()).then_some(value),
        _ => Some(value),
    }
}

pub fn on_text(random: &mut Random, mut held: text::Builder<'_>) -> Came {
    match random.below(6) {
        0 => held.push_ascii(random.next() as u8),
        1 => held.push_str(*random.one_of(&["", "a", "abcd", "a text that is longer than any here, by far"])),
        2 => held.clear(),
        3 => return Came::if_there(held.room() > 0),
        4 => return Came::if_there(held.eq_str("a")),
        _ => return Came::if_there(held.len() > 0 && held.to_str().is_ok()),
    }
    Came::Done
}

pub fn on_data(random: &mut Random, mut held: data::Builder<'_>) -> Came {
    match random.below(2) {
        0 => held.set(random.below(40).wrapping_sub(random.below(3)), 9),
        _ => return Came::if_there(!held.reborrow_as_reader().is_empty()),
    }
    Came::Done
}

pub fn on_untyped(world: &World<'_>, random: &mut Random, mut held: any_pointer::Builder<'_>) -> Came {
    match random.below(8) {
        0 => Came::of(held.set_as::<any_pointer::Owned, _>(*random.one_of(&world.structs))),
        1 => Came::of(held.set_as::<any_pointer::Owned, _>(*random.one_of(&world.lists))),
        2 => Came::of(held.set_as::<text::Owned, _>("abc")),
        3 => Came::of(held.get_as::<text::Builder<'_>>()),
        4 => Came::of(held.get_as::<data::Builder<'_>>()),
        5 => Came::of(held.initn_as::<text::Builder<'_>>(size(random))),
        6 => Came::of(held.initn_as::<data::Builder<'_>>(size(random))),
        _ => Came::of(held.target_size()),
    }
}

/// How the elements print that stand beside the one that a way goes through first: these no call on it writes.
pub fn beside(message: &message::Builder, schema: StructSchema<'_>, way: &[Step<'_>]) -> Vec<String> {
    let root = message.as_reader().get_struct().expect("the root is a struct");
    let mut at = Value::Struct(dynamic_struct::Reader::new(root, schema));
    for step in way {
        match (at, step) {
            (Value::Struct(held), Step::Field(field)) => {
                at = held.get_named(&field.get_proto().name).expect("it was there");
            }
            (Value::List(list), Step::Element(taken)) => {
                let others = (0..list.len()).filter(|element| element != taken);
                let print = |element| to_string(list.get(element).expect("it was there"), false);
                return others
                    .map(|element| print(element).expect("it printed before"))
                    .collect();
            }
            _ => break,
        }
    }
    Vec::new()
}
