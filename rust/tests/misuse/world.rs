//! What calls are misused with: schemas, fields, values and messages of two copies of each set of the examples.

use crate::common::bases::Examples;
use crate::common::random::Random;
use riftcalico::dynamic_value::Reader as Value;
use riftcalico::introspect::TypeVariant;
use riftcalico::memory::Global;
use riftcalico::message::{self, read_root};
use riftcalico::printer::to_string;
use riftcalico::schema::{Field, SchemaSet, StructSchema};
use riftcalico::{dynamic_list, dynamic_struct};

/// The most values that are taken of a message.
const MOST_VALUES: usize = 150;

/// The largest message that is copied for a call.
const MOST_BYTES: usize = 4_096;

/// The words that a message may have that is written: calls that would make more are refused.
pub const LIMIT: usize = 20_000;

/// A message, and the schema of its root.
#[derive(Clone, Copy)]
pub struct Root<'w> {
    pub bytes: &'w [u8],
    pub schema: StructSchema<'w>,
}

impl Root<'_> {
    /// A copy of the message, to be written.
    pub fn copy(&self) -> message::Builder {
        let mut copy = message::Builder::with_limit(Global, LIMIT).expect("there is memory");
        let read = message::Reader::new(Global, self.bytes).expect("the message is whole");
        copy.set_root(read.get_root()).expect("the message is sound");
        copy
    }
}

/// What calls are given.
pub struct World<'w> {
    pub sets: Vec<&'w SchemaSet>,
    /// Messages of which each prints.
    pub roots: Vec<Root<'w>>,
    /// Of all sets, those past their ends too.
    pub schemas: Vec<StructSchema<'w>>,
    pub fields: Vec<Field<'w>>,
    pub values: Vec<Value<'w>>,
    pub structs: Vec<dynamic_struct::Reader<'w>>,
    pub lists: Vec<dynamic_list::Reader<'w>>,
}

impl<'w> World<'w> {
    /// What there is in two readings of the examples.
    pub fn of(readings: &'w [Examples; 2]) -> World<'w> {
        let mut world = World {
            sets: Vec::new(),
            roots: Vec::new(),
            schemas: Vec::new(),
            fields: Vec::new(),
            values: Vec::new(),
            structs: Vec::new(),
            lists: Vec::new(),
        };
        for examples in readings {
            for set in &examples.sets {
                world.sets.push(set);
                world.add_set(set);
            }
            for base in &examples.bases {
                let set = &examples.sets[base.set];
                world.add_message(&base.bytes, set.find_struct(base.name).expect("the set has it"));
            }
        }
        world
    }

    fn add_set(&mut self, set: &'w SchemaSet) {
        let count = u32::try_from(set.brands().len()).expect("an example's set is small");
        for number in (0..count).chain([count, count + 1, u32::MAX]) {
            let schema = set.struct_schema(number);
            self.schemas.push(schema);
            self.fields.extend(schema.get_fields().expect("it is always answered"));
        }
    }

    fn add_message(&mut self, bytes: &'w [u8], schema: StructSchema<'w>) {
        let root = read_root(bytes, schema).expect("an example has a root");
        let first = self.values.len();
        self.add_values(Value::Struct(root), first + MOST_VALUES);
        // a null of a type that holds itself is read without an end
        let is_endless = schema.get_proto().display_name.as_str() == "Loop";
        if bytes.len() <= MOST_BYTES && !is_endless && to_string(root.into(), false).is_ok() {
            self.roots.push(Root { bytes, schema });
        }
    }

    fn add_values(&mut self, value: Value<'w>, most: usize) {
        if self.values.len() == most {
            return;
        }
        self.values.push(value);
        match value {
            Value::Struct(held) => {
                self.structs.push(held);
                let fields = held.get_schema().get_fields().expect("it is always answered");
                for field in fields.iter().filter(|field| held.has(*field) == Ok(true)) {
                    if let Ok(part) = held.get(field) {
                        self.add_values(part, most);
                    }
                }
            }
            Value::List(list) => {
                self.lists.push(list);
                for part in list.iter().flatten().take(4) {
                    self.add_values(part, most);
                }
            }
            _ => {}
        }
    }

    /// A value of any set, or one of none.
    pub fn value(&self, random: &mut Random) -> Value<'w> {
        match random.below(8) {
            0 => Value::UInt16(random.next() as u16),
            1 => Value::Bool(true),
            2 => Value::Void,
            _ => *random.one_of(&self.values),
        }
    }

    /// A value that a field may be set to without what it holds being read as another type: a slot takes a struct or list
    /// of its set whatever its type, as in the public crate.
    pub fn value_for(&self, field: Field<'w>, random: &mut Random) -> Value<'w> {
        loop {
            let value = self.value(random);
            if is_foreign(field.get_containing_struct().get_set(), value) || is_of_type(field, value) {
                return value;
            }
        }
    }
}

/// Whether a value is one of another set.
pub fn is_foreign(set: &SchemaSet, value: Value<'_>) -> bool {
    let of = match value {
        Value::Struct(held) => held.get_schema().get_set(),
        Value::Enum(held) => match held.get_enumerant() {
            Ok(Some(enumerant)) => enumerant.get_containing_enum().get_set(),
            _ => return false,
        },
        Value::List(held) => match set_of_list(held) {
            Some(of) => of,
            None => return false,
        },
        _ => return false,
    };
    !std::ptr::eq(of, set)
}

/// The set of a list that tells it: of one that has a struct or a list.
fn set_of_list(list: dynamic_list::Reader<'_>) -> Option<&SchemaSet> {
    match list.iter().flatten().next()? {
        Value::Struct(held) => Some(held.get_schema().get_set()),
        Value::List(held) => set_of_list(held),
        _ => None,
    }
}

/// Whether a struct or list is of the type that a slot has; every other value is.
fn is_of_type(field: Field<'_>, value: Value<'_>) -> bool {
    if field.get_group().is_some() {
        return true;
    }
    match (field.get_type().which(), value) {
        (TypeVariant::Struct(raw), Value::Struct(held)) => raw == held.get_schema().into(),
        (TypeVariant::List(element), Value::List(held)) => element == held.element_type(),
        _ => true,
    }
}

/// Whether a field is one of a schema.
pub fn belongs(field: Field<'_>, schema: StructSchema<'_>) -> bool {
    let of = field.get_containing_struct();
    std::ptr::eq(of.get_set(), schema.get_set()) && of == schema
}

/// An index that is near the end of so many, or far past it.
pub fn index(random: &mut Random, count: u32) -> u32 {
    match random.below(6) {
        0 => u32::MAX,
        1 => random.next() as u32,
        2 => count,
        _ => random.below(count as usize + 2) as u32,
    }
}
