//! Schemas as plain values, random ones, and random edits of them.

#[path = "../common/random.rs"]
#[allow(dead_code, reason = "other tests take more of it")]
pub mod random;

use random::Random;
use riftcalico::introspect::{RawBrandedStructSchema, RawEnumSchema, Type as SetType, TypeVariant};
use riftcalico::memory::Global;
use riftcalico::schema::record::{AnnotationTypes, BrandRecord, EnumRecord, EnumerantRecord, FieldRecord, NodeRecord, ValueRecord};
use riftcalico::schema::SchemaSet;

/// The data words and the pointers of each struct: a slot has a word of its own, or a pointer, by its field's index.
pub const WORDS: u16 = 48;
pub const POINTERS: u16 = 20;

/// The words from which a group's slots stand.
const GROUP_WORD: usize = 24;

/// The word of the first union's discriminant.
const UNION_WORD: u32 = 44;

#[derive(Clone, PartialEq, Debug)]
pub enum Type {
    Void,
    Bool,
    /// A number: whether it has a sign, and its bytes.
    Number(bool, u32),
    Text,
    Data,
    AnyPointer,
    Enum(usize),
    Struct(usize),
    List(Box<Type>),
}

#[derive(Clone, Debug)]
pub struct Field {
    pub name: String,
    pub of: Type,
    /// The slot's offset, or none of a group.
    pub offset: Option<u32>,
    /// A number's default, or how many letters a text's has.
    pub default: u8,
    /// The discriminant value of a member.
    pub member: Option<u16>,
}

#[derive(Clone, Debug)]
pub struct Struct {
    pub name: String,
    pub fields: Vec<Field>,
    pub is_group: bool,
    pub union_word: u32,
}

#[derive(Clone, Debug)]
pub struct Schema {
    pub structs: Vec<Struct>,
    pub enums: Vec<Vec<String>>,
}

impl Type {
    fn width(&self) -> Option<u32> {
        match self {
            Type::Bool => Some(1),
            Type::Number(_, bytes) => Some(8 * bytes),
            Type::Enum(_) => Some(16),
            _ => None,
        }
    }

    pub fn is_pointer(&self) -> bool {
        !matches!(self, Type::Void) && self.width().is_none()
    }
}

impl Struct {
    pub fn members(&self) -> u16 {
        self.fields.iter().filter(|field| field.member.is_some()).count() as u16
    }

    /// Gives the members the values from 0 on, in their order.
    fn number_members(&mut self) {
        for (value, field) in self.fields.iter_mut().filter(|field| field.member.is_some()).enumerate() {
            field.member = Some(value as u16);
        }
    }

    /// Where a slot of a type at an index stands: at the start of its word, or pointer.
    fn offset_at(&self, of: &Type, index: usize) -> u32 {
        match of.width() {
            Some(width) => (64 / width) * (index + if self.is_group { GROUP_WORD } else { 0 }) as u32,
            None if of.is_pointer() => (index + if self.is_group { 10 } else { 0 }) as u32,
            None => 0,
        }
    }

    fn add(&mut self, of: Type, default: u8, is_member: bool) {
        let index = self.fields.len();
        let offset = Some(self.offset_at(&of, index));
        let member = is_member.then_some(0);
        self.fields.push(Field { name: format!("f{index}"), of, offset, default, member });
        self.number_members();
    }
}

impl Schema {
    /// A random schema of one to four structs, of which some have a group.
    pub fn random(random: &mut Random) -> Schema {
        let enums = (0..1 + random.below(2)).map(|_| (0..1 + random.below(4)).map(|k| format!("e{k}")).collect()).collect();
        let count = 1 + random.below(4);
        let named = |number| Struct { name: format!("S{number}"), fields: Vec::new(), is_group: false, union_word: UNION_WORD };
        let mut schema = Schema { structs: (0..count).map(named).collect(), enums };
        for number in 0..count {
            for _ in 0..1 + random.below(6) {
                schema.add_field(number, random);
            }
            if random.once_in(3) {
                schema.add_group(number, random);
            }
        }
        schema
    }

    fn random_type(&self, random: &mut Random) -> Type {
        let structs = self.structs.iter().filter(|one| !one.is_group).count();
        let of = match random.below(10) {
            0 => Type::Void,
            1 => Type::Bool,
            2 => Type::Text,
            3 => Type::Data,
            4 => Type::AnyPointer,
            5 => Type::Enum(random.below(self.enums.len())),
            6 | 7 => {
                let index = random.below(structs);
                Type::Struct((0..self.structs.len()).filter(|number| !self.structs[*number].is_group).nth(index).unwrap())
            }
            _ => Type::Number(random.once_in(2), 1 << random.below(4)),
        };
        let lists = if of == Type::AnyPointer { 0 } else { [0, 0, 0, 1, 1, 2][random.below(6)] };
        (0..lists).fold(of, |inner, _| Type::List(Box::new(inner)))
    }

    fn add_field(&mut self, number: usize, random: &mut Random) {
        if self.structs[number].fields.len() < 10 {
            let of = self.random_type(random);
            let default = if random.once_in(3) { 1 + random.below(3) as u8 } else { 0 };
            let is_member = random.once_in(3);
            self.structs[number].add(of, default, is_member);
        }
    }

    fn add_group(&mut self, number: usize, random: &mut Random) {
        if self.structs[number].is_group || self.structs[number].fields.iter().any(|field| field.offset.is_none()) {
            return;
        }
        let group = self.structs.len();
        let name = format!("{}.g", self.structs[number].name);
        self.structs.push(Struct { name, fields: Vec::new(), is_group: true, union_word: UNION_WORD + 2 });
        for _ in 0..1 + random.below(3) {
            self.add_field(group, random);
        }
        let parent = &mut self.structs[number];
        let index = parent.fields.len();
        let member = random.once_in(3).then_some(0);
        parent.fields.push(Field { name: format!("f{index}"), of: Type::Struct(group), offset: None, default: 0, member });
        parent.number_members();
    }

    /// Lists of this field become lists of a new struct, whose field 0 is what an element was, or almost.
    fn upgrade(&mut self, number: usize, index: usize, random: &mut Random) {
        let Type::List(inner) = self.structs[number].fields[index].of.clone() else { return };
        let new = self.structs.len();
        let mut holder = Struct { name: format!("L{new}"), fields: Vec::new(), is_group: false, union_word: UNION_WORD };
        let of = if random.once_in(8) { Type::Number(false, 1) } else { *inner };
        if matches!(&of, Type::Struct(_)) {
            return;
        }
        holder.add(of, if random.once_in(6) { 1 } else { 0 }, random.once_in(8));
        holder.add(Type::Text, 0, false);
        self.structs.push(holder);
        self.structs[number].fields[index].of = Type::List(Box::new(Type::Struct(new)));
    }

    /// Makes one edit, of a kind that may keep the schema compatible or not.
    pub fn edit(&mut self, random: &mut Random) {
        let number = random.below(self.structs.len());
        let index = random.below(self.structs[number].fields.len());
        let is_slot = self.structs[number].fields[index].offset.is_some();
        let kind = random.below(15);
        match kind {
            0 | 1 => self.add_field(number, random),
            2 => self.structs[number].fields[index].name = format!("r{}", random.below(1000)),
            3 => {
                let names = random.below(self.enums.len());
                let index = random.below(self.enums[names].len());
                self.enums[names][index] = format!("r{}", random.below(1000));
            }
            4 => {
                let names = random.below(self.enums.len());
                let name = format!("n{}", self.enums[names].len());
                self.enums[names].push(name);
            }
            5 | 6 => self.upgrade(number, index, random),
            7 => self.structs[number].name += "x",
            8 => {
                let names = random.below(self.enums.len());
                if self.enums[names].len() > 1 {
                    self.enums[names].pop();
                }
            }
            9 if self.structs[number].fields.len() > 1 && self.structs[number].fields.last().unwrap().offset.is_some() => {
                self.structs[number].fields.pop();
                self.structs[number].number_members();
            }
            10 if is_slot => {
                let of = self.random_type(random);
                let offset = Some(self.structs[number].offset_at(&of, index));
                let field = &mut self.structs[number].fields[index];
                *field = Field { of, offset, default: 0, name: field.name.clone(), member: field.member };
            }
            11 if is_slot => {
                if let Type::Number(_, 1..=4) = self.structs[number].fields[index].of {
                    let field = &mut self.structs[number].fields[index];
                    field.offset = field.offset.map(|offset| offset ^ 1);
                }
            }
            12 => self.structs[number].fields[index].default ^= 1,
            13 => {
                let field = &mut self.structs[number].fields[index];
                field.member = if field.member.is_none() { Some(0) } else { None };
                self.structs[number].number_members();
            }
            14 => self.structs[number].union_word ^= 1,
            _ => self.add_group(number, random),
        }
    }

    fn type_in_set(&self, of: &Type) -> SetType {
        SetType::from(match of {
            Type::Void => TypeVariant::Void,
            Type::Bool => TypeVariant::Bool,
            Type::Number(true, 1) => TypeVariant::Int8,
            Type::Number(true, 2) => TypeVariant::Int16,
            Type::Number(true, 4) => TypeVariant::Int32,
            Type::Number(true, _) => TypeVariant::Int64,
            Type::Number(false, 1) => TypeVariant::UInt8,
            Type::Number(false, 2) => TypeVariant::UInt16,
            Type::Number(false, 4) => TypeVariant::UInt32,
            Type::Number(false, _) => TypeVariant::UInt64,
            Type::Text => TypeVariant::Text,
            Type::Data => TypeVariant::Data,
            Type::AnyPointer => TypeVariant::AnyPointer,
            Type::Enum(number) => TypeVariant::Enum(RawEnumSchema { number: *number as u32 }),
            Type::Struct(number) => TypeVariant::Struct(RawBrandedStructSchema { number: *number as u32, generic: *number as u32 }),
            Type::List(inner) => return SetType::list_of(self.type_in_set(inner)),
        })
    }

    /// The set of the schema, which the check accepts.
    pub fn set(&self) -> SchemaSet {
        let mut nodes = Vec::new();
        let mut brands = Vec::new();
        for (number, one) in self.structs.iter().enumerate() {
            let fields: Vec<FieldRecord> = one.fields.iter().map(record_of).collect();
            let node = NodeRecord::structure(Global, number as u64, &one.name, WORDS, POINTERS, fields.into()).expect("there is memory");
            let node = if one.is_group { node.as_group() } else { node };
            nodes.push(if one.members() > 0 { node.with_union(one.members(), 4 * one.union_word) } else { node });
            let types: Vec<SetType> = one.fields.iter().map(|field| self.type_in_set(&field.of)).collect();
            brands.push(BrandRecord::new(Global, number as u32, types.into()).expect("there is memory"));
        }
        let enums: Vec<EnumRecord> = self.enums.iter().enumerate().map(|(number, names)| enum_of(number, names)).collect();
        SchemaSet::new(Global, nodes.into(), brands.into(), enums.into()).expect("the set is accepted")
    }
}

fn enum_of(number: usize, names: &[String]) -> EnumRecord {
    let enumerants: Vec<EnumerantRecord> = names
        .iter()
        .map(|name| EnumerantRecord { name: text_of(name), annotations: Vec::new().into() })
        .collect();
    let children: Vec<_> = names.iter().map(|_| Vec::new().into()).collect();
    EnumRecord {
        id: 1_000 + number as u64,
        display_name: text_of(&format!("E{number}")),
        annotations: Vec::new().into(),
        enumerants: enumerants.into(),
        annotation_types: AnnotationTypes { own: Vec::new().into(), children: children.into() },
    }
}

fn text_of(text: &str) -> riftcalico::memory::String {
    riftcalico::memory::String::from_str(Global, text).expect("there is memory")
}

/// The words of a null pointer.
fn null() -> riftcalico::memory::Vec<u8> {
    vec![0u8; 8].into()
}

fn record_of(field: &Field) -> FieldRecord {
    let made = match field.offset {
        Some(offset) => FieldRecord::slot(Global, &field.name, offset, default_of(field)),
        None => {
            let Type::Struct(group) = field.of else { panic!("a group is a struct") };
            FieldRecord::group(Global, &field.name, group as u32)
        }
    };
    let made = made.expect("there is memory");
    match field.member {
        Some(value) => made.as_member(value),
        None => made,
    }
}

/// What is a default in the set, by the type: of numbers and texts it may be another one.
fn default_of(field: &Field) -> ValueRecord {
    let number = field.default;
    match &field.of {
        Type::Void => ValueRecord::Void,
        Type::Bool => ValueRecord::Bool(number % 2 == 1),
        Type::Number(true, 1) => ValueRecord::Int8(number as i8),
        Type::Number(true, 2) => ValueRecord::Int16(number.into()),
        Type::Number(true, 4) => ValueRecord::Int32(number.into()),
        Type::Number(true, _) => ValueRecord::Int64(number.into()),
        Type::Number(false, 1) => ValueRecord::UInt8(number),
        Type::Number(false, 2) => ValueRecord::UInt16(number.into()),
        Type::Number(false, 4) => ValueRecord::UInt32(number.into()),
        Type::Number(false, _) => ValueRecord::UInt64(number.into()),
        Type::Enum(_) => ValueRecord::Enum(0),
        Type::Text => ValueRecord::Text(vec![b'a'; number.into()].into()),
        Type::Data => ValueRecord::Data(vec![b'a'; number.into()].into()),
        Type::AnyPointer => ValueRecord::AnyPointer(null()),
        Type::Struct(_) => ValueRecord::Struct(null()),
        Type::List(_) => ValueRecord::List(null()),
    }
}

/// Whether two fields have the same default: as `default_of` says it.
pub fn same_default(older: &Field, newer: &Field) -> bool {
    default_of(older) == default_of(newer)
}
