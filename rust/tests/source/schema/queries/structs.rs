//! What a struct answers: its record, its fields, and fields that are looked up.

use super::or_none;
use crate::capnp_base::introspect::{RawBrandedStructSchema, Type, TypeVariant};
use crate::capnp_base::traits::IndexMove;
use crate::capnp_schema::plan::{Place, SlotPlan};
use crate::capnp_schema::schema::{Field, FieldList, FieldSubset, StructSchema};
use crate::capnp_schema::set::SchemaSet;
use crate::capnp_wire::error::ErrorKind;
use crate::fixtures::records::schema_of;
use crate::fixtures::words::{first_word, number};

/// The field of a struct and a name.
pub fn field_of<'s>(schemas: &'s SchemaSet, words: &str) -> Field<'s> {
    let (struct_number, name) = first_word(words);
    let schema = schema_of(schemas, number(struct_number));
    schema.get_field_by_name(name).expect("the struct has the field")
}

/// A type, as `fixtures/words.rs` reads it.
pub fn type_in_words(of: Type) -> String {
    match of.which() {
        TypeVariant::List(element) => format!("List({})", type_in_words(element)),
        TypeVariant::Enum(raw) => format!("Enum({})", raw.number),
        TypeVariant::Struct(raw) if raw.number == raw.generic => format!("Struct({})", raw.number),
        TypeVariant::Struct(raw) => format!("Struct({}:{})", raw.number, raw.generic),
        simple => format!("{simple:?}"),
    }
}

fn fields(schema: StructSchema<'_>) -> FieldList<'_> {
    schema.get_fields().expect("the list is never refused")
}

fn members(schema: StructSchema<'_>) -> FieldSubset<'_> {
    schema.get_union_fields().expect("the list is never refused")
}

fn non_members(schema: StructSchema<'_>) -> FieldSubset<'_> {
    schema.get_non_union_fields().expect("the list is never refused")
}

/// What a call says of each field, with blanks between.
fn each<'s>(fields: impl IntoIterator<Item = Field<'s>>, say: impl Fn(Field<'s>) -> String) -> String {
    fields.into_iter().map(say).collect::<Vec<_>>().join(" ")
}

fn names<'s>(fields: impl IntoIterator<Item = Field<'s>>) -> String {
    each(fields, |field| field.get_proto().name.as_str().to_string())
}

fn index(found: Option<Field<'_>>) -> String {
    or_none(found.map(|field| field.get_index()))
}

/// The field that is got by its name, unless there is none.
fn got<'s>(schema: StructSchema<'s>, name: &str) -> Option<Field<'s>> {
    match schema.get_field_by_name(name) {
        Ok(field) => Some(field),
        Err(error) => {
            assert_eq!(error.kind, ErrorKind::FieldNotFound);
            None
        }
    }
}

fn counted(schema: StructSchema<'_>, name: &str) -> String {
    let (found, count) = schema.find_field_by_name_counted(name);
    format!("{} {count}", index(found))
}

/// How many names the look-up of one of these compares at most.
fn most_compared(schema: StructSchema<'_>, names: &str) -> String {
    let compared = |name: &str| schema.find_field_by_name_counted(name.trim_start_matches('_')).1;
    names.split(' ').map(compared).max().unwrap_or(0).to_string()
}

/// The field at a place of the list of members.
fn member_at(schema: StructSchema<'_>, place: u16) -> Option<Field<'_>> {
    let members = members(schema);
    (place < members.len()).then(|| members.index_move(place))
}

fn numbers(schema: StructSchema<'_>) -> String {
    let raw = RawBrandedStructSchema::from(schema);
    format!("{} {}", raw.number, raw.generic)
}

fn group_field(schema: StructSchema<'_>) -> String {
    schema.get_group_field().map_or_else(
        || or_none(None),
        |field| {
            let number = RawBrandedStructSchema::from(field.get_containing_struct()).number;
            format!("{number} {}", field.get_index())
        },
    )
}

fn record(schema: StructSchema<'_>) -> String {
    let record = schema.get_proto();
    let (id, name) = (record.id, record.display_name.as_str());
    format!("{id} {name} {} {}", fields(schema).len(), record.body.is_group)
}

fn plan_in_words(plan: SlotPlan) -> String {
    let place = match plan.place {
        Place::Nothing => "nothing".to_string(),
        Place::Bits { start, width, mask } => format!("bits {start} {width} {mask}"),
        Place::Pointer(index) => format!("pointer {index}"),
        Place::Group(brand) => format!("group {brand}"),
    };
    match plan.member {
        Some((first, value)) => format!("{place} member {first} {value}"),
        None => place,
    }
}

/// What a field answers.
fn of_field(field: Field<'_>, kind: &str) -> String {
    match kind {
        "type" => type_in_words(field.get_type()),
        "group" => field.get_group().map_or_else(|| or_none(None), numbers),
        "plan" => plan_in_words(field.plan()),
        _ => panic!("{kind:?} is no query"),
    }
}

/// What the struct of a number answers.
pub fn answer(schemas: &SchemaSet, kind: &str, words: &str) -> String {
    let (struct_number, rest) = first_word(words);
    let schema = schema_of(schemas, number(struct_number));
    match kind {
        "fields" => names(fields(schema)),
        "members" => names(members(schema)),
        "plain" => names(non_members(schema)),
        "indices" => each(fields(schema), |field| field.get_index().to_string()),
        "sizes" => format!("{} {}", fields(schema).len(), members(schema).len()),
        "last" => index(fields(schema).into_iter().next_back()),
        "last_member" => index(members(schema).into_iter().next_back()),
        "member_at" => index(member_at(schema, number(rest))),
        "record" => record(schema),
        "numbers" => numbers(schema),
        "group_field" => group_field(schema),
        "get" => index(got(schema, rest)),
        "found" => index(schema.find_field_by_name(rest).expect("a look-up is never refused")),
        "member" => index(
            schema
                .get_field_by_discriminant(number(rest))
                .expect("a look-up is never refused"),
        ),
        "counted" => counted(schema, rest),
        "most" => most_compared(schema, rest),
        _ => of_field(field_of(schemas, words), kind),
    }
}
