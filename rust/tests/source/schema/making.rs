//! Sets that a program makes with the constructors of records, and structs that are found by their names.

use crate::capnp_base::introspect::{RawBrandedStructSchema, Type, TypeVariant};
use crate::capnp_schema::builtin;
use crate::capnp_schema::record::{BrandRecord, FieldRecord, NodeRecord, ValueRecord, NO_DISCRIMINANT};
use crate::capnp_schema::set::SchemaSet;
use crate::capnp_wire::error::Result;
use crate::fixtures::records::{list_of, struct_type};
use crate::rattle_std::alloc::Global;

/// The number of the struct with a name, if the set has it.
fn number_of(schemas: &SchemaSet, name: &str) -> Option<u32> {
    let schema = schemas.find_struct(name)?;
    Some(RawBrandedStructSchema::from(schema).number)
}

#[test]
fn structs_are_found_by_their_names() {
    let schemas = builtin::new_set(Global).expect("the check accepts it");
    for (name, number) in [
        ("Flat", Some(builtin::FLAT)),
        ("Mixed", Some(builtin::MIXED)),
        ("Many", Some(builtin::MANY)),
        ("Shapes", Some(builtin::SHAPES)),
        ("Loop", Some(builtin::LOOP)),
        ("Lists", Some(builtin::LISTS)),
        ("Node", Some(builtin::NODE)),
        // a group, an enum, and names that nothing has
        ("Shapes.circle", None),
        ("ElementSize", None),
        ("flat", None),
        ("Fla", None),
        ("", None),
    ] {
        assert_eq!(number_of(&schemas, name), number, "{name:?}");
    }
}

/// A person: a name and an age.
fn person() -> Result<NodeRecord> {
    let name = FieldRecord::slot(Global, "name", 0, ValueRecord::Text(list_of([])))?;
    let age = FieldRecord::group(Global, "age", 1)?;
    NodeRecord::structure(Global, 7, "Person", 1, 1, list_of([name, age]))
}

/// An age: unknown, or a number of years.
fn age() -> Result<NodeRecord> {
    let unknown = FieldRecord::slot(Global, "unknown", 0, ValueRecord::Void)?.as_member(0);
    let years = FieldRecord::slot(Global, "years", 0, ValueRecord::UInt16(0))?.as_member(1);
    let group = NodeRecord::structure(Global, 8, "Person.age", 1, 1, list_of([unknown, years]))?;
    Ok(group.as_group().with_union(2, 1))
}

/// The set of both.
fn people() -> Result<SchemaSet> {
    let person_types = list_of([Type::from(TypeVariant::Text), struct_type(1)]);
    let age_types = list_of([Type::from(TypeVariant::Void), Type::from(TypeVariant::UInt16)]);
    let brands = [
        BrandRecord::new(Global, 0, person_types)?,
        BrandRecord::new(Global, 1, age_types)?,
    ];
    SchemaSet::new(Global, list_of([person()?, age()?]), list_of(brands), list_of([]))
}

#[test]
fn a_set_is_made_in_a_few_lines() {
    let schemas = people().expect("the check accepts it");
    assert_eq!(number_of(&schemas, "Person"), Some(0));
    assert_eq!(number_of(&schemas, "Person.age"), None);
    let age = schemas.struct_schema(1);
    assert!(age.get_proto().body.is_group);
    assert_eq!(age.get_discriminant(), Some(16));
    let members = &age.get_proto().body.fields;
    assert!(members.iter().all(FieldRecord::is_member));
    let values: Vec<u16> = members.iter().map(|field| field.discriminant_value).collect();
    assert_eq!(values, [0, 1]);
    for field in &schemas.struct_schema(0).get_proto().body.fields {
        assert!(!field.is_member());
        assert_eq!(field.discriminant_value, NO_DISCRIMINANT);
    }
}
