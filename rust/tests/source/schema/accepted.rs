//! Sets that the check accepts, running out of memory, and numbers past the end of a set.

use crate::capnp_schema::builtin;
use crate::capnp_schema::meta;
use crate::capnp_schema::set::SchemaSet;
use crate::capnp_wire::error::ErrorKind;
use crate::fixtures::set_text::set_of;
use crate::rattle_std::alloc::Global;
use crate::refusing::refuse_each;

/// How many nodes, brands and enums a set has.
fn counts(schemas: &SchemaSet) -> [usize; 3] {
    [schemas.nodes().len(), schemas.brands().len(), schemas.enums().len()]
}

#[test]
fn the_built_in_set_is_accepted() {
    let schemas = builtin::new_set(Global).expect("the check accepts it");
    assert_eq!(counts(&schemas), [9, 9, 1]);
}

#[test]
fn the_meta_set_is_accepted() {
    let schemas = meta::new_set(Global).expect("the check accepts it");
    assert_eq!(counts(&schemas), [10, 10, 0]);
}

#[test]
fn empty_lists_are_accepted() {
    assert_eq!(counts(&set_of("")), [0, 0, 0]);
}

#[test]
fn a_good_set_is_refused_for_memory_alone() {
    let requests = refuse_each(
        || (),
        |()| builtin::new_set(Global),
        |(), made, is_refused| match made {
            Ok(schemas) => {
                assert!(!is_refused, "a set was made without all of its memory");
                assert_eq!(counts(&schemas), [9, 9, 1]);
            }
            Err(error) => {
                assert!(is_refused, "{:?}, although there was memory", error.kind);
                assert_eq!(error.kind, ErrorKind::OutOfMemory);
            }
        },
    );
    assert!(requests > 0, "a set takes memory");
}

#[test]
fn nothing_stands_past_the_end() {
    let schemas = set_of("");
    let no_struct = schemas.struct_schema(0);
    assert!(no_struct.get_fields().is_ok_and(|fields| fields.is_empty()));
    assert!(no_struct.get_proto().display_name.is_empty());
    let no_enum = schemas.enum_schema(0);
    assert!(no_enum.get_enumerants().is_ok_and(|enumerants| enumerants.is_empty()));
    assert!(no_enum.get_proto().display_name.is_empty());
}
