//! The check of a set of schemas: which of the twelve rules the set breaks, and where.
//!
//! A row is a set, which `fixtures/set_text.rs` reads, and after an arrow what the check answers:
//!
//! ```text
//! struct 1 1, a UInt32 @2 -> rule 4 brand 0 field 0
//! ```
//!
//! The answer is `accepted`, or a broken rule and its place, which is a field as above, or the whole entry as in
//! `rule 8 brand 1`. If a row has several answers, with ` or ` between them, the check may give any of them.

use crate::capnp_wire::error::ErrorKind;
use crate::fixtures::records::WHOLE;
use crate::fixtures::set_text::read_set_text;
use crate::rows::{row_file, Reading, RowFile};

static RULES: RowFile = row_file!("rules.rows");

/// What the check says of a set.
fn verdict(set: &'static str) -> String {
    let Err(error) = read_set_text(set) else {
        return "accepted".to_string();
    };
    match error.kind {
        ErrorKind::Schema {
            rule,
            table,
            entry,
            field: WHOLE,
        } => format!("rule {rule} {table} {entry}"),
        ErrorKind::Schema {
            rule,
            table,
            entry,
            field,
        } => format!("rule {rule} {table} {entry} field {field}"),
        kind => format!("{kind:?}"),
    }
}

/// Asserts that the check gives each set of a section one of the answers of its row.
#[track_caller]
fn assert_verdicts(section: &str) {
    for row in RULES.section(section).lines() {
        let _reading = Reading(row.place);
        let (set, wanted) = row.text.split_once(" -> ").expect("a row has an arrow");
        let seen = verdict(set);
        let is_among = wanted.split(" or ").any(|answer| answer == seen);
        assert!(is_among, "{}:\n   seen: {seen}\n wanted: {wanted}", row.place);
    }
}
// Rules 1 and 2: types name existing entries, and there is one for each field and each annotation.

#[test]
fn struct_types_name_a_brand_and_its_node() {
    assert_verdicts("struct_types_name_a_brand_and_its_node");
}

#[test]
fn enum_types_name_an_enum() {
    assert_verdicts("enum_types_name_an_enum");
}

#[test]
fn types_of_annotations_name_entries() {
    assert_verdicts("types_of_annotations_name_entries");
}

#[test]
fn each_annotation_has_one_type() {
    assert_verdicts("each_annotation_has_one_type");
}

#[test]
fn each_field_has_one_type() {
    assert_verdicts("each_field_has_one_type");
}

#[test]
fn each_brand_names_a_node() {
    assert_verdicts("each_brand_names_a_node");
}

#[test]
fn nodes_have_brands_or_none() {
    assert_verdicts("nodes_have_brands_or_none");
}

// Rule 3: names of fields are distinct, and there are at most 65,535 fields or enumerants.

#[test]
fn names_are_told_apart_by_their_bytes() {
    assert_verdicts("names_are_told_apart_by_their_bytes");
}

#[test]
fn nodes_have_names_of_their_own() {
    assert_verdicts("nodes_have_names_of_their_own");
}

#[test]
fn structs_have_few_fields() {
    assert_verdicts("structs_have_few_fields");
}

#[test]
fn enums_have_few_enumerants() {
    assert_verdicts("enums_have_few_enumerants");
}

// Rules 4 and 5: slots lie inside their section, and defaults are of their type's kind.

#[test]
fn slots_lie_inside() {
    assert_verdicts("slots_lie_inside");
}

#[test]
fn list_slots_are_pointers() {
    assert_verdicts("list_slots_are_pointers");
}

#[test]
fn defaults_are_of_their_kind() {
    assert_verdicts("defaults_are_of_their_kind");
}

#[test]
fn struct_and_list_defaults_are_of_their_kind() {
    assert_verdicts("struct_and_list_defaults_are_of_their_kind");
}

#[test]
fn enum_defaults_may_be_past_the_enumerants() {
    assert_verdicts("enum_defaults_may_be_past_the_enumerants");
}

// Rule 6: the words of defaults and of annotations' values.

#[test]
fn lists_have_the_elements_of_their_type() {
    assert_verdicts("lists_have_the_elements_of_their_type");
}

#[test]
fn struct_defaults_decode() {
    assert_verdicts("struct_defaults_decode");
}

#[test]
fn list_defaults_decode() {
    assert_verdicts("list_defaults_decode");
}

#[test]
fn untyped_defaults_are_null() {
    assert_verdicts("untyped_defaults_are_null");
}

#[test]
fn defaults_decode_where_no_brand_names_them() {
    assert_verdicts("defaults_decode_where_no_brand_names_them");
}

#[test]
fn values_of_annotations_are_whole_words() {
    assert_verdicts("values_of_annotations_are_whole_words");
}

// Rules 7 and 8: groups are named by group fields alone, each by one, and stand in a struct of their sizes.

#[test]
fn slots_name_no_group() {
    assert_verdicts("slots_name_no_group");
}

#[test]
fn group_fields_are_of_their_group() {
    assert_verdicts("group_fields_are_of_their_group");
}

#[test]
fn one_rule_is_broken_without_a_brand() {
    assert_verdicts("one_rule_is_broken_without_a_brand");
}

#[test]
fn groups_have_the_sizes_of_their_struct() {
    assert_verdicts("groups_have_the_sizes_of_their_struct");
}

#[test]
fn groups_stand_in_a_struct() {
    assert_verdicts("groups_stand_in_a_struct");
}

#[test]
fn groups_are_named_once() {
    assert_verdicts("groups_are_named_once");
}

// Rules 9 and 10: discriminant values, and the place of a discriminant.

#[test]
fn members_are_numbered_without_a_gap() {
    assert_verdicts("members_are_numbered_without_a_gap");
}

#[test]
fn a_count_has_members() {
    assert_verdicts("a_count_has_members");
}

#[test]
fn the_discriminant_lies_inside() {
    assert_verdicts("the_discriminant_lies_inside");
}

// Rules 11 and 12: non-union fields share no place, and no field stands on the discriminant.

#[test]
fn only_members_share_a_place() {
    assert_verdicts("only_members_share_a_place");
}

#[test]
fn data_bits_have_one_non_union_field() {
    assert_verdicts("data_bits_have_one_non_union_field");
}

#[test]
fn groups_share_no_place_with_non_union_fields() {
    assert_verdicts("groups_share_no_place_with_non_union_fields");
}

#[test]
fn a_groups_discriminant_is_its_own() {
    assert_verdicts("a_groups_discriminant_is_its_own");
}

#[test]
fn no_number_stands_on_the_discriminant() {
    assert_verdicts("no_number_stands_on_the_discriminant");
}

#[test]
fn no_bit_stands_on_the_discriminant() {
    assert_verdicts("no_bit_stands_on_the_discriminant");
}

#[test]
fn no_group_stands_on_the_discriminant() {
    assert_verdicts("no_group_stands_on_the_discriminant");
}

#[test]
fn no_discriminant_stands_on_another() {
    assert_verdicts("no_discriminant_stands_on_another");
}
