//! Messages read whole, field by field.

use riftcalico::dynamic_value::Reader as Value;
use riftcalico::{dynamic_list, dynamic_struct};

/// Reads all of a value, up to so many values in it.
pub fn read_value(value: Value<'_>, left: &mut u32) {
    match value {
        Value::Struct(inner) => read_struct(inner, left),
        Value::List(list) => read_list(list, left),
        Value::Enum(number) => {
            let enumerant = number.get_enumerant().expect("it is always answered");
            assert!(enumerant.is_none_or(|named| named.get_ordinal() == number.get_value()));
        }
        Value::Text(text) => assert_eq!(text.to_str().is_ok(), std::str::from_utf8(text.as_bytes()).is_ok()),
        Value::AnyPointer(pointer) => assert_eq!(pointer.is_null(), pointer.get_pointer().is_null()),
        _ => {}
    }
}

fn read_struct(reader: dynamic_struct::Reader<'_>, left: &mut u32) {
    let fields = reader.get_schema().get_fields().expect("it is always answered");
    let active = reader.which().expect("it is always answered");
    for index in 0..fields.len() {
        let Some(rest) = left.checked_sub(1) else {
            return;
        };
        *left = rest;
        let field = fields.get(index);
        let is_there = reader.has(field).expect("it is always answered");
        let is_active = reader.is_active(field);
        assert!(is_active || field.get_proto().is_member());
        assert_eq!(
            active.is_some_and(|member| member == field),
            is_active && field.get_proto().is_member()
        );
        let value = reader.get(field);
        assert!(is_active || !is_there, "an inactive member is not there");
        // behind a null stands a default, and in that of a struct in itself the next one, without an end
        if let (Ok(value), true) = (value, is_there) {
            read_value(value, left);
        }
    }
}

fn read_list(list: dynamic_list::Reader<'_>, left: &mut u32) {
    for index in 0..list.len() {
        let Some(rest) = left.checked_sub(1) else {
            return;
        };
        *left = rest;
        if let Ok(value) = list.get(index) {
            read_value(value, left);
        }
    }
}
