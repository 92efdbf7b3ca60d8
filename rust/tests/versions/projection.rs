//! Whether a message reads under an older schema as what it is under the newer one, but for what the older one doesn't know.

use riftcalico::dynamic_struct::Reader;
use riftcalico::dynamic_value::Reader as Value;
use riftcalico::schema::Field;

/// A struct under the older schema and the same one under the newer: the fields of the older have the same values.
pub fn same_struct(older: Reader<'_>, newer: Reader<'_>) {
    let fields = older.get_schema().get_fields().expect("there are fields");
    let more = newer.get_schema().get_fields().expect("there are fields");
    for index in 0..fields.len() {
        let (was, now) = (fields.get(index), more.get(index));
        assert_eq!(was.get_proto().is_member(), now.get_proto().is_member());
        assert_eq!(older.is_active(was), newer.is_active(now));
        if older.is_active(was) {
            let is_there = older.has(was).expect("it is read");
            assert_eq!(is_there, newer.has(now).expect("it is read"));
            let (was, now) = (older.get(was).expect("it is read"), newer.get(now).expect("it is read"));
            // A missing struct may hold itself without end.
            if is_there || !matches!(was, Value::Struct(_)) {
                same_value(was, now);
            }
        }
    }
    let known = newer.which().expect("it is read").map(|field| field.get_index()).filter(|index| *index < fields.len());
    let has_union = (0..fields.len()).any(|index| fields.get(index).get_proto().is_member());
    assert_eq!(older.which().expect("it is read").map(|field| field.get_index()), known.filter(|_| has_union));
}

fn first_field(reader: Reader<'_>) -> Field<'_> {
    reader.get_schema().get_fields().expect("there are fields").get(0)
}

/// A value under the older type and the same one under the newer. What was an element may be field 0 of a struct.
fn same_value(older: Value<'_>, newer: Value<'_>) {
    match (older, newer) {
        (Value::Struct(was), Value::Struct(now)) => same_struct(was, now),
        (was, Value::Struct(now)) => same_value(was, now.get(first_field(now)).expect("it is read")),
        (Value::List(was), Value::List(now)) => {
            assert_eq!(was.len(), now.len());
            for index in 0..was.len() {
                same_value(was.get(index).expect("it is read"), now.get(index).expect("it is read"));
            }
        }
        (Value::Enum(was), Value::Enum(now)) => assert_eq!(was.get_value(), now.get_value()),
        (Value::AnyPointer(was), Value::AnyPointer(now)) => assert_eq!(was.is_null(), now.is_null()),
        (was, now) => assert_eq!(format!("{was:?}"), format!("{now:?}")),
    }
}
