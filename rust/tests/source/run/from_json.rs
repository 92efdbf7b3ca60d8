//! JSON values that are read under types without parts, and those that can't be read, with the places of the errors.

use crate::capnp_base::introspect::TypeVariant;
use crate::capnp_from_json::error::Error;
use crate::capnp_from_json::leaves::Leaf;
use crate::capnp_from_json::values::read_leaf;
use crate::capnp_json_fields::fields::DataForm;
use crate::capnp_schema::builtin::new_set;
use crate::rattle_std::alloc::Global;
use crate::rows::{assert_text, hex, row_file, RowFile};

static ROWS: RowFile = row_file!("from_json.rows");

/// The sections, with the type and the form of data under which their values are read.
static SECTIONS: [(&str, TypeVariant, DataForm); 9] = [
    ("Void", TypeVariant::Void, DataForm::Array),
    ("Bool", TypeVariant::Bool, DataForm::Array),
    ("Int8", TypeVariant::Int8, DataForm::Array),
    ("UInt64", TypeVariant::UInt64, DataForm::Array),
    ("Text", TypeVariant::Text, DataForm::Array),
    ("Data", TypeVariant::Data, DataForm::Array),
    ("Data in base64", TypeVariant::Data, DataForm::Base64),
    ("Data in hexadecimal", TypeVariant::Data, DataForm::Hexadecimal),
    ("AnyPointer", TypeVariant::AnyPointer, DataForm::Array),
];

/// The leaf, its bytes in hexadecimal digits, or the error and its place.
fn text_of(read: Result<Leaf, Error>) -> String {
    match read {
        Ok(Leaf::Text(bytes)) => format!("Text({})", hex(&bytes)),
        Ok(Leaf::Data(bytes)) => format!("Data({})", hex(&bytes)),
        Ok(leaf) => format!("{leaf:?}"),
        Err(Error::Refused(refusal)) => {
            let (number, name) = (refusal.kind.number(), refusal.kind.name());
            format!("refused: {number} {name} at {}", refusal.place)
        }
        Err(error) => format!("{error:?}"),
    }
}

#[test]
fn leaves_are_read() {
    let schemas = new_set(Global).expect("there is memory");
    for (section, kind, form) in SECTIONS {
        for line in ROWS.section(section).lines() {
            let (text, wanted) = line.sides();
            let bytes = text.as_bytes();
            let read = read_leaf(Global, &schemas, kind, false, form, bytes.len(), bytes);
            assert_text(line.place, &text_of(read), wanted);
        }
    }
}
