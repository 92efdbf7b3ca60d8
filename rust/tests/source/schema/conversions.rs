//! The request set, and sets that are converted from requests of the public compiler: names, notes, annotations,
//! refusals, and the texts of messages under such sets.

use crate::capnp_dynamic_readers::printer::print;
use crate::capnp_dynamic_readers::{dynamic_struct, dynamic_value};
use crate::capnp_request::{read_request, request_set, Converted, Note, StandIn};
use crate::capnp_schema::record::{AnnotationRecord, FieldKind, FieldRecord, ValueRecord};
use crate::capnp_schema::set::SchemaSet;
use crate::capnp_wire::error::{ErrorKind, Result};
use crate::capnp_wire::message::Reader;
use crate::fixtures::bytes::{answer, bytes_in, bytes_of};
use crate::rattle_std::alloc::Global;
use crate::rattle_std::string::String as Text;
use crate::rows::{assert_bytes, assert_text, row_file, Reading, RowFile};

static REQUESTS: RowFile = row_file!("requests.rows");
static ROWS: RowFile = row_file!("conversions.rows");

/// The request of a name.
fn request(name: &str) -> Vec<u8> {
    let requests = REQUESTS.section("requests").table();
    let found = requests
        .iter()
        .map(|row| row.columns())
        .find(|[known, _]| *known == name);
    let [_, words] = found.unwrap_or_else(|| panic!("there is no request {name:?}"));
    bytes_of(words)
}

/// What the request of a name is converted to. A strict conversion refuses floats and interfaces.
fn converted(name: &str, strict: bool) -> Result<Converted> {
    let bytes = request(name);
    let message = Reader::new(Global, &bytes)?;
    read_request(Global, message.get_root().get_struct()?, strict)
}

/// What the request of a name is converted to, floats and interfaces included.
fn lenient(name: &str) -> Converted {
    converted(name, false).expect("the request can be converted")
}

/// The set of what was converted.
fn set_from(made: Converted) -> SchemaSet {
    SchemaSet::new(Global, made.nodes, made.brands, made.enums).expect("the check accepts it")
}

/// The text of a message of a struct that a set has under a name.
fn text_of(schemas: &SchemaSet, name: &str, message: &[u8]) -> Text {
    let schema = schemas.find_struct(name).expect("the set has the struct");
    let message = Reader::new(Global, message).expect("it is a message");
    let root = message.get_root().get_struct().expect("its root is a struct");
    let value = dynamic_value::Reader::Struct(dynamic_struct::Reader::new(root, schema));
    let mut text = Text::new(Global);
    print(value, &mut text, false).expect("it has a text");
    text
}

#[test]
fn the_request_set_is_accepted() {
    let schemas = request_set::new_set(Global).expect("the check accepts it");
    assert_eq!(schemas.nodes().len(), 23);
    assert_eq!(schemas.brands().len(), 23);
    assert!(schemas.enums().is_empty());
}

#[test]
fn entries_are_named_in_order() {
    for row in ROWS.section("names").table() {
        let _reading = Reading(row.place);
        let (name, wanted) = row.all().split_first().expect("a row has the name of a request");
        let made = lenient(name);
        let names: Vec<&str> = made.nodes.iter().map(|node| node.display_name.as_str()).collect();
        assert_eq!(names, wanted, "{}", row.place);
    }
}

#[test]
fn messages_have_the_texts_of_the_public_tool() {
    for row in ROWS.section("texts").table() {
        let _reading = Reading(row.place);
        let [name, of, message, wanted] = row.columns();
        let schemas = set_from(lenient(name));
        assert_text(row.place, &text_of(&schemas, of, &bytes_of(message)), wanted);
    }
}

/// A note of an entry and a field.
fn note(entry: u32, field: u32, stand_in: StandIn) -> Note {
    Note { entry, field, stand_in }
}

#[test]
fn floats_and_interfaces_are_noted() {
    let wanted = [
        note(1, 0, StandIn::Float32),
        note(1, 1, StandIn::Float64),
        note(1, 2, StandIn::Interface),
        note(1, 3, StandIn::Float32),
        note(1, 4, StandIn::Interface),
        note(2, 0, StandIn::Float64),
    ];
    assert_eq!(lenient("notes").notes.as_slice(), wanted);
}

/// The fields of all structs.
fn fields(made: &Converted) -> impl Iterator<Item = &FieldRecord> {
    made.nodes.iter().flat_map(|node| node.body.fields.iter())
}

/// The id of the annotation that marks the fields of floats.
const FLOAT_MARK: u64 = 0xf20f_bfb0_8027_d505;

/// A letter for an annotation: `m` for the mark of floats, `-` for every other.
fn letter_of(annotation: &AnnotationRecord) -> char {
    match annotation.value {
        ValueRecord::Void if annotation.id == FLOAT_MARK => 'm',
        _ => '-',
    }
}

#[test]
fn fields_of_floats_are_marked() {
    let made = lenient("notes");
    let letters = |field: &FieldRecord| field.annotations.iter().map(letter_of).collect::<String>();
    let found: Vec<String> = fields(&made).map(letters).collect();
    assert_eq!(found.join(";"), ";;-m;-m;;-m;;;;;;-;m");
    assert_eq!(set_from(made).nodes().len(), 3);
}

#[test]
fn floats_are_refused_where_that_is_asked_for() {
    assert_eq!(answer(converted("notes", true)).err(), Some(ErrorKind::FloatType));
}

#[test]
fn an_untyped_default_is_noted() {
    let made = converted("untyped", true).expect("the request can be converted");
    assert_eq!(made.notes.as_slice(), [note(1, 0, StandIn::UntypedDefault)]);
}

#[test]
fn endless_generics_are_refused() {
    assert_eq!(answer(converted("endless", false)).err(), Some(ErrorKind::TooManyTypes));
}

/// The text of an annotation, or `-` if it is no text.
fn text_in(annotation: &AnnotationRecord) -> &str {
    match &annotation.value {
        ValueRecord::Text(text) => std::str::from_utf8(text).expect("it is UTF-8"),
        _ => "-",
    }
}

#[test]
fn annotations_stand_where_they_are_written() {
    let made = lenient("defaults");
    let mut annotations = Vec::new();
    for node in &made.nodes {
        annotations.extend(&node.annotations);
        annotations.extend(node.body.fields.iter().flat_map(|field| &field.annotations));
    }
    for named in &made.enums {
        annotations.extend(&named.annotations);
        annotations.extend(named.enumerants.iter().flat_map(|enumerant| &enumerant.annotations));
    }
    let texts: Vec<&str> = annotations.into_iter().map(text_in).collect();
    assert_eq!(texts, ["struct", "-", "group", "field", "enum", "enumerant", "-"]);
}

#[test]
fn defaults_of_structs_are_their_words() {
    let made = lenient("defaults");
    let words = |field: &FieldRecord| match &field.kind {
        // a null is one word
        FieldKind::Slot {
            default: ValueRecord::Struct(words),
            ..
        } if words.len() > 8 => Some(words.to_vec()),
        _ => None,
    };
    let found: Vec<Vec<u8>> = fields(&made).filter_map(words).collect();
    let [words] = &found[..] else {
        panic!("{} defaults of structs", found.len());
    };
    let wanted = ROWS.section("pair_of_m");
    assert_bytes(wanted.lines()[0].place, words, &bytes_in(&wanted));
}
