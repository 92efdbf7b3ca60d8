//! Structs and lists that calls are given: which form a text is read by, and that what is printed of them is given back.

use crate::capnp_call::calls::Step;
use crate::capnp_dynamic::{dynamic_struct, dynamic_value, printer};
use crate::fixtures::kinds::{FULL, KINDS, KINDS_SET};
use crate::fixtures::set_text::set_of;
use crate::capnp_patch::reach::read_path;
use crate::capnp_schema::builtin;
use crate::capnp_schema::schema::StructSchema;
use crate::capnp_schema::set::SchemaSet;
use crate::capnp_wire::message::Reader;
use crate::rattle_std::alloc::Global;
use crate::riftcalico_core::calls::{make_values, read_all_calls, read_calls, GivenValue, Unreadable};

type Value<'a> = dynamic_value::Reader<'a>;

fn kinds_set() -> SchemaSet {
    set_of(KINDS_SET)
}

fn text_of(value: Value<'_>, indented: bool) -> String {
    let mut out = crate::rattle_std::string::String::new(Global);
    printer::print(value, &mut out, indented).expect("it has a text");
    out.as_str().to_owned()
}

fn full_text(schema: StructSchema<'_>, path: &[Step<'_>], indented: bool) -> String {
    let root = Reader::new(Global, &FULL).expect("it is a message").get_root();
    let root = dynamic_struct::Reader::new(root.get_struct().expect("it is a struct"), schema);
    text_of(read_path(Value::Struct(root), path).expect("it can be read"), indented)
}

/// What the value of a call is read as: by which form and its print, or the place in the call.
fn given(schema: StructSchema<'_>, word: &str) -> Result<(&'static str, String), u128> {
    let words = read_calls(Global, &[word]).expect("there is memory").expect("it is a call");
    let read = match read_all_calls(Global, schema, words.as_slice()).expect("there is memory") {
        Ok(read) => read,
        Err(Unreadable { index, place }) => {
            assert_eq!(index, 0);
            return Err(place);
        }
    };
    let form = match &read[0].value {
        GivenValue::Plain(_) => "plain",
        GivenValue::Whole(_) => "JSON",
        GivenValue::Shown(_) => "printed",
    };
    let values = make_values(Global, read.as_slice()).expect("there is memory");
    Ok((form, text_of(values[0], false)))
}

#[test]
fn what_is_printed_is_given_back() {
    let set = kinds_set();
    let schema = set.struct_schema(KINDS);
    let wholes = [
        "point", "plain", "numbers", "flags", "voids", "wide", "colors", "texts", "blobs", "points", "rows", "named",
    ];
    for name in wholes {
        let path = [Step::Named(name)];
        let text = full_text(schema, &path, false);
        for indented in [false, true] {
            let word = format!("set {name} {}", full_text(schema, &path, indented));
            let read = given(schema, &word).unwrap_or_else(|place| panic!("{word}: {place}"));
            assert_eq!(read.1, text, "{word}");
        }
    }
    for element in ["points", "rows"] {
        let text = full_text(schema, &[Step::Named(element), Step::Element(0)], false);
        for word in [format!("append {element} {text}"), format!("insert {element}.0 {text}"), format!("set {element}.0 {text}")] {
            assert_eq!(given(schema, &word).map(|read| read.1), Ok(text.clone()), "{word}");
        }
    }
}

#[test]
fn a_text_that_is_json_is_read_as_json() {
    let set = kinds_set();
    let schema = set.struct_schema(KINDS);
    let rows = [
        ("numbers", "[1, 2, 3]", Ok(("JSON", "[1, 2, 3]"))),
        ("numbers", "[\"1\"]", Ok(("JSON", "[1]"))),
        ("numbers", "[1, x]", Err(16)),
        ("numbers", " [ ] ", Ok(("JSON", "[]"))),
        ("texts", "[\"a\"]", Ok(("JSON", "[\"a\"]"))),
        ("texts", "[\"\\u0041\"]", Ok(("JSON", "[\"A\"]"))),
        ("texts", "[\"\\u{41}\"]", Ok(("printed", "[\"A\"]"))),
        ("texts", "[a, 1]", Ok(("printed", "[\"a\", \"1\"]"))),
        ("texts", "[1]", Err(11)),
        ("flags", "[true]", Ok(("JSON", "[true]"))),
        ("points", "[(x = 1)]", Ok(("printed", "[(x = 1, y = -1)]"))),
        ("points", "[{\"x\": 1}]", Ok(("JSON", "[(x = 1, y = -1)]"))),
        ("points", "[{\"x\": 1}, (x = 1)]", Err(22)),
        ("rows", "[[1], [2]]", Ok(("JSON", "[[1], [2]]"))),
        ("colors", "[red, blue]", Ok(("printed", "[red, blue]"))),
        ("colors", "[\"red\"]", Ok(("JSON", "[red]"))),
        ("colors", "[7, red]", Ok(("printed", "[7, red]"))),
        ("voids", "[(), ()]", Ok(("printed", "[(), ()]"))),
        ("blobs", "[0x\"00ff\"]", Ok(("printed", "[0x\"00ff\"]"))),
        ("blobs", "[[0, 255]]", Ok(("JSON", "[0x\"00ff\"]"))),
        ("point", "(x = 1)", Ok(("printed", "(x = 1, y = -1)"))),
        ("point", "{\"x\": 1}", Ok(("JSON", "(x = 1, y = -1)"))),
        ("point", "(\"x\": 1)", Err(16)),
        ("named", "(times = 4, name = \"me\")", Ok(("printed", "(name = \"me\", times = 4)"))),
        ("named", "(times = 4, once = ())", Err(22)),
        ("rows.0", "[1]", Ok(("JSON", "[1]"))),
        ("rows.0", "[0x1]", Err(13)),
        ("#23", "[(y = 2)]", Ok(("printed", "[(x = 0, y = 2)]"))),
    ];
    for (path, text, wanted) in rows {
        let word = format!("set {path} {text}");
        let wanted = wanted.map(|(form, text): (_, &str)| (form, text.to_owned()));
        assert_eq!(given(schema, &word), wanted, "{word}");
    }
}

#[test]
fn structs_stand_64_deep() {
    let set = builtin::new_set(Global).expect("there is memory");
    let schema = set.struct_schema(builtin::LOOP);
    // `()` is a bracket, too
    for (levels, is_read) in [(1, true), (63, true), (64, false)] {
        let text = "(again = ".repeat(levels - 1) + "(end = ())" + &")".repeat(levels - 1);
        let read = given(schema, &format!("set again {text}")).map(|read| read.1);
        let past = 10 + 9 * 63 + 7;
        assert_eq!(read, if is_read { Ok(text) } else { Err(past) }, "{levels}");
    }
}
