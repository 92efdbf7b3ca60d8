//! JSON of messages: the lines of `capnp convert --short binary:json` (0.9.2) for the messages in `examples`, and their
//! indented forms as `jq` prints them. The same lines are read into messages again.

use super::refusing::most_held;
use crate::capnp_from_json::error::Error;
use crate::capnp_dynamic::{dynamic_struct, printer};
use crate::capnp_json::error::JsonError;
use crate::capnp_json::message::message_to_json;
use crate::capnp_json_messages::message::read_message as read_json;
use crate::capnp_json_messages::value::read_value_within;
use crate::capnp_schema::builtin;
use crate::capnp_schema::set::SchemaSet;
use crate::capnp_set_engine::engine::convert_bytes;
use crate::capnp_sets::message::read_message;
use crate::capnp_wire::error::ErrorKind;
use crate::rattle_std::alloc::Global;
use std::fs;

/// Messages of the built-in set: the file, the struct and the line. `raw`, `any` and `q` are missing where they are null.
const BUILT_IN: [(&str, &str, &str); 11] = [
    ("flat", "Flat", r#"{"a":5}"#),
    ("mixed", "Mixed", r#"{"a":5,"b":"hi","y":9}"#),
    (
        "many",
        "Many",
        r#"{"flag":false,"s":2,"n":300,"w":-2,"q":"18446744073709551615","z":null}"#,
    ),
    (
        "many_defaults",
        "Many",
        r#"{"flag":true,"s":-1,"n":7,"w":0,"q":"0","z":null}"#,
    ),
    ("shapes", "Shapes", r#"{"id":1,"circle":{"r":4294967295}}"#),
    ("shapes_tag", "Shapes", r#"{"id":2,"tag":{"n":3,"q":"z","u1":9}}"#),
    ("shapes_word", "Shapes", r#"{"id":3,"word":"a word"}"#),
    ("loop", "Loop", r#"{"again":{"again":{"again":{"end":null}}}}"#),
    (
        "lists",
        "Lists",
        r#"{"bytes":[1,2,255],"raw":[0,255],"t":"a\"b\\\n","items":[{"a":1},{"a":2}]}"#,
    ),
    ("lists_empty", "Lists", r#"{"bytes":[],"t":"","items":[]}"#),
    (
        "node",
        "Node",
        r#"{"id":"18446744073709551615","displayName":"a name","size":"inlineComposite"}"#,
    ),
];

const ADDRESS_BOOK: &str = concat!(
    r#"{"people":[{"id":123,"name":"Alice","email":"alice@example.com","#,
    r#""phones":[{"number":"555-1212","type":"mobile"}],"employment":{"school":"MIT"}},"#,
    r#"{"id":456,"name":"Bob","email":"bob@example.com","#,
    r#""phones":[{"number":"555-4567","type":"home"},{"number":"555-7654","type":"work"}],"#,
    r#""employment":{"unemployed":null}}]}"#,
);

/// Names, forms of data, floats, groups and unions in them, as annotations of json.capnp ask for them.
const SHOWN: &str = concat!(
    r#"{"given-name":"me","bytes":"YW55IGNhcm5hbCBwbGVhcw==","half":0.5,"whole":-1.25,"#,
    r#""rows":[[1.5,-0.25],[],["Infinity","-Infinity","NaN"]],"shades":["dark","light-shade"],"plain":[0,255,16],"#,
    r#""parts":[{"half":0,"whole":0,"around":{"first":255,"second":65535},"last":false,"blob":"0aff"},"#,
    r#"{"half":0,"whole":0,"around":{"first":0,"second":0},"last":true,"none":null}],"#,
    r#""around":{"first":1,"second":2},"last":false,"#,
    r#""inner":{"left":-7,"right":"-9007199254740993","high":"a\tb\"\u0001é"}}"#,
);

const LISTS_INDENTED: &str = r#"{
  "bytes": [
    1,
    2,
    255
  ],
  "raw": [
    0,
    255
  ],
  "t": "a\"b\\\n",
  "items": [
    {
      "a": 1
    },
    {
      "a": 2
    }
  ]
}"#;

fn file(name: &str) -> Vec<u8> {
    fs::read(format!("{}/examples/{name}", env!("CARGO_MANIFEST_DIR"))).expect("it can be read")
}

fn json(set: &SchemaSet, name: &str, message: &[u8], indented: bool, limit: usize) -> Result<String, JsonError> {
    let schema = set.find_struct(name).expect("it has the struct");
    let bytes = message_to_json(Global, schema, message, indented, limit)?;
    Ok(String::from_utf8(bytes.to_vec()).expect("it is UTF-8"))
}

#[test]
fn messages_of_the_built_in_set() {
    let set = builtin::new_set(Global).expect("there is memory");
    for (name, root, line) in BUILT_IN {
        let message = file(&format!("{name}.bin"));
        assert_eq!(
            json(&set, root, &message, false, line.len()).as_deref(),
            Ok(line),
            "{name}"
        );
    }
}

fn set_of(request: &str) -> SchemaSet {
    let made = convert_bytes(Global, &file(request), false).expect("it is a request");
    read_message(Global, &made.message).expect("it is a set")
}

#[test]
fn an_address_book() {
    let set = set_of("addressbook.request");
    let message = file("addressbook.bin");
    assert_eq!(
        json(&set, "AddressBook", &message, false, 1 << 20).as_deref(),
        Ok(ADDRESS_BOOK)
    );
}

#[test]
fn annotations_of_fields() {
    let set = set_of("json.request");
    let message = file("json.bin");
    assert_eq!(json(&set, "Shown", &message, false, 1 << 20).as_deref(), Ok(SHOWN));
}

#[test]
fn lines_are_indented() {
    let set = builtin::new_set(Global).expect("there is memory");
    let message = file("lists.bin");
    assert_eq!(
        json(&set, "Lists", &message, true, 1 << 20).as_deref(),
        Ok(LISTS_INDENTED)
    );
    let empty = "{\n  \"bytes\": [],\n  \"t\": \"\",\n  \"items\": []\n}";
    assert_eq!(
        json(&set, "Lists", &file("lists_empty.bin"), true, 1 << 20).as_deref(),
        Ok(empty)
    );
}

/// One byte more than the limit is refused, and so is what is no message.
#[test]
fn refusals() {
    let set = builtin::new_set(Global).expect("there is memory");
    for (name, root, line) in BUILT_IN {
        let message = file(&format!("{name}.bin"));
        assert_eq!(
            json(&set, root, &message, false, line.len() - 1),
            Err(JsonError::TooLarge),
            "{name}"
        );
    }
    assert_eq!(
        json(&set, "Flat", &[], false, 99),
        Err(JsonError::Read(ErrorKind::Truncated))
    );
}

/// The line of the message that a text is read into, or why it is refused: the number and the place.
fn read_again(set: &SchemaSet, name: &str, text: &str, strict: bool) -> Result<String, (u32, Option<usize>)> {
    let schema = set.find_struct(name).expect("it has the struct");
    let refused = |error: Error| (error.number(), error.place());
    let message = read_json(Global, schema, text.as_bytes(), strict).map_err(refused)?;
    let bytes = message.write_message().expect("there is memory");
    Ok(json(set, name, &bytes, false, 1 << 20).expect("it has a line"))
}

#[test]
fn lines_are_read_again() {
    let built_in = builtin::new_set(Global).expect("there is memory");
    let book = set_of("addressbook.request");
    let shown = set_of("json.request");
    let others = [(&book, "AddressBook", ADDRESS_BOOK), (&shown, "Shown", SHOWN)];
    let lines = BUILT_IN.map(|(_, root, line)| (&built_in, root, line));
    for (set, root, line) in lines.into_iter().chain(others) {
        assert_eq!(read_again(set, root, line, true).as_deref(), Ok(line), "{root}");
    }
    assert_eq!(
        read_again(&built_in, "Lists", LISTS_INDENTED, true).as_deref(),
        Ok(r#"{"bytes":[1,2,255],"raw":[0,255],"t":"a\"b\\\n","items":[{"a":1},{"a":2}]}"#)
    );
}

/// Texts of the built-in set: the struct, the text, and the line of what `capnp convert json:binary` (0.9.2) makes of it.
const READ: [(&str, &str, &str); 9] = [
    ("Flat", "{}", r#"{"a":0}"#),
    ("Flat", r#" { "a" : 7 } "#, r#"{"a":7}"#),
    ("Flat", r#"{"a":"7"}"#, r#"{"a":7}"#),
    ("Flat", r#"{"b":[{}, [1]], "a":3}"#, r#"{"a":3}"#),
    ("Shapes", r#"{"circle":{}}"#, r#"{"id":0,"circle":{"r":0}}"#),
    ("Shapes", r#"{"word":"w","id":9}"#, r#"{"id":9,"word":"w"}"#),
    ("Loop", r#"{"again":{}}"#, r#"{"again":{"end":null}}"#),
    ("Lists", r#"{"items":[{},{"a":5},{}]}"#, r#"{"items":[{"a":0},{"a":5},{"a":0}]}"#),
    ("Lists", r#"{"t":"","raw":[]}"#, r#"{"raw":[],"t":""}"#),
];

#[test]
fn texts_are_read() {
    let set = builtin::new_set(Global).expect("there is memory");
    for (root, text, line) in READ {
        assert_eq!(read_again(&set, root, text, false).as_deref(), Ok(line), "{text}");
    }
}

/// Texts that are refused: the number of the refusal, and its place.
const REFUSED: [(&str, &str, u32, usize); 15] = [
    ("Flat", "", 70, 0),
    ("Flat", r#"{"a":}"#, 70, 5),
    ("Flat", " []", 71, 1),
    ("Flat", "null", 71, 0),
    ("Flat", r#"{"a":[]}"#, 71, 5),
    ("Flat", r#"{"a":1e99}"#, 72, 5),
    ("Flat", r#"{"a":1,"a":2}"#, 73, 7),
    ("Flat", r#"{"a":1,"b":2}"#, 74, 7),
    ("Shapes", r#"{"circle":{},"word":""}"#, 73, 13),
    ("Shapes", r#"{"circle":null}"#, 71, 10),
    ("Shapes", r#"{"circle":{"r":true}}"#, 71, 15),
    ("Lists", r#"{"bytes":[1,256]}"#, 72, 12),
    ("Lists", r#"{"items":[{},null]}"#, 71, 13),
    ("Lists", r#"{"items":[{},{"a":1,"a":1}]}"#, 73, 20),
    ("Node", r#"{"size":"none"}"#, 74, 8),
];

#[test]
fn texts_are_refused() {
    let set = builtin::new_set(Global).expect("there is memory");
    for (root, text, number, place) in REFUSED {
        assert_eq!(read_again(&set, root, text, true), Err((number, Some(place))), "{text}");
    }
}

/// As many structs in one another as there are levels, and one more.
#[test]
fn deep_texts() {
    let set = builtin::new_set(Global).expect("there is memory");
    let nested = |count: usize| format!(r#"{}{{"end":null}}{}"#, r#"{"again":"#.repeat(count), "}".repeat(count));
    assert_eq!(read_again(&set, "Loop", &nested(63), true), Ok(nested(63)));
    assert_eq!(read_again(&set, "Loop", &nested(64), true), Err((8, Some(64 * 9))));
}

/// Texts of one field: the struct, the field, the text, and the field's value as it is printed, by the definition of texts.
const VALUES: [(&str, &str, &str, &str); 8] = [
    ("Flat", "a", " 7 ", "7"),
    ("Mixed", "b", r#""h\u00e9\n""#, r#""hé\n""#),
    ("Lists", "bytes", "[1,2,255]", "[1, 2, 255]"),
    ("Lists", "items", r#"[{"a":1},{}]"#, "[(a = 1), (a = 0)]"),
    ("Lists", "raw", "[0,255]", r#"0x"00ff""#),
    ("Shapes", "circle", r#"{"r":9}"#, "(r = 9)"),
    ("Loop", "again", r#"{"again":{}}"#, "(again = (end = ()))"),
    ("Node", "size", r#""bit""#, "bit"),
];

/// The texts of one field that are refused: the number of the refusal, and its place.
const NO_VALUES: [(&str, &str, &str, u32, usize); 6] = [
    ("Flat", "a", "7,8", 70, 1),
    ("Flat", "a", "", 70, 0),
    ("Flat", "a", "{}", 71, 0),
    ("Lists", "items", r#"[{"a":1},{"a":70000}]"#, 72, 14),
    ("Lists", "items", r#"[{"b":1}]"#, 74, 2),
    ("Node", "size", r#""none""#, 74, 0),
];

#[test]
fn values_of_fields_are_read() {
    let set = builtin::new_set(Global).expect("there is memory");
    let read = |name: &str, field: &str, text: &str| {
        let schema = set.find_struct(name).expect("it has the struct");
        let field = schema.get_field_by_name(field).expect("it has the field");
        let most = (1 << 29) - 1;
        let message = read_value_within(Global, most, field, text.as_bytes(), true)
            .map_err(|error| (error.number(), error.place()))?;
        let root = message.as_reader().get_struct().expect("it is a struct");
        let value = dynamic_struct::Reader::new(root, schema).get(field).expect("it can be read");
        let mut printed = crate::rattle_std::string::String::new(Global);
        printer::print(value, &mut printed, false).expect("it has a text");
        Ok(printed.as_str().to_owned())
    };
    for (name, field, text, printed) in VALUES {
        assert_eq!(read(name, field, text).as_deref(), Ok(printed), "{text}");
    }
    for (name, field, text, number, place) in NO_VALUES {
        assert_eq!(read(name, field, text), Err((number, Some(place))), "{text}");
    }
    let nested = |count: usize| format!("{}{{}}{}", r#"{"again":"#.repeat(count), "}".repeat(count));
    assert!(read("Loop", "again", &nested(62)).is_ok());
    assert_eq!(read("Loop", "again", &nested(63)), Err((8, Some(63 * 9))));
}

/// A string of ten million bytes is read into a message and written again, in a few times its bytes.
#[test]
fn a_long_string() {
    let set = builtin::new_set(Global).expect("there is memory");
    let count = 10_000_000;
    let schema = set.find_struct("Lists").expect("it has the struct");
    for (letter, bytes) in [("a", 1), ("\\u0001", 1), ("\\n", 1), ("é", 2)] {
        let letters = count / letter.len();
        let text = format!(r#"{{"t":"{}"}}"#, letter.repeat(letters));
        let (message, most) = most_held(|| read_json(Global, schema, text.as_bytes(), true));
        let message = message.expect("it is a text").write_message().expect("there is memory").to_vec();
        assert!(message.len() < letters * bytes + 64, "{letter}: {} bytes", message.len());
        assert!(most <= 4 * count as isize, "{most} bytes for {letter}");
        let (line, most) = most_held(|| json(&set, "Lists", &message, false, text.len()));
        assert_eq!(line.as_deref(), Ok(text.as_str()));
        assert!(most <= 4 * count as isize, "{most} bytes for the JSON of {letter}");
        assert_eq!(json(&set, "Lists", &message, false, text.len() - 1), Err(JsonError::TooLarge));
    }
}

/// A million nested brackets of a name that the struct lacks are passed over, and elsewhere refused, in a few bytes for each.
#[test]
fn a_million_brackets() {
    let set = builtin::new_set(Global).expect("there is memory");
    let schema = set.find_struct("Lists").expect("it has the struct");
    let count = 1_000_000;
    for (open, close) in [("[", "]"), ("{\"\":", "}"), ("[{\"\":", "}]")] {
        let (open, close) = (open.repeat(count), format!("0{}", close.repeat(count)));
        let kind = if open.starts_with('[') { 71 } else { 8 };
        for (before, after, strict, refused) in [
            (r#"{"other":"#, "}", false, None),
            (r#"{"other":"#, "}", true, Some((74, 1))),
            (r#"{"other":"#, "", false, Some((70, 9 + open.len() + close.len()))),
            (r#"{"other":"#, "]", false, Some((70, 9 + open.len() + close.len()))),
            (r#"{"t":"#, "}", false, Some((71, 5))),
            (r#"{"items":["#, "]}", false, (kind == 71).then_some((71, 10))),
            ("", "", false, (kind == 71).then_some((71, 0))),
        ] {
            let text = format!("{before}{open}{close}{after}");
            let (made, most) = most_held(|| read_json(Global, schema, text.as_bytes(), strict));
            let told = made.err().map(|error| (error.number(), error.place().expect("it has a place")));
            assert_eq!(told, refused, "{before} {after} {}", &open[..4]);
            assert!(most <= 2 * text.len() as isize, "{most} bytes for {count} brackets");
        }
    }
}
