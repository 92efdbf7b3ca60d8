//! Texts of values that are read: what each stands for or where it is refused, and prints of many messages, which are read as
//! messages with the same prints.
#![forbid(unsafe_code)]

#[path = "common/bases.rs"]
#[allow(dead_code, reason = "other tests take more of it")]
mod bases;
#[path = "versions/messages.rs"]
mod messages;
#[path = "versions/model.rs"]
#[allow(dead_code, reason = "other tests take more of it")]
mod model;
#[path = "common/threads.rs"]
mod threads;

use bases::{Examples, Set, SETS};
use messages::random_message;
use model::random::Random;
use model::Schema;
use riftcalico::dynamic_struct;
use riftcalico::dynamic_value::Reader as Value;
use riftcalico::memory::Global;
use riftcalico::message;
use riftcalico::printer::to_string;
use riftcalico::run::MOST_WORDS;
use riftcalico::schema::{builtin, Field, SchemaSet, StructSchema};
use riftcalico::value_texts::{read_element, read_field, read_root, read_shown, Error, Name, Refusal, RefusalKind, Shown};
use threads::on_all_processors;
use RefusalKind::{CannotStand, GivenTwice, NameUnknown, TooDeep};

/// How many random schemas are tried, and how many messages of each.
const SCHEMAS: u64 = if cfg!(debug_assertions) { 300 } else { 5_000 };
const MESSAGES: u64 = 20;

fn refused<T>(kind: RefusalKind, place: usize) -> Result<T, Error> {
    Err(Error::Refused(Refusal { kind, place }))
}

// ---- texts without types ----

/// A text that was read, with its places.
fn told(shown: &Shown<'_>) -> String {
    let name = |name: &Name<'_>| String::from_utf8_lossy(name.bytes).into_owned();
    match shown {
        Shown::Leaf(place, bytes) => format!("{place}:{}", String::from_utf8_lossy(bytes)),
        Shown::Fields(place, parts) => {
            let parts: Vec<_> = parts.iter().map(|part| format!("{}:{}={}", part.0.place, name(&part.0), told(&part.1))).collect();
            format!("{place}:({})", parts.join(" "))
        }
        Shown::Items(place, parts) => {
            assert!(parts.iter().all(|part| part.0.bytes.is_empty()));
            let parts: Vec<_> = parts.iter().map(|part| told(&part.1)).collect();
            format!("{place}:[{}]", parts.join(" "))
        }
    }
}

#[test]
fn texts_have_parts_with_places() {
    let rows = [
        ("a", "0:a"),
        (" a\n", "1:a"),
        ("()", "0:()"),
        ("( )", "0:()"),
        ("(\n)", "0:()"),
        ("[]", "0:[]"),
        ("[\t]", "0:[]"),
        ("[1]", "0:[1:1]"),
        ("[1, 2]", "0:[1:1 4:2]"),
        ("[1,2]", "0:[1:1 3:2]"),
        ("[1 , 2 ]", "0:[1:1 5:2]"),
        ("(a = 1)", "0:(1:a=5:1)"),
        ("(a=1,b=2)", "0:(1:a=3:1 5:b=7:2)"),
        ("(\n  a = 1,\n  b = [\n    ()\n  ]\n)\n", "0:(4:a=8:1 13:b=17:[23:()])"),
        ("(a = \"x, y) z\", b = 0x\"00 ff\")", "0:(1:a=5:\"x, y) z\" 16:b=20:0x\"00 ff\")"),
        ("\"a\\\"b, c\"", "0:\"a\\\"b, c\""),
        ("[\"\\\\\", \"]\"]", "0:[1:\"\\\\\" 7:\"]\"]"),
        ("[[], [[1], 2]]", "0:[1:[] 5:[6:[7:1] 11:2]]"),
        ("a(b", "0:a(b"),
        ("(a = = )", "0:(1:a=5:=)"),
        ("\"open", "0:\"open"),
        ("(#1 = 1)", "0:(1:#1=6:1)"),
    ];
    for (text, wanted) in rows {
        let shown = read_shown(Global, text.as_bytes()).unwrap_or_else(|error| panic!("{text}: {error:?}"));
        assert_eq!(told(&shown), wanted, "{text}");
    }
}

#[test]
fn what_cannot_stand_has_a_place() {
    let rows = [
        ("", 0),
        ("  ", 2),
        (")", 0),
        (",", 0),
        ("a b", 2),
        ("a,", 1),
        ("a)", 1),
        ("(", 1),
        ("(a", 2),
        ("(a =", 4),
        ("(a = ", 5),
        ("(a = 1", 6),
        ("(a = 1,", 7),
        ("(a = 1,)", 7),
        ("(a = 1 b = 2)", 7),
        ("(a 1)", 3),
        ("(a = )", 5),
        ("(= 1)", 1),
        ("(,)", 1),
        ("(a = 1]", 6),
        ("(a = 1))", 7),
        ("(a)", 2),
        ("[", 1),
        ("[1", 2),
        ("[1,", 3),
        ("[1,]", 3),
        ("[,1]", 1),
        ("[1 2]", 3),
        ("[1)", 2),
        ("[1]]", 3),
        ("[\"a]", 4),
        ("(a = <opaque pointer>)", 5),
        ("<invalid utf-8: [255]>", 0),
    ];
    for (text, place) in rows {
        let read = read_shown(Global, text.as_bytes()).map(|shown| told(&shown));
        assert_eq!(read, refused(CannotStand, place), "{text}");
    }
}

#[test]
fn brackets_stand_64_deep() {
    for (levels, wanted) in [(63, None), (64, None), (65, Some(64)), (1_000_000, Some(64))] {
        let text = "[".repeat(levels) + &"]".repeat(levels);
        let read = read_shown(Global, text.as_bytes()).map(|_| ());
        assert_eq!(read, wanted.map_or(Ok(()), |place| refused(TooDeep, place)), "{levels}");
    }
}

// ---- values of a type ----

fn root_text(message: &message::Builder, schema: StructSchema<'_>, indented: bool) -> String {
    let root = message.as_reader().get_struct().expect("the root is a struct");
    to_string(Value::Struct(dynamic_struct::Reader::new(root, schema)), indented).expect("it has a print")
}

/// The print of the root that a text is read as.
fn read_as(schema: StructSchema<'_>, text: &str) -> Result<String, Error> {
    read_root(Global, MOST_WORDS, schema, text.as_bytes()).map(|message| root_text(&message, schema, false))
}

#[test]
fn roots_are_read_under_the_built_in_set() {
    let set = builtin::new_set(Global).expect("there is memory");
    let rows = [
        ("Flat", "(a = 5)", Ok("(a = 5)")),
        ("Flat", "()", Ok("(a = 0)")),
        ("Flat", "( a=5 )", Ok("(a = 5)")),
        ("Flat", "(a = 5x)", refused(CannotStand, 6)),
        ("Flat", "(a = )", refused(CannotStand, 5)),
        ("Flat", "(a = 5, a = 6)", refused(GivenTwice, 8)),
        ("Flat", "(a = 5, b = 6)", refused(NameUnknown, 8)),
        ("Flat", "(a = (b = 1))", refused(CannotStand, 5)),
        ("Flat", "(a = [1])", refused(CannotStand, 5)),
        ("Flat", "[1]", refused(CannotStand, 0)),
        ("Flat", " 5", refused(CannotStand, 1)),
        ("Mixed", "(a = 5, b = \"hi\", y = 9)", Ok("(a = 5, y = 9, b = \"hi\")")),
        ("Mixed", "(a = 5, x = (), y = 9)", refused(GivenTwice, 16)),
        ("Shapes", "(id = 1, circle = (r = 4294967295))", Ok("(id = 1, circle = (r = 4294967295))")),
        ("Shapes", "(id = 1, circle = 7)", refused(CannotStand, 18)),
        ("Loop", "(again = (again = (end = ())))", Ok("(again = (again = (end = ())))")),
        ("Loop", "(again = (end = (x = 1)))", refused(CannotStand, 16)),
        ("Lists", "(bytes = [1, 2, 255], raw = 0x\"00ff\", t = word)", Ok("(bytes = [1, 2, 255], raw = 0x\"00ff\", t = \"word\")")),
        ("Lists", "(items = [(a = 1), ()])", Ok("(items = [(a = 1), (a = 0)])")),
        ("Lists", "(items = [(a = 1), (b = 2)])", refused(NameUnknown, 20)),
        ("Lists", "(items = [(a = 1), (a = 2, a = 3)])", refused(GivenTwice, 27)),
        ("Lists", "(bytes = [1, 256])", refused(CannotStand, 15)),
        ("Lists", "(bytes = [1, (a = 2)])", refused(CannotStand, 13)),
        ("Lists", "(bytes = (a = 2))", refused(CannotStand, 9)),
        ("Shapes", "(tag = (any = 0))", refused(CannotStand, 14)),
        ("Shapes", "(tag = (any = ()))", refused(CannotStand, 14)),
        ("Shapes", "(tag = (u1 = 3), word = x)", refused(GivenTwice, 17)),
        ("Shapes", "(id = 2, tag = (n = 3, u1 = 9, q = \"z\"))", Ok("(id = 2, tag = (n = 3, u1 = 9, q = \"z\"))")),
        ("Node", "(size = byte)", Ok("(id = 0, size = byte)")),
        ("Node", "(size = 9)", Ok("(id = 0, size = 9)")),
        ("Node", "(size = bites)", refused(CannotStand, 11)),
        ("Many", "(flag = false, s = -1, q = 18446744073709551615, z = ())", Ok("(flag = false, s = -1, n = 7, w = 0, q = 18446744073709551615, z = ())")),
        ("Many", "(z = (a = 1))", refused(CannotStand, 5)),
        ("Many", "(z = [])", refused(CannotStand, 5)),
    ];
    for (name, text, wanted) in rows {
        let schema = set.get_struct_named(name).expect("it is there");
        assert_eq!(read_as(schema, text), wanted.map(str::to_owned), "{name} {text}");
    }
}

#[test]
fn a_message_has_at_most_the_words_of_its_limit() {
    let set = builtin::new_set(Global).expect("there is memory");
    let schema = set.get_struct_named("Lists").expect("it is there");
    let text = format!("(raw = 0x\"{}\")", "00".repeat(800));
    assert!(read_root(Global, 200, schema, text.as_bytes()).is_ok());
    let left = read_root(Global, 100, schema, text.as_bytes()).map(|_| ());
    assert_eq!(left, Err(Error::NotMade(riftcalico::ErrorKind::OutOfMemory)));
}

// ---- prints ----

/// Whether a struct, or one that it leads to, has a discriminant that names no member, or an untyped pointer that is none.
fn is_told_whole(value: Value<'_>) -> bool {
    match value {
        Value::Struct(reader) => is_record_told(reader),
        Value::List(list) => (0..list.len()).all(|index| is_told_whole(list.get(index).expect("it can be read"))),
        Value::AnyPointer(_) => false,
        _ => true,
    }
}

fn is_record_told(reader: dynamic_struct::Reader<'_>) -> bool {
    let schema = reader.get_schema();
    let members = schema.get_union_fields().expect("it has fields").len();
    if members > 0 && reader.which().expect("it can be read").is_none() {
        return false;
    }
    let fields = schema.get_fields().expect("it has fields");
    (0..fields.len()).all(|index| {
        let field = fields.get(index);
        let is_group = field.get_group().is_some();
        let is_member = field.get_proto().is_member();
        if is_member && !reader.is_active(field) {
            return true;
        }
        if !is_group && !reader.has(field).expect("it can be read") {
            return true;
        }
        is_told_whole(reader.get(field).expect("it can be read"))
    })
}

/// Reads the prints of a message, on one line and on many. Whether it could be read.
fn try_message(bytes: &[u8], schema: StructSchema<'_>, told: &str) -> bool {
    let root = message::read_root(bytes, schema).expect("it is a message");
    let Ok(line) = to_string(Value::Struct(root), false) else {
        return false;
    };
    let lines = to_string(Value::Struct(root), true).expect("it has a print");
    if let Some(place) = line.find('<') {
        assert_eq!(read_as(schema, &line), refused(CannotStand, place), "{told} {line}");
        return false;
    }
    let made = read_root(Global, MOST_WORDS, schema, line.as_bytes()).unwrap_or_else(|error| panic!("{told} {line}: {error:?}"));
    let again = read_root(Global, MOST_WORDS, schema, lines.as_bytes()).unwrap_or_else(|error| panic!("{told} {lines}: {error:?}"));
    assert_eq!(made.write_message().expect("it is short").as_slice(), again.write_message().expect("it is short").as_slice());
    if !is_record_told(root) {
        return false;
    }
    assert_eq!(root_text(&made, schema, false), line, "{told}");
    assert_eq!(root_text(&made, schema, true), lines, "{told}");
    true
}

#[test]
fn prints_of_examples_are_read() {
    let examples = Examples::read();
    let mut read = Vec::new();
    for base in &examples.bases {
        let schema = examples.sets[base.set].get_struct_named(base.name).expect("it is there");
        if message::read_root(&base.bytes, schema).is_ok() && try_message(&base.bytes, schema, base.file) {
            read.push((SETS[base.set], base.name));
        }
    }
    for (set, name) in [(Set::AddressBook, "AddressBook"), (Set::Station, "Station"), (Set::BuiltIn, "Loop")] {
        assert!(read.contains(&(set, name)), "{name} of {read:?}");
    }
    assert!(read.len() > 15, "{read:?}");
}

/// The lists that are elements of a field's list, each alone, and how many there are.
fn try_elements(field: Field<'_>, value: Value<'_>) -> usize {
    let Value::List(list) = value else {
        return 0;
    };
    let mut tried = 0;
    for index in 0..list.len() {
        let element = list.get(index).expect("it can be read");
        if !matches!(element, Value::List(_)) {
            return 0;
        }
        let print = to_string(element, index % 2 == 0).expect("it has a print");
        let made = read_element(Global, MOST_WORDS, field, 1, print.as_bytes()).unwrap_or_else(|error| panic!("{print}: {error:?}"));
        let sections = made.as_reader().get_struct().expect("the root is a struct");
        let left = dynamic_struct::Reader::new(sections, field.get_containing_struct()).get(field).expect("it can be read");
        let Value::List(alone) = left else {
            panic!("{print} is in no list");
        };
        assert_eq!(alone.len(), 1);
        let first = alone.get(0).expect("it can be read");
        assert_eq!(to_string(first, index % 2 == 0).expect("it has a print"), print);
        tried += 1;
    }
    tried
}

/// The print of a field of a new struct that is set from a text.
fn print_of_set(field: Field<'_>, text: &str, indented: bool) -> String {
    let mut message = message::Builder::new(Global).expect("there is memory");
    let mut root = dynamic_struct::Builder::open(message.root(), field.get_containing_struct()).expect("there is memory");
    assert_eq!(root.set_from_text(field, text).expect("it takes the value"), Ok(()), "{text}");
    let left = root.into_reader().get(field).expect("it can be read");
    to_string(left, indented).expect("it has a print")
}

/// The value of each field of a struct alone, and the lists that are elements of its lists: how many there are of both.
fn try_fields(set: &SchemaSet, number: u32, bytes: &[u8]) -> (usize, usize) {
    let schema = set.struct_schema(number);
    let root = message::read_root(bytes, schema).expect("it is a message");
    let fields = schema.get_fields().expect("it has fields");
    let (mut tried, mut elements) = (0, 0);
    for index in 0..fields.len() {
        let field = fields.get(index);
        if field.get_proto().is_member() && !root.is_active(field) {
            continue;
        }
        let value = root.get(field).expect("it can be read");
        let print = to_string(value, index % 2 == 0).expect("it has a print");
        if print.contains('<') || !is_told_whole(value) {
            continue;
        }
        let made = read_field(Global, MOST_WORDS, field, print.as_bytes()).unwrap_or_else(|error| panic!("{print}: {error:?}"));
        let sections = made.as_reader().get_struct().expect("the root is a struct");
        let left = dynamic_struct::Reader::new(sections, schema).get(field).expect("it can be read");
        assert_eq!(to_string(left, index % 2 == 0).expect("it has a print"), print);
        if field.get_group().is_none() {
            // A group is copied field by field, and a null list or text is an empty one then.
            assert_eq!(print_of_set(field, &print, index % 2 == 0), print);
        }
        tried += 1;
        elements += try_elements(field, value);
    }
    (tried, elements)
}

#[test]
fn prints_of_random_messages_are_read() {
    let counts = on_all_processors(SCHEMAS, |seed| {
        let mut random = Random::new(11, seed);
        let schema = Schema::random(&mut random);
        let set = schema.set();
        let mut counts = (0, (0, 0));
        for _ in 0..MESSAGES {
            let number = (0..schema.structs.len()).filter(|number| !schema.structs[*number].is_group).nth(0).expect("there is one");
            let bytes = random_message(&schema, number, &mut random);
            counts.0 += usize::from(try_message(&bytes, set.struct_schema(number as u32), &format!("{seed}")));
            let (fields, elements) = try_fields(&set, number as u32, &bytes);
            counts.1 = (counts.1.0 + fields, counts.1.1 + elements);
        }
        counts
    });
    let messages = counts.iter().map(|count| count.0).sum::<usize>() as u64;
    let fields = counts.iter().map(|count| count.1.0).sum::<usize>() as u64;
    let elements = counts.iter().map(|count| count.1.1).sum::<usize>() as u64;
    println!("{messages} messages, {fields} fields and {elements} lists in lists are read back");
    assert!(messages > SCHEMAS * MESSAGES / 4);
    assert!(fields > SCHEMAS * MESSAGES);
    assert!(elements > SCHEMAS);
}

/// Reads a damaged text: one that is refused has a place in the text, or at its end.
fn try_damaged(schema: StructSchema<'_>, text: &[u8]) -> bool {
    match read_root(Global, 1 << 12, schema, text) {
        Ok(message) => {
            root_text(&message, schema, true);
            true
        }
        Err(Error::Refused(refusal)) => {
            assert!(refusal.place <= text.len(), "{}", String::from_utf8_lossy(text));
            false
        }
        Err(_) => false,
    }
}

#[test]
fn damaged_prints_are_refused_within_them() {
    let examples = Examples::read();
    let set = &examples.sets[SETS.iter().position(|set| *set == Set::AddressBook).expect("it is listed")];
    let schema = set.get_struct_named("AddressBook").expect("it is there");
    let base = examples.bases.iter().find(|base| base.name == "AddressBook").expect("it is there");
    let print = to_string(Value::Struct(message::read_root(&base.bytes, schema).expect("it is a message")), true).expect("it has a print");
    for length in 0..print.len() {
        assert!(!try_damaged(schema, &print.as_bytes()[..length]), "{length}");
    }
    let pieces = [&b"("[..], b")", b"[", b"]", b",", b"=", b"\"", b"\\", b" ", b"0x\"", b"<", b"\xff", b"id = ", b"people = ", b"()", b"[]"];
    let taken = on_all_processors(SCHEMAS, |seed| {
        let mut random = Random::new(12, seed);
        let mut text = print.as_bytes().to_vec();
        for _ in 0..1 + random.below(3) {
            let at = random.below(text.len());
            let end = if random.once_in(2) { at } else { text.len().min(at + random.below(6)) };
            text.splice(at..end, random.one_of(&pieces).iter().copied());
        }
        try_damaged(schema, &text)
    });
    let taken = taken.into_iter().filter(|taken| *taken).count() as u64;
    assert!(taken > SCHEMAS / 100 && taken < SCHEMAS / 2, "{taken}");
}
