//! The changes from one message to another: told in words beside what a person expects, and made again.

use crate::capnp_base::text;
use crate::capnp_call::calls::{any_refused, Call, Op, Step};
use crate::capnp_call::message::{run_copied, Run, MOST_WORDS};
use crate::capnp_diffs::change::{as_calls, Change};
use crate::capnp_diffs::diff::find_changes;
use crate::capnp_dynamic::{dynamic_struct, dynamic_value, printer};
use crate::fixtures::kinds::{FULL, KINDS, KINDS_SET};
use crate::fixtures::set_text::set_of;
use crate::capnp_patch::reach::read_path;
use crate::capnp_schema::schema::StructSchema;
use crate::capnp_schema::set::SchemaSet;
use crate::capnp_wire::error::ErrorKind;
use crate::capnp_wire::message::Reader;
use crate::capnp_wire::PointerReader;
use crate::rattle_std::alloc::Global;

type Value<'a> = dynamic_value::Reader<'a>;

fn text_of(value: Value<'_>) -> String {
    let mut out = crate::rattle_std::string::String::new(Global);
    printer::print(value, &mut out, false).expect("it has a text");
    out.as_str().to_owned()
}

fn steps_of(path: &str) -> Vec<Step<'_>> {
    let words = path.split('.').filter(|word| !word.is_empty());
    words
        .map(|word| match word.parse() {
            Ok(index) => Step::Element(index),
            Err(_) => Step::Named(word),
        })
        .collect()
}

fn kinds_set() -> SchemaSet {
    set_of(KINDS_SET)
}

fn full_root() -> PointerReader<'static> {
    Reader::new(Global, &FULL).expect("it is a message").get_root()
}

fn struct_of<'a>(root: PointerReader<'a>, schema: StructSchema<'a>) -> dynamic_struct::Reader<'a> {
    dynamic_struct::Reader::new(root.get_struct().expect("it is a struct"), schema)
}

fn seen<'a>(schema: StructSchema<'a>, path: &str) -> Value<'a> {
    read_path(Value::Struct(struct_of(full_root(), schema)), &steps_of(path)).expect("it can be read")
}

/// What calls leave of a message; those that are refused leave it as it was.
fn run<'a>(root: PointerReader<'_>, schema: StructSchema<'_>, calls: &[(&'a str, &'a str, Op<'a>)]) -> Run {
    let paths: Vec<Vec<Step<'_>>> = calls.iter().map(|(path, _, _)| steps_of(path)).collect();
    let calls: Vec<Call<'_>> = calls
        .iter()
        .zip(&paths)
        .map(|((_, last, op), path)| Call { path, last: steps_of(last)[0], op: *op })
        .collect();
    run_copied(Global, MOST_WORDS, root, schema, &calls).expect("there is room")
}

fn word_of(step: Step<'_>) -> String {
    match step {
        Step::Field(index) => format!("{index}"),
        Step::Named(name) => name.to_owned(),
        Step::Element(index) => format!("[{index}]"),
    }
}

/// A change in words.
fn told(change: &Change<'_>) -> String {
    let steps: Vec<String> = change.path.iter().chain([&change.last]).map(|step| word_of(*step)).collect();
    let place = steps.join(".");
    match change.op {
        Op::Set(value) => {
            let mut out = crate::rattle_std::string::String::new(Global);
            let is_read = printer::print(value, &mut out, false).is_ok();
            format!("{place} = {}", if is_read { out.as_str() } else { "what can't be read" })
        }
        Op::Init => format!("{place} init"),
        Op::Clear => format!("{place} clear"),
        _ => panic!("no such change"),
    }
}

/// The changes from one message to another, in words; and made on a copy of the one they leave the other.
fn changes_between(schema: StructSchema<'_>, old: PointerReader<'_>, new: PointerReader<'_>) -> Result<Vec<String>, ErrorKind> {
    let (source, target) = (struct_of(old, schema), struct_of(new, schema));
    let changes = find_changes(Global, source, target).map_err(|error| error.kind)?;
    let calls = as_calls(Global, changes.as_slice()).expect("there is memory");
    let made = run_copied(Global, MOST_WORDS, old, schema, calls.as_slice()).expect("there is room");
    assert!(!any_refused(made.replies.as_slice()));
    let made = struct_of(made.message.get_pointer_reader(0), schema);
    if has_text(new, schema) {
        assert_eq!(text_of(Value::Struct(made)), text_of(Value::Struct(target)));
        assert_eq!(find_changes(Global, made, target).map(|left| left.len()).map_err(|error| error.kind), Ok(0));
    }
    Ok(changes.iter().map(told).collect::<Vec<_>>())
}

/// Whether each part of a message can be read.
fn has_text(root: PointerReader<'_>, schema: StructSchema<'_>) -> bool {
    let mut out = crate::rattle_std::string::String::new(Global);
    printer::print(Value::Struct(struct_of(root, schema)), &mut out, false).is_ok()
}

/// The message of all kinds with its untyped pointer null, so that it can be compared.
fn base(schema: StructSchema<'_>) -> Run {
    run(full_root(), schema, &[("", "any", Op::Clear)])
}

#[test]
fn what_differs_is_told() {
    let set = kinds_set();
    let schema = set.struct_schema(KINDS);
    let old = base(schema);
    let old = old.message.get_pointer_reader(0);
    let word = Value::Text(text::Reader(b"new"));
    let cases: &[(&[(&str, &str, Op<'_>)], &[&str])] = &[
        (&[], &[]),
        (&[("", "int8", Op::Set(Value::Int8(-128)))], &[]),
        (&[("", "int8", Op::Set(Value::Int8(5)))], &["3 = 5"]),
        (&[("", "int64", Op::Set(Value::Int64(-9)))], &["6 = -9"]),
        (&[("", "uint64", Op::Set(Value::UInt64(1 << 63)))], &["10 = 9223372036854775808"]),
        (&[("", "truth", Op::Set(Value::Bool(false)))], &["1 = false"]),
        (&[("", "color", Op::Set(seen(schema, "colors.0")))], &["11 = red"]),
        (&[("", "text", Op::Set(word)), ("", "bytes", Op::Clear)], &["12 = \"new\"", "13 clear"]),
        (&[("", "text", Op::Initn(0))], &["12 = \"\""]),
        (&[("point", "x", Op::Set(Value::Int16(1)))], &["14.0 = 1"]),
        (&[("", "point", Op::Clear)], &["14 clear"]),
        (&[("", "numbers", Op::Initn(0))], &["16 = []"]),
        (&[("numbers", "1", Op::Set(Value::UInt16(7)))], &["16 = [65535, 7, 9]"]),
        (&[("flags", "1", Op::Set(Value::Bool(true)))], &["17 = [true, true, true]"]),
        (&[("", "voids", Op::Initn(3))], &["18 = [(), (), ()]"]),
        (&[("wide", "0", Op::Set(Value::Int64(1)))], &["19 = [1, 1]"]),
        (&[("colors", "1", Op::Set(seen(schema, "colors.0")))], &["20 = [red, red]"]),
        (&[("texts", "0", Op::Set(word))], &["21 = [\"new\", \"ab\"]"]),
        (&[("blobs", "1", Op::Initn(1))], &["22 = [0x\"\", 0x\"00\"]"]),
        (&[("points.0", "x", Op::Set(Value::Int16(9))), ("points.1", "y", Op::Set(Value::Int16(8)))], &["23.[0].0 = 9", "23.[1].1 = 8"]),
        (&[("", "points", Op::Initn(1))], &["23 = [(x = 0, y = -1)]"]),
        (&[("rows.0", "1", Op::Set(Value::Int8(3)))], &["24 = [[1, 3], [], [2]]"]),
        (&[("named", "name", Op::Set(word))], &["28.0 = \"new\""]),
        (&[("named", "times", Op::Set(Value::UInt8(9)))], &["28.2 = 9"]),
        (&[("named", "once", Op::Set(Value::Void))], &["28.1 = ()"]),
        (&[("", "count", Op::Set(Value::UInt32(0)))], &["27 = 0"]),
        (&[("", "none", Op::Set(Value::Void))], &["26 = ()"]),
    ];
    for (calls, want) in cases {
        let new = run(old, schema, calls);
        let got = changes_between(schema, old, new.message.get_pointer_reader(0));
        let want: Vec<String> = want.iter().map(|word| (*word).to_owned()).collect();
        assert_eq!(got, Ok(want));
    }
    // a group that becomes active is made anew
    let none = run(old, schema, &[("", "none", Op::Set(Value::Void))]);
    let got = changes_between(schema, none.message.get_pointer_reader(0), old);
    let want = ["28 init", "28.0 = \"me\"", "28.2 = 4"];
    assert_eq!(got, Ok(want.iter().map(|word| (*word).to_owned()).collect()));
}

#[test]
fn what_no_call_makes_is_refused() {
    let set = kinds_set();
    let schema = set.struct_schema(KINDS);
    let old = base(schema);
    let old = old.message.get_pointer_reader(0);
    let untyped = run(old, schema, &[("", "any", Op::Set(Value::Text(text::Reader(b"k"))))]);
    let untyped = untyped.message.get_pointer_reader(0);
    let kind = ErrorKind::CannotSetAnyPointerFieldToAPrimitiveValue;
    assert_eq!(changes_between(schema, old, untyped), Err(kind));
    assert_eq!(changes_between(schema, untyped, old), Ok(vec!["25 clear".to_owned()]));
    assert_eq!(changes_between(schema, untyped, untyped), Ok(vec![]));
    let other = run(old, schema, &[("", "any", Op::Set(Value::Text(text::Reader(b"l"))))]);
    assert_eq!(changes_between(schema, untyped, other.message.get_pointer_reader(0)), Err(kind));
}

/// Numbers in no order that is seen.
struct Random(u64);

impl Random {
    fn next(&mut self, below: u64) -> u64 {
        self.0 = self.0.wrapping_mul(6364136223846793005).wrapping_add(1442695040888963407);
        (self.0 >> 33) % below
    }
}

/// A call on some field; many are refused.
fn any_call<'a>(random: &mut Random, schema: StructSchema<'a>) -> (&'static str, &'static str, Op<'a>) {
    const NAMES: [&str; 29] = [
        "void", "truth", "lie", "int8", "int16", "int32", "int64", "uint8", "uint16", "uint32", "uint64", "color",
        "text", "bytes", "point", "plain", "numbers", "flags", "voids", "wide", "colors", "texts", "blobs", "points",
        "rows", "none", "count", "named", "x",
    ];
    const PATHS: [&str; 12] = ["", "", "", "", "point", "plain", "points.0", "points.1", "named", "texts", "rows", "rows.0"];
    const INNER: [&str; 9] = ["x", "y", "name", "once", "times", "0", "1", "2", "3"];
    let path = PATHS[random.next(12) as usize];
    let last = if path.is_empty() { NAMES[random.next(29) as usize] } else { INNER[random.next(9) as usize] };
    let number = random.next(5);
    let op = match random.next(16) {
        0 | 1 => Op::Clear,
        2 => Op::Init,
        3 | 4 => Op::Initn(number as u32),
        5 => Op::Set(Value::Void),
        6 => Op::Set(Value::Bool(number > 2)),
        7 => Op::Set(Value::Int8(number as i8 - 2)),
        8 => Op::Set(Value::Int16(number as i16 - 2)),
        9 => Op::Set(Value::Int64(number as i64 - 2)),
        10 => Op::Set(Value::UInt8(number as u8)),
        11 => Op::Set(Value::UInt16(number as u16)),
        12 => Op::Set(Value::UInt32(number as u32)),
        13 => Op::Set(Value::Text(text::Reader([&b""[..], b"a", b"word", b"k", b"me"][number as usize]))),
        14 => Op::Set(Value::Data([&b""[..], b"a", b"word", b"k", b"me"][number as usize])),
        _ => Op::Set(seen(schema, ["point", "plain", "points", "rows.0", "texts"][number as usize])),
    };
    (path, last, op)
}

#[test]
fn changes_are_made() {
    let set = kinds_set();
    let schema = set.struct_schema(KINDS);
    let mut random = Random(7);
    let (mut some, mut refused) = (0, 0);
    for _ in 0..3000 {
        let start = base(schema);
        let start = start.message.get_pointer_reader(0);
        let mut one = || {
            let calls: Vec<_> = (0..12).map(|_| any_call(&mut random, schema)).collect();
            run(start, schema, &calls)
        };
        let (old, new) = (one(), one());
        let (old, new) = (old.message.get_pointer_reader(0), new.message.get_pointer_reader(0));
        if !(has_text(old, schema) && has_text(new, schema)) {
            refused += usize::from(changes_between(schema, old, new).is_err());
            continue;
        }
        let changes = changes_between(schema, old, new).expect("it can be made");
        some += changes.len();
        assert_eq!(changes_between(schema, new, new), Ok(vec![]));
    }
    assert!(some > 5000 && refused > 100, "{some} {refused}");
}
