//! Edits of lists where they stand in a message: texts of lists before and after, by the definition of texts.

use crate::capnp_base::text;
use crate::capnp_call::calls::{Call, Op, Reply, Step};
use crate::capnp_call::message::{Run, MOST_WORDS};
use crate::capnp_dynamic::{dynamic_list, dynamic_struct, dynamic_value, printer};
use crate::capnp_edit_calls::acts::Act;
use crate::capnp_edit_calls::change::Change;
use crate::capnp_edit_calls::copy::PathCopy;
use crate::capnp_edit_calls::edit::ListEdit;
use crate::capnp_edit_calls::message::{run_acts_copied, run_acts_new};
use crate::capnp_edits::added::list_one;
use crate::fixtures::kinds::{FULL, KINDS, KINDS_SET};
use crate::fixtures::set_text::set_of;
use crate::capnp_patch::reach::read_path;
use crate::capnp_schema::schema::StructSchema;
use crate::capnp_schema::set::SchemaSet;
use crate::capnp_splices::read::read_list;
use crate::capnp_wire::error::ErrorKind;
use crate::capnp_wire::message::Reader;
use crate::capnp_wire::PointerReader;
use crate::rattle_std::alloc::Global;
use std::time::{Duration, Instant};

type Value<'a> = dynamic_value::Reader<'a>;

fn text_of(value: Value<'_>) -> String {
    let mut out = crate::rattle_std::string::String::new(Global);
    printer::print(value, &mut out, false).expect("it has a text");
    out.as_str().to_owned()
}

/// The steps of a path, as `rows.2`.
fn steps_of(path: &str) -> Vec<Step<'_>> {
    path.split('.')
        .map(|word| match word.parse() {
            Ok(index) => Step::Element(index),
            Err(_) => Step::Named(word),
        })
        .collect()
}

fn edit<'c>(path: &'c [Step<'c>], change: Change<'c>) -> Act<'c> {
    Act::Edit(ListEdit { path, change })
}

/// What stands at a path of a message's root.
fn seen<'a>(root: PointerReader<'a>, schema: StructSchema<'a>, path: &[Step<'_>]) -> Value<'a> {
    let root = dynamic_struct::Reader::new(root.get_struct().expect("it is a struct"), schema);
    read_path(Value::Struct(root), path).expect("it can be read")
}

/// The text at a path of what a run left.
fn text_at(run: &Run, schema: StructSchema<'_>, path: &[Step<'_>]) -> String {
    text_of(seen(run.message.get_pointer_reader(0), schema, path))
}

fn full_root() -> PointerReader<'static> {
    Reader::new(Global, &FULL).expect("it is a message").get_root()
}

fn kinds_set() -> SchemaSet {
    set_of(KINDS_SET)
}

/// One change of a message with all lists: the text of the list then, or the refusal, which leaves all as it was.
fn changed(set: &SchemaSet, path: &str, change: Change<'_>) -> Result<String, ErrorKind> {
    let schema = set.struct_schema(KINDS);
    let steps = steps_of(path);
    let made = run_acts_copied(Global, MOST_WORDS, full_root(), schema, &[edit(&steps, change)]);
    let run = made.expect("there is room");
    match &run.replies.as_slice() {
        [Reply::Done] => Ok(text_at(&run, schema, &steps)),
        [Reply::Refused(kind)] => {
            assert_eq!(text_at(&run, schema, &[]), text_of(seen(full_root(), schema, &[])), "{path}");
            Err(*kind)
        }
        replies => panic!("{path}: {replies:?}"),
    }
}

#[test]
fn lists_of_all_kinds_are_edited() {
    let set = kinds_set();
    let schema = set.struct_schema(KINDS);
    let at = |path: &str| seen(full_root(), schema, &steps_of(path));
    let word = Value::Text(text::Reader(b"new"));
    for (path, value, appended, inserted, removed, longer) in [
        ("numbers", Value::UInt16(7), "[65535, 0, 9, 7]", "[65535, 7, 0, 9]", "[65535, 9]", "[65535, 0, 9, 0]"),
        ("flags", Value::Bool(true), "[true, false, true, true]", "[true, true, false, true]", "[true, true]", "[true, false, true, false]"),
        ("voids", Value::Void, "[(), (), ()]", "[(), (), ()]", "[()]", "[(), (), (), ()]"),
        ("wide", Value::Int64(-7), "[-1, 1, -7]", "[-1, -7, 1]", "[-1]", "[-1, 1, 0, 0]"),
        ("colors", at("color"), "[red, blue, blue]", "[red, blue, blue]", "[red]", "[red, blue, red, red]"),
        ("texts", word, "[\"\", \"ab\", \"new\"]", "[\"\", \"new\", \"ab\"]", "[\"\"]", "[\"\", \"ab\", \"\", \"\"]"),
        ("blobs", Value::Data(b"\x01\x02"), "[0x\"\", 0x\"07\", 0x\"0102\"]", "[0x\"\", 0x\"0102\", 0x\"07\"]", "[0x\"\"]", "[0x\"\", 0x\"07\", 0x\"\", 0x\"\"]"),
        ("points", at("point"), "[(x = 1, y = 2), (x = 3, y = -1), (x = -5, y = 6)]", "[(x = 1, y = 2), (x = -5, y = 6), (x = 3, y = -1)]", "[(x = 1, y = 2)]", "[(x = 1, y = 2), (x = 3, y = -1), (x = 0, y = -1), (x = 0, y = -1)]"),
        ("rows", at("rows.0"), "[[1, -1], [], [2], [1, -1]]", "[[1, -1], [1, -1], [], [2]]", "[[1, -1], [2]]", "[[1, -1], [], [2], []]"),
        ("rows.0", Value::Int8(5), "[1, -1, 5]", "[1, 5, -1]", "[1]", "[1, -1, 0, 0]"),
    ] {
        let before = text_of(at(path));
        let Value::List(list) = at(path) else { panic!("{path}") };
        let length = list.len();
        for (change, after) in [
            (Change::Append(&[value]), Ok(appended)),
            (Change::Append(&[]), Ok(before.as_str())),
            (Change::Insert(1, value), Ok(inserted)),
            (Change::Insert(length, value), Ok(appended)),
            (Change::Insert(length + 1, value), Err(ErrorKind::NoSuchElement)),
            (Change::Remove(1), Ok(removed)),
            (Change::Remove(length), Err(ErrorKind::NoSuchElement)),
            (Change::Resize(4), Ok(longer)),
            (Change::Resize(0), Ok("[]")),
        ] {
            assert_eq!(changed(&set, path, change), after.map(String::from), "{path}");
        }
        // an element of type Void takes every value
        if path != "voids" {
            for values in [&[Value::UInt8(1)][..], &[value, Value::UInt8(1), value]] {
                assert_eq!(changed(&set, path, Change::Append(values)), Err(ErrorKind::TypeMismatch), "{path}");
            }
        }
    }
}

#[test]
fn other_paths_are_refused() {
    let set = kinds_set();
    let change = Change::Resize(1);
    for (path, kind) in [
        ("none", ErrorKind::InactiveMember),
        ("text", ErrorKind::TypeMismatch),
        ("point", ErrorKind::TypeMismatch),
        ("any", ErrorKind::TypeMismatch),
        ("nothing", ErrorKind::FieldNotFound),
        ("rows.3", ErrorKind::NoSuchElement),
        ("point.x.y", ErrorKind::NotAContainer),
        ("numbers.numbers", ErrorKind::NotAContainer),
        ("1", ErrorKind::NotAContainer),
    ] {
        assert_eq!(changed(&set, path, change), Err(kind), "{path}");
    }
}

#[test]
fn absent_lists_are_made() {
    let set = kinds_set();
    let schema = set.struct_schema(KINDS);
    let rows = steps_of("rows");
    for (path, change, after) in [
        ("numbers", Change::Append(&[Value::UInt16(7)]), "[1, 2, 3, 7]"),
        ("numbers", Change::Remove(0), "[2, 3]"),
        ("flags", Change::Append(&[Value::Bool(true)]), "[true]"),
        ("texts", Change::Insert(0, Value::Text(text::Reader(b"a"))), "[\"a\"]"),
        ("points", Change::Resize(1), "[(x = 0, y = -1)]"),
        ("rows.1", Change::Append(&[Value::Int8(4), Value::Int8(5)]), "[4, 5]"),
    ] {
        let steps = steps_of(path);
        let acts = [edit(&rows, Change::Resize(2)), edit(&steps, change)];
        let run = run_acts_new(Global, MOST_WORDS, schema, &acts).expect("there is room");
        assert_eq!(run.replies.as_slice(), [Reply::Done, Reply::Done], "{path}");
        assert_eq!(text_at(&run, schema, &steps), after, "{path}");
    }
}

/// A list of structs that are larger than their type's: what the schema doesn't know stays with its element.
#[test]
fn unknown_parts_stay() {
    let set = kinds_set();
    let schema = set.struct_schema(KINDS);
    let points = steps_of("points");
    let root = seen(full_root(), schema, &[]);
    let whole = crate::fixtures::records::struct_type(KINDS);
    let made = list_one(Global, &set, whole, root).expect("it is a list");
    let larger = dynamic_list::Reader::new(read_list(&made).expect("it is read"), whole, &set);
    let point = seen(full_root(), schema, &steps_of("point"));
    let last = [point];
    let set_points = Call { path: &[], last: points[0], op: Op::Set(Value::List(larger)) };
    let acts = [
        Act::Call(set_points),
        edit(&points, Change::Insert(0, point)),
        edit(&points, Change::Append(&last)),
        edit(&points, Change::Remove(0)),
    ];
    let run = run_acts_new(Global, MOST_WORDS, schema, &acts).expect("there is room");
    assert_eq!(run.replies.as_slice(), [Reply::Done, Reply::Done, Reply::Done, Reply::Done]);
    let Value::List(list) = seen(run.message.get_pointer_reader(0), schema, &points) else { panic!("it is a list") };
    assert_eq!(list.len(), 2);
    let under = dynamic_list::Reader::new(list.get_elements(), whole, &set);
    assert_eq!(text_of(under.get(0).expect("it is there")), text_of(root));
    assert_eq!(text_of(list.get(1).expect("it is there")), "(x = -5, y = 6)");
}

/// A copy of each kind of value: the text at its end then, or the refusal, which leaves all as it was.
#[test]
fn parts_are_copied() {
    let set = kinds_set();
    let schema = set.struct_schema(KINDS);
    for (path, from, after) in [
        ("lie", "truth", Ok("true")),
        ("int8", "rows.0.1", Ok("-1")),
        ("uint16", "numbers.0", Ok("65535")),
        ("numbers.1", "uint16", Ok("65535")),
        ("flags.1", "flags.2", Ok("true")),
        ("colors.0", "color", Ok("blue")),
        ("text", "texts.1", Ok("\"ab\"")),
        ("texts.0", "text", Ok("\"word\"")),
        ("bytes", "blobs.1", Ok("0x\"07\"")),
        ("plain", "point", Ok("(x = -5, y = 6)")),
        ("points.0", "plain", Ok("(x = 7, y = -1)")),
        ("rows.1", "rows.0", Ok("[1, -1]")),
        ("rows", "rows", Ok("[[1, -1], [], [2]]")),
        ("void", "text", Ok("()")),
        ("int8", "uint8", Err(ErrorKind::TypeMismatch)),
        ("text", "bytes", Err(ErrorKind::TypeMismatch)),
        ("points.0", "rows.0", Err(ErrorKind::TypeMismatch)),
        ("any", "any", Err(ErrorKind::CannotSetAnyPointerFieldToAPrimitiveValue)),
        ("text", "nothing", Err(ErrorKind::FieldNotFound)),
        ("text", "texts.2", Err(ErrorKind::NoSuchElement)),
        ("count", "none", Err(ErrorKind::InactiveMember)),
        ("texts.2", "text", Err(ErrorKind::NoSuchElement)),
    ] {
        let (to, source) = (steps_of(path), steps_of(from));
        let acts = [Act::Copy(PathCopy { path: &to, from: &source })];
        let made = run_acts_copied(Global, MOST_WORDS, full_root(), schema, &acts);
        let run = made.expect("there is room");
        match run.replies.as_slice() {
            [Reply::Done] => assert_eq!(Ok(text_at(&run, schema, &to).as_str()), after, "{path} of {from}"),
            [Reply::Refused(kind)] => {
                assert_eq!(Err(*kind), after, "{path} of {from}");
                assert_eq!(text_at(&run, schema, &[]), text_of(seen(full_root(), schema, &[])), "{path} of {from}");
            }
            replies => panic!("{path} of {from}: {replies:?}"),
        }
    }
}

/// Acts in a row have a reply each, also where appends are made together and where one of them is refused.
#[test]
fn each_act_has_its_reply() {
    let set = kinds_set();
    let schema = set.struct_schema(KINDS);
    let (wide, flags, again) = (steps_of("wide"), steps_of("flags"), steps_of("wide"));
    let get = Call { path: &[], last: wide[0], op: Op::Get };
    let values: Vec<Value<'_>> = (0..6).map(Value::Int64).collect();
    let acts = [
        edit(&wide, Change::Append(&values[0..1])),
        edit(&again, Change::Append(&values[1..2])),
        edit(&flags, Change::Append(&[Value::Bool(true)])),
        edit(&wide, Change::Append(&values[2..3])),
        Act::Call(get),
        edit(&wide, Change::Append(&values[3..4])),
        edit(&wide, Change::Append(&[Value::Bool(true)])),
        edit(&again, Change::Append(&values[4..5])),
        edit(&wide, Change::Remove(9)),
        edit(&wide, Change::Append(&values[5..6])),
    ];
    let run = run_acts_new(Global, MOST_WORDS, schema, &acts).expect("there is room");
    assert_eq!(text_at(&run, schema, &wide), "[0, 1, 2, 3, 4, 5]");
    assert_eq!(text_at(&run, schema, &flags), "[true]");
    let refused: Vec<usize> = (0..acts.len()).filter(|at| matches!(run.replies[*at], Reply::Refused(_))).collect();
    assert_eq!(refused, [6, 8]);
    assert_eq!(run.replies[6], Reply::Refused(ErrorKind::TypeMismatch));
    assert_eq!(run.replies[8], Reply::Refused(ErrorKind::NoSuchElement));
    assert_eq!(run.replies.len(), acts.len());
}

/// 100,000 appends in a run are one edit: a copy of the list for each would be 5,000,000,000 elements.
#[test]
fn many_appends_take_one_copy() {
    let set = kinds_set();
    let schema = set.struct_schema(KINDS);
    for (path, value) in [("wide", Value::Int64(7)), ("texts", Value::Text(text::Reader(b"seven")))] {
        let steps = steps_of(path);
        let values = [value];
        let acts = vec![edit(&steps, Change::Append(&values)); 100_000];
        let start = Instant::now();
        let run = run_acts_new(Global, MOST_WORDS, schema, &acts).expect("there is room");
        assert!(start.elapsed() < Duration::from_secs(10), "{path}: {:?}", start.elapsed());
        assert!(run.replies.iter().all(|reply| *reply == Reply::Done), "{path}");
        let Value::List(list) = seen(run.message.get_pointer_reader(0), schema, &steps) else { panic!("{path}") };
        assert_eq!(list.len(), 100_000);
    }
}

/// Edits that can't be made together leave their old lists behind, and still fit a message of a few lists.
#[test]
fn room_is_kept() {
    let set = kinds_set();
    let schema = set.struct_schema(KINDS);
    let wide = steps_of("wide");
    let acts = vec![edit(&wide, Change::Insert(0, Value::Int64(7))); 1000];
    let run = run_acts_new(Global, 4000, schema, &acts).expect("there is room");
    assert!(run.replies.iter().all(|reply| *reply == Reply::Done));
}
