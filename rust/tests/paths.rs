//! Long paths, and types of many lists: each call answers, with a small stack.
//!
//! A call's stack does not grow with its path, nor with the lists around a type. A debug build takes more of it for one
//! call, since each value has a place of its own there.
#![forbid(unsafe_code)]

use riftcalico::compatible::Compatible;
use riftcalico::dynamic_value::Reader as Value;
use riftcalico::introspect::{Type, TypeVariant};
use riftcalico::memory::{Global, Vec as List};
use riftcalico::message::{read_root, PointerReader};
use riftcalico::patch::{self, Path, PathStep};
use riftcalico::run::{run_copied, Call, Op, Plain, Reply, Step, MOST_WORDS};
use riftcalico::schema::record::{BrandRecord, FieldRecord, NodeRecord, ValueRecord};
use riftcalico::schema::{SchemaSet, StructSchema};
use riftcalico::{printer, ErrorKind};
use std::fs;
use std::process::Command;
use std::thread;

/// How many steps a path has.
const STEPS: usize = 1_000_000;

/// The lists around a type, as many as a set's record can say.
const LISTS: usize = 65_535;

/// The stack of a call.
const STACK: usize = if cfg!(debug_assertions) { 4 << 20 } else { 512 << 10 };

/// A message of a null root.
const EMPTY: [u8; 16] = [0, 0, 0, 0, 1, 0, 0, 0, 0, 0, 0, 0, 0, 0, 0, 0];

/// The words of a list of one struct without fields: a null list becomes it.
const ONE_STRUCT: [u8; 16] = [1, 0, 0, 0, 7, 0, 0, 0, 4, 0, 0, 0, 0, 0, 0, 0];

fn words(bytes: &[u8]) -> List<u8> {
    List::from_slice(Global, bytes).expect("there is memory")
}

/// A set of one struct: a number, the struct itself, a list of it, and a number inside as many lists as there can be.
fn new_set() -> SchemaSet {
    let null = || words(&[0; 8]);
    let fields = [
        FieldRecord::slot(Global, "number", 0, ValueRecord::UInt16(7)),
        FieldRecord::slot(Global, "next", 0, ValueRecord::Struct(null())),
        FieldRecord::slot(Global, "parts", 1, ValueRecord::List(words(&ONE_STRUCT))),
        FieldRecord::slot(Global, "lists", 2, ValueRecord::List(null())),
        FieldRecord::slot(Global, "text", 3, ValueRecord::Text(List::new(Global))),
    ];
    let fields = fields.map(|field| field.expect("there is memory"));
    let fields = List::from_array(Global, fields).expect("there is memory");
    let own = riftcalico::introspect::RawBrandedStructSchema { generic: 0, number: 0 };
    let own = Type::from(TypeVariant::Struct(own));
    let number = Type::from(TypeVariant::UInt16);
    let nested = (0..LISTS).fold(number, |inner, _| Type::list_of(inner));
    let types = [number, own, Type::list_of(own), nested, Type::from(TypeVariant::Text)];
    let types = List::from_array(Global, types).expect("there is memory");
    let node = NodeRecord::structure(Global, 1, "Deep", 1, 4, fields).expect("there is memory");
    let brand = BrandRecord::new(Global, 0, types).expect("there is memory");
    let nodes = List::from_array(Global, [node]).expect("there is memory");
    let brands = List::from_array(Global, [brand]).expect("there is memory");
    SchemaSet::new(Global, nodes, brands, List::new(Global)).expect("the set meets the rules")
}

/// Does a piece of work on the small stack.
fn on_small_stack<T: Send + 'static>(work: impl FnOnce() -> T + Send + 'static) -> T {
    let thread = thread::Builder::new().stack_size(STACK).spawn(work);
    thread
        .expect("there is memory")
        .join()
        .expect("the work does not panic")
}

/// Paths of so many steps: through the struct itself, and through lists of it.
fn long_paths() -> [Vec<Step<'static>>; 2] {
    let through_lists = [Step::Named("parts"), Step::Element(0)];
    [
        vec![Step::Named("next"); STEPS],
        through_lists.iter().copied().cycle().take(STEPS).collect(),
    ]
}

/// What one call is answered on an empty message.
fn reply_to(schema: StructSchema<'_>, path: &[Step<'_>], last: &'static str, op: Op<'_>) -> Reply {
    let call = Call {
        path,
        last: Step::Named(last),
        op,
    };
    let root = PointerReader::from_words(&EMPTY[8..]);
    let left = run_copied(Global, MOST_WORDS, root, schema, &[call]).expect("a null is copied");
    let mut replies: Vec<Reply> = left.replies.into();
    assert_eq!(replies.len(), 1);
    replies.remove(0)
}

#[test]
fn calls_of_long_paths_are_answered() {
    on_small_stack(|| {
        let schemas = new_set();
        let schema = schemas.struct_schema(0);
        for path in &long_paths() {
            let reply = |last, op| reply_to(schema, path, last, op);
            assert_eq!(reply("number", Op::Get), Reply::Value(Plain::UInt16(7)));
            assert_eq!(reply("next", Op::Has), Reply::Flag(false));
            assert_eq!(reply("number", Op::Which), Reply::Member(None));
            assert_eq!(reply("number", Op::Set(Value::UInt16(3))), Reply::Done);
            assert_eq!(reply("next", Op::Init), Reply::Done);
            assert_eq!(reply("text", Op::Initn(5)), Reply::Done);
            assert_eq!(reply("next", Op::Clear), Reply::Done);
            assert_eq!(reply("missing", Op::Get), Reply::Refused(ErrorKind::FieldNotFound));
        }
    });
}

#[test]
fn reads_along_long_paths_are_answered() {
    on_small_stack(|| {
        let schemas = new_set();
        let schema = schemas.struct_schema(0);
        let root = read_root(&EMPTY, schema).expect("a null is read");
        let [nulls, defaults] = long_paths();
        let part = patch::read_path(root.into(), &nulls).err();
        assert_eq!(part.map(|error| error.kind), Some(ErrorKind::TooDeep));
        let part = patch::read_path(root.into(), &defaults).expect("each list is a default's");
        assert_eq!(printer::to_string(part, false).as_deref(), Ok("(number = 7)"));
    });
}

#[test]
fn types_along_long_paths_are_answered() {
    on_small_stack(|| {
        let schemas = new_set();
        let schema = schemas.struct_schema(0);
        let mut steps = List::new(Global);
        for _ in 0..STEPS {
            steps.push(PathStep::Field(1)).expect("there is memory");
        }
        let target = patch::target_type(schema, &Path { steps });
        assert_eq!(target, Some(Type::from(TypeVariant::Struct(schema.into()))));
    });
}

#[test]
fn types_of_many_lists_are_answered() {
    on_small_stack(|| {
        let schemas = new_set();
        let schema = schemas.struct_schema(0);
        let written = schemas.to_message().expect("a set of one struct is short");
        let again = SchemaSet::from_message(&written).expect("a set that was written is read back");
        assert!(again.brands() == schemas.brands());
        let same = Compatible::check(Global, schema, schema).expect("there is memory");
        assert!(same.is_some());
        let mut steps = List::new(Global);
        steps.push(PathStep::Field(3)).expect("there is memory");
        for _ in 0..LISTS {
            steps.push(PathStep::Element(0)).expect("there is memory");
        }
        let target = patch::target_type(schema, &Path { steps });
        assert_eq!(target, Some(Type::from(TypeVariant::UInt16)));
        let root = read_root(&EMPTY, schema).expect("a null is read");
        assert_eq!(printer::to_string(root.into(), false).as_deref(), Ok("(number = 7)"));
        let path = [Step::Named("lists"), Step::Element(0)];
        let value = Op::Set(Value::UInt16(1));
        assert_eq!(
            reply_to(schema, &path, "number", value),
            Reply::Refused(ErrorKind::NoSuchElement)
        );
    });
}

/// The program's text of a struct's fields, with a stack of half a megabyte where the system's shell can set it.
#[test]
fn fields_of_many_lists_are_listed() {
    let file = std::path::Path::new(env!("CARGO_TARGET_TMPDIR")).join("paths.set");
    let schemas = new_set().to_message().expect("a set of one struct is short");
    fs::write(&file, schemas).expect("cargo's folder can be written");
    let script = format!("ulimit -s {} && exec \"$0\" structs --set \"$1\" Deep", STACK >> 10);
    let output = Command::new("sh")
        .args(["-c", &script, env!("CARGO_BIN_EXE_riftcalico")])
        .arg(&file)
        .output();
    let output = output.expect("there is a shell");
    assert!(output.status.success(), "{output:?}");
    let text = String::from_utf8(output.stdout).expect("names are text");
    let line = text
        .lines()
        .find(|line| line.starts_with("lists: "))
        .expect("each field has a line");
    let named = format!("lists: {}UInt16{}, pointer 2", "List(".repeat(LISTS), ")".repeat(LISTS));
    assert!(line == named, "the type is listed otherwise");
}
