//! Groups in one another by the ten thousands, in a thread of a small stack: what goes through them keeps no stack of its
//! own.

use riftcalico::introspect::{RawBrandedStructSchema, Type, TypeVariant};
use riftcalico::memory::{Global, Vec as MemoryVec};
use riftcalico::schema::record::{BrandRecord, FieldRecord, NodeRecord, ValueRecord};
use riftcalico::schema::{GroupWalk, SchemaSet};
use riftcalico::{diffs, dynamic_struct, message, printer, Error, ErrorKind};
use std::fs;
use std::io::Write;
use std::path::{Path, PathBuf};
use std::process::{Command, Stdio};
use std::thread;

/// The programs of the repository, as cargo has built them.
const RIFTCALICO: &str = env!("CARGO_BIN_EXE_riftcalico");
const CAPNP_SHOW: &str = env!("CARGO_BIN_EXE_capnp_show");

/// How many groups are listed: a line has its whole path, so the text grows with their square.
const LISTED: u32 = 4_000;

/// The bytes of the thread's stack. What is compiled for debugging takes more of it.
const STACK: usize = if cfg!(debug_assertions) { 4 << 20 } else { 512 << 10 };

fn in_small_stack(body: fn()) {
    let thread = thread::Builder::new().stack_size(STACK).spawn(body);
    thread.expect("a thread starts").join().expect("the thread ends");
}

fn slot(name: &str, offset: u32) -> FieldRecord {
    FieldRecord::slot(Global, name, offset, ValueRecord::UInt8(0)).expect("there is memory")
}

/// A struct with so many groups in one another, each struct or group with a number before its group and one after it.
fn nested(groups: u32, words: u16) -> Result<SchemaSet, Error> {
    nested_as(["before", "inner", "after"], groups, words)
}

/// A struct with so many groups in one another, with these names of the three fields.
fn nested_as(names: [&str; 3], groups: u32, words: u16) -> Result<SchemaSet, Error> {
    let mut nodes = MemoryVec::new(Global);
    let mut brands = MemoryVec::new(Global);
    for number in 0..=groups {
        let small = number % 65_536;
        let mut fields = vec![slot(names[0], 2 * small)];
        let mut types = vec![Type::from(TypeVariant::UInt8)];
        if number < groups {
            fields.push(FieldRecord::group(Global, names[1], number + 1)?);
            let inner = RawBrandedStructSchema {
                number: number + 1,
                generic: number + 1,
            };
            types.push(Type::from(TypeVariant::Struct(inner)));
        }
        fields.push(slot(names[2], 2 * small + 1));
        types.push(Type::from(TypeVariant::UInt8));
        let node = NodeRecord::structure(Global, 1, "Nested", words, 0, fields.into())?;
        nodes.push(if number == 0 { node } else { node.as_group() })?;
        brands.push(BrandRecord::new(Global, number, types.into())?)?;
    }
    SchemaSet::new(Global, nodes, brands, MemoryVec::new(Global))
}

#[test]
fn groups_in_one_another_are_gone_through() {
    in_small_stack(|| {
        let schemas = nested(65_535, 16_384).expect("the set is accepted");
        let mut walk = GroupWalk::start(schemas.struct_schema(0));
        let (mut slots, mut deepest) = (0, 0);
        loop {
            match walk.get_field() {
                Some(field) => match field.get_group() {
                    Some(group) => {
                        assert!(group.get_group_field() == Some(field));
                        walk = walk.enter(group);
                        deepest = deepest.max(walk.get_depth());
                    }
                    None => {
                        slots += 1;
                        walk = walk.advance();
                    }
                },
                None => match walk.leave() {
                    Some(outer) => walk = outer,
                    None => break,
                },
            }
        }
        assert_eq!((slots, deepest, walk.get_depth()), (131_072, 65_535, 0));
        assert!(schemas.struct_schema(0).get_group_field().is_none());
    });
}

#[test]
fn groups_in_one_another_are_cleared() {
    in_small_stack(|| {
        let schemas = nested(65_535, 16_385).expect("the set is accepted");
        let schema = schemas.struct_schema(0);
        let mut message = message::Builder::new(Global).expect("there is memory");
        let root = message.root();
        let filled = root.init_struct(message::StructSize {
            data_words: 16_385,
            pointers: 0,
        });
        let mut filled = filled.expect("there is memory");
        for index in 0..16_385 {
            filled.set_data_field(index, u64::MAX);
        }
        let inner = schema.get_field_by_name("inner").expect("the struct has a group");
        let mut builder = dynamic_struct::Builder::open(message.root(), schema).expect("a struct stands there");
        builder.clear(inner).expect("a clear is not refused");
        let root = message.root();
        let read = root.as_reader().get_struct().expect("a struct stands there");
        // The struct's own two numbers stay, and so does what no field names.
        let left = read.get_data_section();
        assert_eq!(left.len(), 131_080);
        assert!(left[..2].iter().all(|byte| *byte == 255));
        assert!(left[2..131_072].iter().all(|byte| *byte == 0));
        assert!(left[131_072..].iter().all(|byte| *byte == 255));
    });
}

/// The text of so many groups in one another, all of whose numbers are 0.
fn nested_text(groups: usize) -> String {
    let mut text = "(before = 0, inner = ".repeat(groups);
    text.push_str("(before = 0, after = 0)");
    text.push_str(&", after = 0)".repeat(groups));
    text
}

#[test]
fn groups_in_one_another_are_printed() {
    in_small_stack(|| {
        let schemas = nested(65_535, 16_384).expect("the set is accepted");
        // One segment of one word, whose root is null.
        let mut bytes = [0; 16];
        bytes[4] = 1;
        let seen = message::read_root(&bytes, schemas.struct_schema(0)).expect("a struct stands there");
        let text = printer::to_string(seen.into(), false).expect("the print is not refused");
        assert!(text == nested_text(65_535));
    });
}

/// Each group is cleared anew before its fields are copied, so the time grows with the square of the depth. At this depth a
/// recursion would not fit the stack.
#[test]
fn groups_in_one_another_are_copied() {
    in_small_stack(|| {
        let schemas = nested(5_000, 1_251).expect("the set is accepted");
        let schema = schemas.struct_schema(0);
        let size = message::StructSize {
            data_words: 1_251,
            pointers: 0,
        };
        let mut source = message::Builder::new(Global).expect("there is memory");
        let mut filled = source.root().init_struct(size).expect("there is memory");
        for index in 0..1_251 {
            filled.set_data_field(index, 0x0101_0101_0101_0101_u64);
        }
        let inner = schema.get_field_by_name("inner").expect("the struct has a group");
        let read = source.root();
        let read = read.as_reader().get_struct().expect("a struct stands there");
        let read = dynamic_struct::Reader::new(read, schema);
        let group = read.get(inner).expect("a group is read");
        let mut message = message::Builder::new(Global).expect("there is memory");
        message.root().init_struct(size).expect("there is memory");
        let mut builder = dynamic_struct::Builder::open(message.root(), schema).expect("a struct stands there");
        builder.set(inner, group).expect("a group of numbers is copied");
        let root = message.root();
        let read = root.as_reader().get_struct().expect("a struct stands there");
        // The struct's own two numbers stay, and so does what no field names.
        let left = read.get_data_section();
        assert_eq!(left.len(), 10_008);
        assert!(left[..2].iter().all(|byte| *byte == 0));
        assert!(left[2..10_002].iter().all(|byte| *byte == 1));
        assert!(left[10_002..].iter().all(|byte| *byte == 0));
    });
}

/// The changes between two structs of so many groups in one another, all of whose numbers are 0 in one and 1 in the other.
fn changes_of_nested(groups: u32) -> Result<usize, ErrorKind> {
    let schemas = nested(groups, 64).expect("the set is accepted");
    let mut bytes = [1_u8; 8 * 66];
    bytes[..16].copy_from_slice(&[0, 0, 0, 0, 65, 0, 0, 0, 0, 0, 0, 0, 64, 0, 0, 0]);
    let nothing = [0, 0, 0, 0, 1, 0, 0, 0, 0, 0, 0, 0, 0, 0, 0, 0];
    let changes = diffs::diff_bytes(&nothing, &bytes, schemas.struct_schema(0));
    Ok(changes.map_err(|error| error.kind)?.len())
}

#[test]
fn changes_are_told_through_64_groups() {
    in_small_stack(|| {
        assert_eq!(changes_of_nested(0), Ok(2));
        assert_eq!(changes_of_nested(64), Ok(130));
        assert_eq!(changes_of_nested(65), Err(ErrorKind::TooDeep));
    });
}

#[test]
fn more_groups_than_fit_are_refused() {
    in_small_stack(|| {
        let refusal = nested(100_000, 16_384).err().expect("fields meet");
        assert_eq!(refusal.name(), "Schema");
    });
}

/// The lines of a struct of nested groups, each a number, a group and a number.
fn listed(groups: u32) -> String {
    let mut lines = String::new();
    for number in 0..=groups {
        let path = "g.".repeat(number as usize);
        lines += &format!("{path}b: UInt8, data bit {}, default 0\n", 16 * number);
        if number < groups {
            lines += &format!("{path}g: group\n");
        }
    }
    for number in (0..=groups).rev() {
        let path = "g.".repeat(number as usize);
        lines += &format!("{path}a: UInt8, data bit {}, default 0\n", 16 * number + 8);
    }
    lines
}

/// The set of so many nested groups, with names of one letter, as a file.
fn set_file(name: &str, groups: u32, words: u16) -> PathBuf {
    let schemas = nested_as(["b", "g", "a"], groups, words).expect("the set is accepted");
    let file = Path::new(env!("CARGO_TARGET_TMPDIR")).join(name);
    fs::write(&file, schemas.to_message().expect("a set is written")).expect("cargo's folder can be written");
    file
}

/// What a program writes, with a stack of half a megabyte where the system's shell can set it.
fn output_of(program: &str, words: &[&str], input: &[u8]) -> Vec<u8> {
    let script = format!("ulimit -s {} && exec \"$0\" \"$@\"", STACK >> 10);
    let mut child = Command::new("sh")
        .args(["-c", &script, program])
        .args(words)
        .stdin(Stdio::piped())
        .stdout(Stdio::piped())
        .stderr(Stdio::piped())
        .spawn()
        .expect("there is a shell");
    let mut stdin = child.stdin.take().expect("the input is a pipe");
    let input = input.to_vec();
    let writer = thread::spawn(move || drop(stdin.write_all(&input)));
    let output = child.wait_with_output().expect("the program ends");
    writer.join().expect("the input is written");
    assert!(output.status.success(), "{:?}", output.status);
    output.stdout
}

#[test]
fn a_pipe_that_nobody_reads_ends_the_program_quietly() {
    let mut child = Command::new(RIFTCALICO)
        .args(["show", "--each", "Flat"])
        .stdin(Stdio::piped())
        .stdout(Stdio::piped())
        .stderr(Stdio::piped())
        .spawn()
        .expect("the program is there");
    drop(child.stdout.take());
    let mut stdin = child.stdin.take().expect("the input is a pipe");
    // The program may be gone before all is read.
    drop(stdin.write_all(include_bytes!("../../examples/flat.bin")));
    drop(stdin);
    let output = child.wait_with_output().expect("the program ends");
    assert_eq!((output.status.code(), output.stderr), (Some(141), Vec::new()));
}

#[test]
fn groups_in_one_another_are_listed() {
    let file = set_file("listed.set", LISTED, 1_001);
    let file = file.to_str().expect("cargo's folder is text");
    let lines = output_of(RIFTCALICO, &["structs", "--set", file, "Nested"], b"");
    assert!(lines == listed(LISTED).into_bytes(), "the fields are listed otherwise");
}

#[test]
fn programs_go_into_groups_in_one_another() {
    let file = set_file("nested.set", 65_535, 16_384);
    let file = file.to_str().expect("cargo's folder is text");
    // What is deepest stands in the 65,535th group.
    let deepest = format!("{}b", "g.".repeat(65_535));
    let calls = Path::new(env!("CARGO_TARGET_TMPDIR")).join("nested.calls");
    let text = format!("set {deepest} 7\nget {deepest}\ninit g\nclear g\nset {deepest} 9\n");
    fs::write(&calls, text).expect("cargo's folder can be written");
    let calls = calls.to_str().expect("cargo's folder is text");
    let made = output_of(RIFTCALICO, &["new", "--set", file, "--calls", calls, "Nested"], b"");
    let patched = output_of(RIFTCALICO, &["patch", "--set", file, "--calls", calls, "Nested"], &made);
    assert!(patched == made, "the calls leave another message");
    // A word may have a quarter of the stack's bytes.
    let deep = format!("{}b", "g.".repeat(40_000));
    let read = output_of(RIFTCALICO, &["get", "--set", file, "Nested", &deep], &patched);
    assert_eq!(read, b"0\n");
    let shown = output_of(CAPNP_SHOW, &["--set", file, "Nested"], &patched);
    let text = format!(
        "{}(b = 9, a = 0){}\n",
        "(b = 0, g = ".repeat(65_535),
        ", a = 0)".repeat(65_535)
    );
    assert!(shown == text.into_bytes(), "the message is shown otherwise");
}
