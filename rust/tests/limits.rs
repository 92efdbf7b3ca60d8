//! Sets and requests that are made to do harm, and texts and sets past a limit: a refusal comes in time, as 11.
#![forbid(unsafe_code)]

use riftcalico::introspect::{RawBrandedStructSchema, Type, TypeVariant};
use riftcalico::memory::{Global, Vec as List};
use riftcalico::schema::record::{BrandRecord, FieldRecord, NodeRecord, ValueRecord};
use riftcalico::schema::SchemaSet;
use std::fs;
use std::path::{Path, PathBuf};
use std::process::{Command, Output, Stdio};

const RIFTCALICO: &str = env!("CARGO_BIN_EXE_riftcalico");

/// How a set is told that is refused.
const HARMFUL: &str = "(harmful.set); a set is what riftcalico schemas writes";

/// The structs of a default, one in the other.
const STRUCTS: usize = 60;

/// The words of so many structs of two pointers: each leads to the next by its second pointer, and by its first too where
/// they are shared.
fn words_of(structs: usize, shared: bool) -> Vec<u8> {
    let pointer = |offset: u64| (offset << 2 | 2 << 48).to_le_bytes();
    let mut bytes = pointer(0).to_vec();
    for _ in 1..structs {
        bytes.extend_from_slice(&if shared { pointer(1) } else { [0; 8] });
        bytes.extend_from_slice(&pointer(0));
    }
    bytes.extend_from_slice(&[0; 16]);
    bytes
}

/// The message of a set of one struct, which has itself twice, with such a default.
fn set_message(structs: usize) -> Vec<u8> {
    let value = |words: &[u8]| ValueRecord::Struct(List::from_slice(Global, words).expect("there is memory"));
    let fields = [
        FieldRecord::slot(Global, "left", 0, value(&words_of(structs, false))),
        FieldRecord::slot(Global, "right", 1, value(&[0; 8])),
    ];
    let fields = fields.map(|field| field.expect("there is memory"));
    let fields = List::from_array(Global, fields).expect("there is memory");
    let own = Type::from(TypeVariant::Struct(RawBrandedStructSchema { generic: 0, number: 0 }));
    let types = List::from_array(Global, [own, own]).expect("there is memory");
    let node = NodeRecord::structure(Global, 1, "Twice", 0, 2, fields).expect("there is memory");
    let brand = BrandRecord::new(Global, 0, types).expect("there is memory");
    let nodes = List::from_array(Global, [node]).expect("there is memory");
    let brands = List::from_array(Global, [brand]).expect("there is memory");
    let set = SchemaSet::new(Global, nodes, brands, List::new(Global)).expect("it meets the rules");
    set.to_message().expect("it has a message")
}

/// The same with a default in which each struct but the last leads to the next by both pointers.
fn harmful_message() -> Vec<u8> {
    let (plain, shared) = (words_of(STRUCTS, false), words_of(STRUCTS, true));
    let mut message = set_message(STRUCTS);
    let at = message
        .windows(plain.len())
        .position(|bytes| bytes == plain)
        .expect("the default stands in the message");
    message[at..at + shared.len()].copy_from_slice(&shared);
    message
}

/// A folder of a test's own, with files.
fn folder(name: &str, files: &[(&str, &[u8])]) -> PathBuf {
    let folder = Path::new(env!("CARGO_TARGET_TMPDIR")).join(name);
    let _ = fs::remove_dir_all(&folder);
    fs::create_dir_all(&folder).expect("the folder is made");
    for (name, bytes) in files {
        fs::write(folder.join(name), bytes).expect("the file is written");
    }
    folder
}

/// What the program comes to with these words in a folder, and a file as its input.
fn run(folder: &Path, words: &[&str], input: Option<&str>) -> Output {
    let input = match input {
        Some(name) => Stdio::from(fs::File::open(folder.join(name)).expect("the file is there")),
        None => Stdio::null(),
    };
    Command::new(RIFTCALICO)
        .args(words)
        .current_dir(folder)
        .stdin(input)
        .output()
        .expect("the program starts")
}

/// Asserts that a run was refused with 11, told by what it blames, and wrote nothing.
fn past(output: &Output, blamed: &str) {
    let told = format!("refused: 11 TooLarge {blamed}\n");
    assert_eq!(String::from_utf8_lossy(&output.stderr), told);
    assert_eq!(output.status.code(), Some(1));
    assert!(output.stdout.is_empty());
}

#[test]
fn a_set_without_end_is_refused() {
    let files: [(&str, &[u8]); 2] = [
        ("harmful.set", &harmful_message()),
        ("plain.set", &set_message(STRUCTS)),
    ];
    let folder = folder("harmful", &files);
    assert!(files[0].1.len() < 2500);
    for words in [
        &["structs", "--set", "harmful.set", "--limit", "100000"] as &[&str],
        &["structs", "--set", "harmful.set", "--limit", "100000", "Twice"],
        &["show", "--set", "harmful.set", "--limit", "100000", "Twice"],
        &["new", "--set", "harmful.set", "--limit", "100000", "Twice", "init left"],
    ] {
        past(&run(&folder, words, None), HARMFUL);
    }
    let words = ["compatible", "--limit", "100000", "harmful.set", "plain.set"];
    past(&run(&folder, &words, None), HARMFUL);
    let words = ["compatible", "--limit", "100000", "plain.set", "harmful.set"];
    past(&run(&folder, &words, None), "(harmful.set)");
}

#[test]
fn a_set_without_shared_targets_is_read_whatever_the_limit() {
    let folder = folder("plain", &[("plain.set", &set_message(STRUCTS))]);
    let words = ["structs", "--set", "plain.set", "--limit", "6"];
    let output = run(&folder, &words, None);
    assert_eq!(String::from_utf8_lossy(&output.stderr), "");
    assert_eq!(output.stdout, b"Twice\n");
    past(
        &run(&folder, &["structs", "--set", "plain.set", "--limit", "5"], None),
        "(standard output)",
    );
}

#[test]
fn texts_are_within_their_limit() {
    let folder = folder("texts", &[("old.set", &set_message(1)), ("new.set", &set_message(2))]);
    for (words, blamed) in [
        (&["structs", "--set", "old.set"] as &[&str], "(standard output)"),
        (&["structs", "--set", "old.set", "Twice"], "(standard output)"),
        (&["compatible", "old.set", "new.set"], "(new.set)"),
    ] {
        let whole = run(&folder, words, None);
        assert!(!whole.stdout.is_empty());
        let length = whole.stdout.len();
        let with = |limit: usize| {
            let limit = limit.to_string();
            let words: Vec<&str> = words.iter().copied().chain(["--limit", &limit]).collect();
            run(&folder, &words, None)
        };
        assert_eq!(with(length).stdout, whole.stdout);
        past(&with(length - 1), blamed);
    }
}

#[test]
fn a_set_of_a_request_is_within_its_limit() {
    let request = fs::read("examples/addressbook.request").expect("the request is there");
    let folder = folder("request", &[("request", &request)]);
    let whole = run(&folder, &["schemas"], Some("request"));
    assert_eq!(whole.status.code(), Some(0));
    let length = whole.stdout.len().to_string();
    let less = (whole.stdout.len() - 1).to_string();
    assert_eq!(
        run(&folder, &["schemas", "--limit", &length], Some("request")).stdout,
        whole.stdout
    );
    past(
        &run(&folder, &["schemas", "--limit", &less], Some("request")),
        "(standard input)",
    );
}
