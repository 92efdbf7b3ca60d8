//! Misuse: calls of the public crate with wrong fields, indices, sets, types and lengths. Each returns an error or nothing,
//! or panics with a sentence that says what is wrong, and the message reads afterwards as before. Where a call is done, the
//! message is still sound, and what stands beside is as it was.
#![forbid(unsafe_code)]

mod common;

#[path = "misuse/builders.rs"]
mod builders;
#[path = "misuse/came.rs"]
mod came;
#[path = "misuse/handles.rs"]
mod handles;
#[path = "misuse/readers.rs"]
mod readers;
#[path = "misuse/runs.rs"]
mod runs;
#[path = "misuse/world.rs"]
mod world;

use came::{caught, keep_quiet, Came, Given, SENTENCE_COUNT};
use common::bases::Examples;
use common::random::Random;
use common::threads::on_all_processors;
use riftcalico::dynamic_value::{Builder as Built, Reader as Value};
use riftcalico::edits::{edit_bytes, Act, Change, ListEdit};
use riftcalico::memory::Global;
use riftcalico::message::{read_root, Builder, Reader};
use riftcalico::patch::{get_path, patch_bytes};
use riftcalico::printer::to_string;
use riftcalico::run::{Call, Op, Reply, Step};
use riftcalico::schema::{SchemaSet, StructSchema};
use riftcalico::{dynamic_struct, ErrorKind};
use std::fs;
use std::path::Path;
use world::{Root, World};

/// How many calls are made.
const CALLS: u64 = 100_000;

/// The address book of the examples, and the request of its schema.
const REQUEST: &[u8] = include_bytes!("../../examples/addressbook.request");
const BOOK: &[u8] = include_bytes!("../../examples/addressbook.bin");

/// What came of a call: what it answered, or the sentence that it panicked with.
type Answer = Result<Came, usize>;

/// Whether a call left everything as it was.
fn is_refused(answer: Answer) -> bool {
    matches!(answer, Err(_) | Ok(Came::Refused(_) | Came::Nothing))
}

/// The bytes of a message that is built.
fn written(message: &Builder) -> Vec<u8> {
    message
        .write_message()
        .expect("a message that was built is written")
        .into()
}

/// Asks a message whether all of it can be read, whatever its schema.
fn is_sound(bytes: &[u8]) -> bool {
    let root = Reader::new(Global, bytes).map(|message| message.get_root());
    root.is_ok_and(|root| root.total_size().is_ok())
}

/// Asks a message whether it prints.
fn prints(bytes: &[u8], schema: StructSchema<'_>) -> bool {
    read_root(bytes, schema).is_ok_and(|root| to_string(root.into(), false).is_ok())
}

/// Holds what a call left of a message to what was there.
fn hold(answer: Answer, before: &[u8], after: &[u8], schema: StructSchema<'_>) {
    if is_refused(answer) {
        assert_eq!(before, after, "{answer:?} has changed the message");
    }
    assert!(is_sound(after), "{answer:?} has left a message that can't be read");
    if answer == Ok(Came::Done) {
        assert!(
            prints(after, schema),
            "{answer:?} has left a message that doesn't print"
        );
    }
}

/// A call on a part of a message that is built under its schema.
fn on_part(world: &World<'_>, random: &mut Random) -> Answer {
    let root = *random.one_of(&world.roots);
    let mut message = root.copy();
    let way = builders::way(&message, root.schema, random);
    // what is smaller than its schema is extended on the way
    if builders::part(&mut message, root.schema, &way).is_err() {
        return Ok(Came::Nothing);
    }
    let before = written(&message);
    let beside = builders::beside(&message, root.schema, &way);
    let answer = caught(Given::Handles, || {
        match builders::part(&mut message, root.schema, &way) {
            Ok(part) => builders::call(world, random, part),
            Err(error) => Came::Refused(error.kind),
        }
    });
    hold(answer, &before, &written(&message), root.schema);
    assert_eq!(
        beside,
        builders::beside(&message, root.schema, &way),
        "{answer:?} has changed what stands beside"
    );
    answer
}

/// A call on a handle of a message that is built without a schema.
fn on_handle(world: &World<'_>, random: &mut Random) -> Answer {
    let mut message = handles::message().expect("there is memory");
    let first = handles::message().expect("there is memory");
    let before = written(&message);
    let mut part = handles::Part::Root;
    let answer = caught(Given::Handles, || {
        let came;
        (came, part) = handles::call(world, random, &mut message);
        came
    });
    let after = written(&message);
    // a list that is taken as one of structs becomes one, and then the call on it may panic
    let is_kept = handles::is_kept(part, &first, &message);
    assert!(is_kept, "{answer:?} has changed what stands beside {part:?}");
    assert!(is_sound(&after), "{answer:?} has left a message that can't be read");
    if matches!(answer, Ok(Came::Refused(_))) {
        assert_eq!(before, after, "{answer:?} has changed the message");
    }
    answer
}

/// A run on a message.
fn on_run(world: &World<'_>, random: &mut Random) -> Answer {
    let root: Root<'_> = *random.one_of(&world.roots);
    let mut message = root.copy();
    dynamic_struct::Builder::open(message.root(), root.schema).expect("a struct stands there");
    let before = written(&message);
    let answer = caught(Given::Handles, || runs::call(world, random, &mut message, root));
    let is_cut = answer == Ok(Came::Refused(ErrorKind::CannotSetAnyPointerFieldToAPrimitiveValue));
    let held = if is_cut { Ok(Came::Loose) } else { answer };
    hold(held, &before, &written(&message), root.schema);
    answer
}

#[test]
fn misused_calls_change_nothing() {
    keep_quiet();
    let readings = [Examples::read(), Examples::read()];
    let world = World::of(&readings);
    let came = on_all_processors(CALLS, |seed| {
        let mut random = Random::new(41, seed);
        let answer = caught_by_seed(seed, || match seed % 8 {
            0 if random.once_in(8) => caught(Given::Bytes, || readers::of_bytes(&mut random)),
            0 | 1 => caught(Given::Handles, || readers::call(&world, &mut random)),
            2..=4 => on_part(&world, &mut random),
            5 => on_handle(&world, &mut random),
            6 => on_run(&world, &mut random),
            _ if random.once_in(2) => caught(Given::Handles, || runs::lists(&world, &mut random)),
            _ => caught(Given::Handles, || runs::read(&world, &mut random)),
        });
        answer
    });
    tell(&came);
}

/// The schema of an address book.
fn book(schemas: &SchemaSet) -> StructSchema<'_> {
    schemas.get_struct_named("AddressBook").expect("the request has it")
}

/// A set of the schema of the address book.
fn book_set() -> SchemaSet {
    SchemaSet::from_request(REQUEST).expect("the request is whole")
}

/// The root of a message, as an address book.
fn open<'a>(message: &'a mut Builder, schemas: &'a SchemaSet) -> dynamic_struct::Builder<'a> {
    dynamic_struct::Builder::open(message.root(), book(schemas)).expect("there is memory")
}

/// The kind of the error of an answer.
fn kind<T>(answer: riftcalico::Result<T>) -> Option<ErrorKind> {
    answer.err().map(|error| error.kind)
}

/// No handle has a field that a caller can write, in the library as it is built.
#[test]
fn fields_of_handles_are_their_own() {
    let handles = [
        ("capnp_arena/blob_builder.rs", "BlobBuilder"),
        ("capnp_arena/list_builder.rs", "ListBuilder"),
        ("capnp_arena/pointer_builder.rs", "PointerBuilder"),
        ("capnp_arena/struct_builder.rs", "StructBuilder"),
        ("capnp_builders/any_pointer.rs", "Builder"),
        ("capnp_builders/data.rs", "Builder"),
        ("capnp_builders/text.rs", "Builder"),
        ("capnp_dynamic/dynamic_list/build.rs", "Builder"),
        ("capnp_dynamic/dynamic_struct/build.rs", "Builder"),
    ];
    for (file, name) in handles {
        let rust = fs::read_to_string(Path::new(env!("OUT_DIR")).join(file)).expect("a file of the build");
        let head = format!("pub struct {name}<'a> {{\n");
        let (_, behind) = rust.split_once(&head).expect("the handle is there");
        let (fields, _) = behind.split_once("\n}").expect("the struct has an end");
        let fields = fields.lines().map(str::trim).filter(|line| !line.starts_with("//"));
        for field in fields {
            assert!(field.starts_with("pub(crate) "), "{file}: {field}");
        }
    }
}

/// Two versions of a schema, loaded as two sets, have equal numbers: a struct of the one is none of the other.
#[test]
fn structs_of_another_set_are_refused() {
    let (one, other) = (book_set(), book_set());
    let foreign = read_root(BOOK, book(&other)).expect("a root");
    let foreign = get_path(foreign.into(), "people.0").expect("a person");
    let set = Call {
        path: &[Step::Named("people")],
        last: Step::Element(1),
        op: Op::Set(foreign),
    };
    let (replies, left) = patch_bytes(BOOK, book(&one), &[set]).expect("there is memory");
    assert_eq!(replies, [Reply::Refused(ErrorKind::TypeMismatch)]);
    assert!(left == patch_bytes(BOOK, book(&one), &[]).expect("there is memory").1);
    let append = Act::Edit(ListEdit {
        path: &[Step::Named("people")],
        change: Change::Append(&[foreign]),
    });
    let (replies, again) = edit_bytes(BOOK, book(&one), &[append]).expect("there is memory");
    assert_eq!(replies, [Reply::Refused(ErrorKind::TypeMismatch)]);
    assert!(left == again);
    let mut message = Builder::new(Global).expect("there is memory");
    let mut built = open(&mut message, &one);
    let people = get_path(read_root(BOOK, book(&other)).expect("a root").into(), "people").expect("a list");
    assert_eq!(kind(built.set_named("people", people)), Some(ErrorKind::TypeMismatch));
    let own = get_path(read_root(BOOK, book(&one)).expect("a root").into(), "people").expect("a list");
    built.set_named("people", own).expect("a list of the set");
    assert!(left == written(&message));
}

/// An index past the end of a list that is built names no element, and the message stays as it was.
#[test]
fn elements_past_the_end_are_refused() {
    let schemas = book_set();
    let mut message = Builder::new(Global).expect("there is memory");
    let people = open(&mut message, &schemas)
        .initn_named("people", 1)
        .expect("there is memory");
    let mut people: riftcalico::dynamic_list::Builder<'_> = people.downcast();
    let person: Built<'_> = people.reborrow().get(0).expect("the first element is there");
    let mut person: dynamic_struct::Builder<'_> = person.downcast();
    person.set_named("name", Value::from("Ann")).expect("there is memory");
    for past in [1, 2, u32::MAX] {
        assert_eq!(kind(people.reborrow().get(past)), Some(ErrorKind::NoSuchElement));
        assert_eq!(kind(people.set(past, Value::Void)), Some(ErrorKind::NoSuchElement));
        assert_eq!(kind(people.reborrow().init(past, 1)), Some(ErrorKind::NoSuchElement));
    }
    let bytes = written(&message);
    let root = read_root(&bytes, book(&schemas)).expect("a root");
    let name = get_path(root.into(), "people.0.name").expect("a name");
    assert_eq!(to_string(name, false).expect("a text prints"), "\"Ann\"");
}

/// A field of another struct is none of this one, for reads, writes and texts.
#[test]
fn fields_of_other_structs_are_refused() {
    let (one, other) = (book_set(), book_set());
    let number = one.get_struct_named("Person.PhoneNumber").expect("the request has it");
    let number = number.get_field_by_name("number").expect("a field");
    let foreign = book(&other).get_field_by_name("people").expect("a field");
    let root = read_root(BOOK, book(&one)).expect("a root");
    let mut message = Builder::new(Global).expect("there is memory");
    let read = Reader::new(Global, BOOK).expect("a message").get_root();
    message.set_root(read).expect("there is memory");
    let before = written(&message);
    let refused = Some(ErrorKind::FieldNotFound);
    for field in [number, foreign] {
        assert_eq!([kind(root.get(field)), kind(root.has(field))], [refused; 2]);
        assert!(!root.is_active(field));
        let handed = [
            kind(open(&mut message, &one).get(field)),
            kind(open(&mut message, &one).init(field)),
        ];
        assert_eq!(handed, [refused; 2]);
        assert_eq!(kind(open(&mut message, &one).initn(field, 1)), refused);
        let mut built = open(&mut message, &one);
        assert_eq!(
            [kind(built.has(field)), kind(built.set(field, Value::from("5")))],
            [refused; 2]
        );
        assert_eq!(
            [kind(built.clear(field)), kind(built.set_from_text(field, "5"))],
            [refused; 2]
        );
    }
    assert!(before == written(&message));
}

/// Tells the seed of what an assertion fails with.
fn caught_by_seed(seed: u64, call: impl FnOnce() -> Answer) -> Answer {
    let came = std::panic::catch_unwind(std::panic::AssertUnwindSafe(call));
    came.unwrap_or_else(|_| panic!("the call of seed {seed}: see above"))
}

/// Tells what came of the calls. Each kind of answer has to be there, and each sentence.
fn tell(came: &[Answer]) {
    let count = |is_so: &dyn Fn(&Answer) -> bool| came.iter().filter(|answer| is_so(answer)).count();
    let done = count(&|answer| matches!(answer, Ok(Came::Done | Came::Loose)));
    let refused = count(&|answer| matches!(answer, Ok(Came::Refused(_))));
    let nothing = count(&|answer| matches!(answer, Ok(Came::Nothing)));
    let panicked = count(&|answer| answer.is_err());
    eprintln!("{done} calls were done, {refused} refused, {nothing} answered nothing, {panicked} panicked");
    assert!(done > 10_000 && refused > 10_000 && nothing > 1_000 && panicked > 5_000);
    let missing: Vec<usize> = (0..SENTENCE_COUNT)
        .filter(|sentence| !came.contains(&Err(*sentence)))
        .collect();
    assert!(missing.is_empty(), "no call panicked with the sentences {missing:?}");
    for kind in [
        ErrorKind::FieldNotFound,
        ErrorKind::TypeMismatch,
        ErrorKind::NoSuchElement,
    ] {
        let found = count(&|answer| *answer == Ok(Came::Refused(kind)));
        assert!(found > 500, "{kind:?}: {found}");
    }
}
