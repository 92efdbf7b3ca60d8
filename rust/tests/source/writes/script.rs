//! Runs scripts that build messages.
//!
//! A script is a block of a rows file. Its first line names the struct of the message's root, and after `from` the
//! message that the script begins with: `many` begins with an empty message, `lists from bytes` with the message
//! `bytes`. `messages.rows` has the structs and the messages.
//!
//! Each further line has calls, separated by semicolons, and behind `=>` their answers in the same order. If there is
//! no `=>`, each call answers `ok`. A line that begins with a bar goes back to the message that the script begins with.
//!
//! | call | what it does |
//! |---|---|
//! | `set items.1.a UInt16(7)` | sets a field or an element to a value; `values.rs` has the form of values |
//! | `init any`, `initn rows.0 2` | starts a field, or one with a length; of an element, `initn` is the list's `init` |
//! | `get b`, `clear b` | makes that call |
//! | `which` | answers the index of the root's active member, or `none` |
//! | `has b` | answers whether the root has the field |
//! | `value b` | answers the text of the value that a `get` of the root's field returns |
//! | `print` | answers the text of the message's root |
//! | `is full` | answers `true` if the message has the same bytes as another, and else its bytes |
//!
//! The other calls answer `ok`. If a call fails, its answer is the kind of the error, and `changed` if the message
//! isn't what it was before.

use super::calls::Call;
use super::messages::{message_of, struct_of};
use super::values::{data_in, must, root_under, text_of};
use crate::capnp_arena::message::Builder;
use crate::capnp_dynamic::dynamic_struct;
use crate::capnp_dynamic::dynamic_value::Reader as Value;
use crate::capnp_schema::schema::StructSchema;
use crate::capnp_schema::set::SchemaSet;
use crate::capnp_wire::error::Result;
use crate::fixtures::bytes::root_of;
use crate::fixtures::words::first_word;
use crate::rattle_std::alloc::Global;
use crate::rows::{assert_text, hex, Line, Place, Section};

/// What a script begins with: a struct of a set, and a message.
pub struct Start {
    place: Place,
    pub schemas: SchemaSet,
    number: u32,
    bytes: &'static [u8],
}

impl Start {
    /// The beginning that a text names.
    pub fn read(place: Place, text: &str) -> Start {
        let (name, message) = text.split_once(" from ").unwrap_or((text, ""));
        let (schemas, number) = struct_of(place, name);
        Start {
            place,
            schemas,
            number,
            bytes: message_of(place, message),
        }
    }

    pub fn schema(&self) -> StructSchema<'_> {
        self.schemas.struct_schema(self.number)
    }

    /// Opens the root of a message.
    pub fn open<'a>(&'a self, message: &'a mut Builder) -> Result<dynamic_struct::Builder<'a>> {
        dynamic_struct::Builder::open(message.root(), self.schema())
    }

    /// The message in memory, after its root was opened. A root that can't be opened stays as it is.
    pub fn message(&self) -> Builder {
        let mut message = copy_of(self.place, self.bytes);
        let _ = self.open(&mut message);
        message
    }
}

/// A message in memory with the same root.
pub fn copy_of(place: Place, bytes: &[u8]) -> Builder {
    let mut message = must(place, Builder::new(Global));
    must(place, message.set_root(must(place, root_of(bytes))));
    message
}

/// The bytes of a message.
pub fn written(place: Place, message: &Builder) -> Vec<u8> {
    must(place, message.write_message()).into()
}

/// The text of a message's root.
pub fn printed(message: &Builder, schema: StructSchema<'_>) -> Result<String> {
    let bytes = message.write_message()?;
    text_of(Value::Struct(root_under(&bytes, schema)?))
}

/// The two sides of a row's `=>`: what it does, and what it expects.
pub fn sides(line: Line) -> (&'static str, &'static str) {
    let sides = line.text.split_once(" => ");
    sides.unwrap_or_else(|| panic!("{}: no `=>`", line.place))
}

/// The answer of a call that returns nothing.
pub fn outcome(called: Result<()>) -> String {
    called.map_or_else(|error| format!("{:?}", error.kind), |()| "ok".to_owned())
}

/// Makes a call that opens the root, and returns its answer.
fn call(place: Place, start: &Start, message: &mut Builder, text: &str) -> Result<String> {
    let root = start.open(message)?;
    let (word, rest) = first_word(text);
    match word {
        "which" => {
            let member = root.which()?;
            Ok(member.map_or_else(|| "none".to_owned(), |member| member.get_index().to_string()))
        }
        "has" => Ok(root.has_named(rest)?.to_string()),
        "value" => text_of(root.get_named(rest)?.into_reader()),
        _ => {
            let data = data_in(rest);
            Call::read(place, &start.schemas, text, &data).make(root)?;
            Ok("ok".to_owned())
        }
    }
}

/// The answer of a comparison, which has the bytes if they differ.
fn compared(seen: &[u8], wanted: &[u8]) -> String {
    if seen == wanted {
        return "true".to_owned();
    }
    format!("false, but {}", hex(seen))
}

/// Makes a call, and returns its answer.
pub fn answer(place: Place, start: &Start, message: &mut Builder, text: &str) -> String {
    match first_word(text) {
        ("print", _) => must(place, printed(message, start.schema())),
        ("is", name) => compared(&written(place, message), message_of(place, name)),
        _ => {
            let before = written(place, message);
            match call(place, start, message, text) {
                Ok(answer) => answer,
                Err(error) if written(place, message) == before => format!("{:?}", error.kind),
                Err(error) => format!("{:?} changed", error.kind),
            }
        }
    }
}

/// Makes the calls of a line, and compares their answers.
fn line_holds(place: Place, start: &Start, message: &mut Builder, text: &str) {
    let (calls, wanted) = text.split_once(" => ").unwrap_or((text, ""));
    let calls = calls.split("; ");
    let seen: Vec<String> = calls.map(|call| answer(place, start, message, call)).collect();
    let all_ok = vec!["ok"; seen.len()].join("; ");
    let wanted = if wanted.is_empty() { &all_ok } else { wanted };
    assert_text(place, &seen.join("; "), wanted);
}

/// Runs each script of a section, and compares the answers.
pub fn scripts_hold(section: &Section) {
    for block in section.blocks() {
        let (head, lines) = block.lines.split_first().expect("a block has lines");
        assert!(!lines.is_empty(), "{}: a script without calls", head.place);
        let start = Start::read(head.place, head.text);
        let mut message = start.message();
        for line in lines {
            let anew = line.text.strip_prefix("| ");
            if anew.is_some() {
                message = start.message();
            }
            line_holds(line.place, &start, &mut message, anew.unwrap_or(line.text));
        }
    }
}
