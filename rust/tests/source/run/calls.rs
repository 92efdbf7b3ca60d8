//! Calls along paths, as rows have them.
//!
//! A line is a call, and maybe its answer behind an arrow. Calls and paths are those of the command line:
//!
//! | call | what it does |
//! |---|---|
//! | `get items.1.a`, `has tag`, `clear tag` | makes that call |
//! | `init tag`, `initn items 2` | the same, `initn` with a size |
//! | `which tag` | asks the struct at the end of the path, `.` the root |
//! | `set items.1.a UInt16(7)` | sets the end of the path to a value |
//!
//! A path has dots between its steps: a name is the field of that name, a number an element, and `#` with a number the
//! field of that index.
//!
//! A value is a type and a number or text: `Int8(-1)`, `Bool(true)`, `Void`, `Text(hi)`. It may be of another type than
//! the end of the path. `Enum(2)` is of enum 0 of the set. `Read(tagged tag)` is the field `tag` of the message
//! `tagged`, whose root has the same schema as the struct that the call is made on.

use super::answers::answer;
use super::messages::{message_of, root};
use crate::capnp_base::text;
use crate::capnp_dynamic::dynamic_value::{Enum, Reader as Value};
use crate::capnp_run::calls::{Call, Op, Reply, Step};
use crate::capnp_schema::schema::StructSchema;
use crate::fixtures::words::{first_word, name_and_content, number};
use crate::rows::{assert_text, Line, Place, Reading};

/// The last step of a `which`, which does not look at it: no struct has such a field.
const UNSEEN: Step<'static> = Step::Named("no such field");

fn step_of(word: &'static str) -> Step<'static> {
    if let Some(index) = word.strip_prefix('#') {
        return Step::Field(number(index));
    }
    match word.parse() {
        Ok(index) => Step::Element(index),
        Err(_) => Step::Named(word),
    }
}

/// The steps of a path.
pub fn steps_of(path: &'static str) -> Vec<Step<'static>> {
    match path {
        "." => Vec::new(),
        _ => path.split('.').map(step_of).collect(),
    }
}

fn value_of<'a>(schema: StructSchema<'a>, text: &'static str) -> Value<'a> {
    let (kind, content) = name_and_content(text);
    match kind {
        "Void" => Value::Void,
        "Bool" => Value::Bool(content.parse().expect("it is a truth value")),
        "Int8" => Value::Int8(number(content)),
        "Int16" => Value::Int16(number(content)),
        "Int32" => Value::Int32(number(content)),
        "UInt8" => Value::UInt8(number(content)),
        "UInt16" => Value::UInt16(number(content)),
        "UInt32" => Value::UInt32(number(content)),
        "UInt64" => Value::UInt64(number(content)),
        "Enum" => Value::Enum(Enum::new(number(content), schema.get_set().enum_schema(0))),
        "Text" => Value::Text(text::Reader(content.as_bytes())),
        "Read" => {
            let (message, field) = first_word(content);
            let source = root(schema, message_of(message));
            source.get_named(field).expect("the field can be read")
        }
        _ => panic!("{text:?} is no value"),
    }
}

fn op_of<'a>(schema: StructSchema<'a>, word: &str, rest: &'static str) -> Op<'a> {
    match word {
        "get" => Op::Get,
        "has" => Op::Has,
        "which" => Op::Which,
        "set" => Op::Set(value_of(schema, rest)),
        "init" => Op::Init,
        "initn" => Op::Initn(number(rest)),
        "clear" => Op::Clear,
        _ => panic!("{word:?} is no call"),
    }
}

/// A line that is a call.
pub struct CallLine<'a> {
    pub place: Place,
    /// The call as it is written.
    pub word: &'static str,
    path: Vec<Step<'static>>,
    last: Step<'static>,
    op: Op<'a>,
    /// The answer; empty if the line has none.
    pub answer: &'static str,
}

impl<'a> CallLine<'a> {
    /// The call of a line, on a struct of a schema.
    pub fn read(schema: StructSchema<'a>, line: Line) -> CallLine<'a> {
        let _reading = Reading(line.place);
        let (word, answer) = line.text.split_once(" -> ").unwrap_or((line.text, ""));
        let (op, rest) = first_word(word);
        let (path, rest) = first_word(rest);
        let op = op_of(schema, op, rest);
        assert!(
            rest.is_empty() || matches!(op, Op::Set(_) | Op::Initn(_)),
            "{rest:?} is too much"
        );
        let mut path = steps_of(path);
        let last = match op {
            Op::Which => UNSEEN,
            _ => path.pop().expect("the path has a step"),
        };
        CallLine {
            place: line.place,
            word,
            path,
            last,
            op,
            answer,
        }
    }

    fn call(&self) -> Call<'_> {
        Call {
            path: &self.path,
            last: self.last,
            op: self.op,
        }
    }
}

/// The calls of lines.
pub fn calls_of<'c>(lines: &'c [CallLine<'_>]) -> Vec<Call<'c>> {
    lines.iter().map(CallLine::call).collect()
}

/// Asserts that each call has the answer that `wanted` takes from its line.
#[track_caller]
pub fn assert_answers(lines: &[CallLine<'_>], replies: &[Reply], wanted: impl Fn(&'static str) -> &'static str) {
    let first = lines.first().map(|line| line.place);
    assert_eq!(replies.len(), lines.len(), "{first:?}: replies");
    for (line, reply) in lines.iter().zip(replies) {
        assert_text(line.place, &answer(reply), wanted(line.answer));
    }
}
