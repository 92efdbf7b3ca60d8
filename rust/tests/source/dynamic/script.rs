//! Questions about the root of a message: one interpreter, in which each call stands once.
//!
//! A row has a struct in its first line and one message of it or more, by the names that `messages.rs` knows. Each
//! further line is a question with its answer. An answer may follow on lines that are indented by four blanks: what is
//! printed on lines has these lines, and the lines of another answer have a blank between them.
//!
//! ```text
//! kinds full segments
//! get point.x => Int16(-5)
//! lines point =>
//!     :(
//!       x = -5,
//!       y = 6
//!     )
//! ```
//!
//! A question is a word and, mostly, a path of names and indices with dots between them. `next*63` is 63 times `next`,
//! and a question without a path is about the root itself.
//!
//! | question | answer |
//! |---|---|
//! | `get points.1.x` | what is read, as a kind and a value |
//! | `has named.once` | whether the field is there |
//! | `which` | the index of the union's active member, or `none` |
//! | `size tag.any` | the words and the capabilities of a struct, or of what an untyped pointer leads to |
//! | `length items` | the elements of a list |
//! | `last items` | how many elements an iterator has, its last one, and how many it has once that is taken |
//! | `print`, `lines` | what a print leaves, on one line or on lines, of a text that was `:` before |
//! | `within 15 point` | what a print leaves, on one line, of a text that may get so many bytes more |
//! | `debug`, `debug_lines` | the debug form of the struct or list, and the one on lines |
//! | `value_lines` | the one on lines of the value that has the struct or list |
//! | `note 7`, `note id 8` | the annotation of an id, of the struct or of a field, or `none` |
//! | `print_note id 9` | what a print leaves of its value |
//! | `enum 2`, `enumerant 2` | an enumerant of the set's first enum as a value, and its name |
//!
//! A value is its kind with a number or text, `UInt16(5)`, `Text(hi)`. Of a struct it is the kind alone, of a list the
//! count of its elements, and of an untyped pointer `Null` or `Pointer`. If a call returns an error, the answer is the
//! name of its kind; a print then has what it left after that.

use super::messages::{message_named, struct_named};
use crate::capnp_dynamic::dynamic_value::{AnnotationValue, Enum, Reader as Value};
use crate::capnp_dynamic::printer::{print, print_within};
use crate::capnp_dynamic::{dynamic_list, dynamic_struct};
use crate::capnp_schema::set::SchemaSet;
use crate::capnp_wire::error::{ErrorKind, Result};
use crate::fixtures::bytes;
use crate::rattle_std::alloc::Global;
use crate::rattle_std::string::String as Text;
use crate::rows::{assert_text, Block, Place, Section};
use std::fmt::Debug;
use std::str::FromStr;

/// A value as answers have it.
fn shown(value: Value<'_>) -> String {
    match value {
        Value::Void => "Void".to_string(),
        Value::Bool(x) => format!("Bool({x})"),
        Value::Int8(x) => format!("Int8({x})"),
        Value::Int16(x) => format!("Int16({x})"),
        Value::Int32(x) => format!("Int32({x})"),
        Value::Int64(x) => format!("Int64({x})"),
        Value::UInt8(x) => format!("UInt8({x})"),
        Value::UInt16(x) => format!("UInt16({x})"),
        Value::UInt32(x) => format!("UInt32({x})"),
        Value::UInt64(x) => format!("UInt64({x})"),
        Value::Enum(x) => format!("Enum({})", x.get_value()),
        Value::Text(x) => format!("Text({})", String::from_utf8_lossy(x.as_bytes())),
        Value::Data(x) => format!("Data({x:?})"),
        Value::List(x) => format!("List({})", x.len()),
        Value::Struct(_) => "Struct".to_string(),
        Value::AnyPointer(x) if x.is_null() => "Null".to_string(),
        Value::AnyPointer(_) => "Pointer".to_string(),
    }
}

/// What a print into a text leaves of it, which was `:` before.
fn printed(print: impl FnOnce(&mut Text) -> Result<()>) -> String {
    let mut out = Text::from_str(Global, ":").expect("there is memory");
    match print(&mut out) {
        Ok(()) => out.as_str().to_string(),
        Err(error) => format!("{} {}", error.kind.name(), out.as_str()),
    }
}

/// The debug form, on one line or on lines.
fn debugged(shown: &impl Debug, on_lines: bool) -> String {
    if on_lines {
        format!("{shown:#?}")
    } else {
        format!("{shown:?}")
    }
}

fn debug(value: Value<'_>, on_lines: bool) -> String {
    match value {
        Value::Struct(reader) => debugged(&reader, on_lines),
        Value::List(list) => debugged(&list, on_lines),
        other => debugged(&other, on_lines),
    }
}

/// How many items an iterator has, its last one, and how many it has once that is taken.
fn last(list: dynamic_list::Reader<'_>) -> Result<String> {
    let mut items = list.iter();
    let before = items.len();
    Ok(match items.next_back() {
        Some(last) => format!("{before} {} {}", shown(last?), items.len()),
        None => "none".to_string(),
    })
}

/// The root of a message, about which a row asks.
struct Asked<'a> {
    place: Place,
    schemas: &'a SchemaSet,
    root: dynamic_struct::Reader<'a>,
}

impl<'a> Asked<'a> {
    fn number<N: FromStr>(&self, text: &str) -> N {
        let number = text.parse();
        number.unwrap_or_else(|_| panic!("{}: {text:?} is no such number", self.place))
    }

    fn no_question(&self, word: &str) -> ! {
        panic!("{}: {word:?} is no question about that", self.place)
    }

    /// The field of a name, or the element of an index. Returns an error if the value has neither.
    fn part_of(&self, value: Value<'a>, name: &str) -> Result<Value<'a>> {
        match value {
            Value::Struct(reader) => reader.get_named(name),
            Value::List(list) => list.get(self.number(name)),
            _ => Err(ErrorKind::NotAContainer.into()),
        }
    }

    /// What a path from the root leads to. Returns the error of the first read that fails.
    fn follow(&self, path: &str) -> Result<Value<'a>> {
        let mut value = Value::Struct(self.root);
        for step in path.split('.').filter(|step| !step.is_empty()) {
            let (name, count) = step.split_once('*').unwrap_or((step, "1"));
            for _ in 0..self.number::<usize>(count) {
                value = self.part_of(value, name)?;
            }
        }
        Ok(value)
    }

    fn has(&self, path: &str) -> Result<String> {
        let (before, name) = path.rsplit_once('.').unwrap_or(("", path));
        match self.follow(before)? {
            Value::Struct(reader) => Ok(reader.has_named(name)?.to_string()),
            _ => self.no_question("has"),
        }
    }

    fn size(&self, value: Value<'a>) -> Result<String> {
        let size = match value {
            Value::Struct(reader) => reader.total_size()?,
            Value::AnyPointer(pointer) => pointer.target_size()?,
            _ => self.no_question("size"),
        };
        Ok(format!("{} {}", size.word_count, size.cap_count))
    }

    /// What a print leaves of a value at a path, of a text that may get so many bytes more.
    fn within(&self, rest: &str) -> Result<String> {
        let (limit, path) = rest.split_once(' ').unwrap_or((rest, ""));
        let (limit, value) = (self.number(limit), self.follow(path)?);
        Ok(printed(|out| print_within(value, out, false, limit)))
    }

    /// What is said of the annotation of the struct, or of a field if a name stands before the id.
    fn note(&self, rest: &str, say: impl FnOnce(Value<'a>) -> String) -> Result<String> {
        let schema = self.root.get_schema();
        let (annotations, id) = match rest.split_once(' ') {
            Some((name, id)) => (schema.get_field_by_name(name)?.get_annotations()?, id),
            None => (schema.get_annotations()?, rest),
        };
        match annotations.find(self.number(id)) {
            Some(annotation) => Ok(say(annotation.get_value()?)),
            None => Ok("none".to_string()),
        }
    }

    /// The enumerant of a number of the set's first enum.
    fn enumerant(&self, number: &str) -> Enum<'a> {
        Enum::new(self.number(number), self.schemas.enum_schema(0))
    }

    fn enumerant_name(&self, number: &str) -> Result<String> {
        Ok(match self.enumerant(number).get_enumerant()? {
            Some(enumerant) => enumerant.get_proto().name.as_str().to_string(),
            None => "none".to_string(),
        })
    }

    /// The answer to a question about a value.
    fn about(&self, word: &str, value: Value<'a>) -> Result<String> {
        Ok(match (word, value) {
            ("get", value) => shown(value),
            ("which", Value::Struct(reader)) => match reader.which()? {
                Some(member) => member.get_index().to_string(),
                None => "none".to_string(),
            },
            ("size", value) => self.size(value)?,
            ("length", Value::List(list)) => list.len().to_string(),
            ("last", Value::List(list)) => last(list)?,
            ("print", value) => printed(|out| print(value, out, false)),
            ("lines", value) => printed(|out| print(value, out, true)),
            ("debug", value) => debug(value, false),
            ("debug_lines", value) => debug(value, true),
            ("value_lines", value) => debugged(&value, true),
            _ => self.no_question(word),
        })
    }

    /// The answer to a question.
    fn answer(&self, question: &str) -> String {
        let (word, rest) = question.split_once(' ').unwrap_or((question, ""));
        let answer = match word {
            "has" => self.has(rest),
            "within" => self.within(rest),
            "note" => self.note(rest, shown),
            "print_note" => self.note(rest, |value| printed(|out| print(value, out, false))),
            "enum" => Ok(shown(Value::from(self.enumerant(rest)))),
            "enumerant" => self.enumerant_name(rest),
            _ => self.follow(rest).and_then(|value| self.about(word, value)),
        };
        answer.unwrap_or_else(|error| error.kind.name().to_string())
    }
}

/// The answer to a question of a row about the root of a message, under the struct of a number.
pub fn answer_about(place: Place, schemas: &SchemaSet, number: u32, message: &[u8], question: &str) -> String {
    let root = bytes::root_of(message).and_then(|root| root.get_struct());
    let root = root.unwrap_or_else(|error| panic!("{place}: the root is no struct: {:?}", error.kind));
    let root = dynamic_struct::Reader::new(root, schemas.struct_schema(number));
    Asked { place, schemas, root }.answer(question)
}

/// A question, with the answer that is wanted.
struct Question {
    place: Place,
    question: &'static str,
    answer: String,
}

/// The questions of a row.
fn questions_of(row: &Block) -> Vec<Question> {
    let mut questions: Vec<Question> = Vec::new();
    for line in &row.lines[1..] {
        let place = line.place;
        if let Some(more) = line.text.strip_prefix("    ") {
            let above = questions.last_mut();
            let Question { question, answer, .. } = above.unwrap_or_else(|| panic!("{place}: no question is above"));
            let word = question.split(' ').next();
            let is_on_lines = matches!(word, Some("lines" | "debug_lines" | "value_lines"));
            if !answer.is_empty() {
                answer.push(if is_on_lines { '\n' } else { ' ' });
            }
            answer.push_str(more);
            continue;
        }
        let split = line.text.split_once(" =>");
        let (question, answer) = split.unwrap_or_else(|| panic!("{place}: no answer"));
        let answer = answer.trim_start().to_string();
        questions.push(Question {
            place,
            question,
            answer,
        });
    }
    questions
}

/// Asserts that the questions of each row are answered so, about each of its messages.
pub fn assert_answers(section: &Section) {
    for row in section.blocks() {
        let mut head = row.lines[0].text.split(' ');
        let (schemas, number) = struct_named(row.place, head.next().unwrap_or(""));
        let messages: Vec<_> = head.map(|name| (name, message_named(row.place, name))).collect();
        let questions = questions_of(&row);
        let is_asked = !messages.is_empty() && !questions.is_empty();
        assert!(is_asked, "{}: a row has a message and a question", row.place);
        for (name, message) in &messages {
            for asked in &questions {
                let seen = answer_about(asked.place, &schemas, number, message, asked.question);
                assert_text(
                    asked.place,
                    &format!("{name}: {seen}"),
                    &format!("{name}: {}", asked.answer),
                );
            }
        }
    }
}
