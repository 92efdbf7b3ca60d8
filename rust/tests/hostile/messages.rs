//! A damaged message: read, printed, copied and patched.

use super::common::bases::{Base, Examples};
use super::common::bounds::{is_within, root};
use super::common::damage::damaged;
use super::common::random::Random;
use super::common::words;
use super::reading::read_value;
use riftcalico::dynamic_value::Reader as Value;
use riftcalico::memory::{Global, String as Text};
use riftcalico::message::read_root;
use riftcalico::patch::{self, CallWord, PathStep, PlainValue, WordOp};
use riftcalico::run::{run_copied, whole_copied, Call, Op, Reply, Step};
use riftcalico::schema::StructSchema;
use riftcalico::{printer, ErrorKind, Result};

/// How many steps the walk of a message may take, so that it is printed and copied.
const STEPS: usize = 1_500;

/// How many values are read of a message.
const VALUES: u32 = 1_500;

/// How many words a message may have that calls build.
const MOST_WORDS: usize = 1 << 16;

/// What came of a message.
#[derive(Clone, Copy, Debug, PartialEq, Eq)]
pub enum Came {
    /// It was printed, and not copied: what no schema leads to is damaged.
    Printed,
    /// It was printed and copied.
    Copied,
    Refused,
    /// There is more to read in it than is printed here.
    TooMuch,
}

/// How many calls on a message were answered, and how many refused.
#[derive(Clone, Copy, Debug, Default)]
pub struct Calls {
    pub answered: u64,
    pub refused: u64,
}

impl Calls {
    /// The calls of both.
    pub fn plus(self, other: Calls) -> Calls {
        Calls {
            answered: self.answered + other.answered,
            refused: self.refused + other.refused,
        }
    }

    fn of(replies: &[Reply]) -> Calls {
        let refused = replies
            .iter()
            .filter(|reply| matches!(reply, Reply::Refused(_)))
            .count() as u64;
        Calls {
            answered: replies.len() as u64 - refused,
            refused,
        }
    }
}

/// Damages the message of a seed, and tries it.
pub fn try_one(examples: &Examples, seed: u64) -> (Came, Calls) {
    let mut random = Random::new(2, seed);
    let base = random.one_of(&examples.bases);
    let bytes = damaged(&mut random, &base.bytes);
    let schema = schema_of(&mut random, examples, base);
    let Ok(reader) = read_root(&bytes, schema) else {
        return (Came::Refused, Calls::default());
    };
    read_value(Value::Struct(reader), &mut { VALUES });
    if !is_within(&bytes, STEPS) {
        return (Came::TooMuch, Calls::default());
    }
    let text = printer::to_string(Value::Struct(reader), false);
    let lines = printer::to_string(Value::Struct(reader), true);
    assert_same_text(&text, &lines);
    let is_copied = is_copied_alike(&bytes, schema, &text);
    let calls = patch_message(&mut random, examples, base.name, &bytes, schema);
    match (text, is_copied) {
        (Err(_), _) => (Came::Refused, calls),
        (Ok(_), true) => (Came::Copied, calls),
        (Ok(_), false) => (Came::Printed, calls),
    }
}

/// The schema of a message, or once in a while another one of its set.
fn schema_of<'a>(random: &mut Random, examples: &'a Examples, base: &Base) -> StructSchema<'a> {
    let set = &examples.sets[base.set];
    if random.once_in(8) {
        return set.struct_schema(random.below(set.brands().len()) as u32);
    }
    set.find_struct(base.name)
        .expect("the examples' names are those of structs")
}

/// Asserts that the indented text is the other one with blanks between, or refused alike.
fn assert_same_text(text: &Result<String>, lines: &Result<String>) {
    let bare = |text: &str| text.replace([' ', '\n'], "");
    match (text, lines) {
        (Ok(text), Ok(lines)) => assert_eq!(bare(text), bare(lines)),
        _ => assert_eq!(text, lines),
    }
}

/// Copies a message, where it can be copied: the copy has the same text, or none for the same reason.
fn is_copied_alike(bytes: &[u8], schema: StructSchema<'_>, text: &Result<String>) -> bool {
    let message = match run_copied(Global, MOST_WORDS, root(bytes), schema, &[]) {
        Ok(left) => {
            assert!(left.replies.is_empty());
            left.message
        }
        Err(error) => {
            assert_is_of_reading(error.kind);
            return false;
        }
    };
    let copy = message.write_message().expect("a copy of a short message is short");
    let reader = read_root(&copy, schema).expect("what was written is read back");
    assert_eq!(&printer::to_string(Value::Struct(reader), false), text);
    let size = message.size_in_words().expect("a short message has a size");
    assert_eq!(copy.len() as u64, 8 + 8 * size, "a message of one segment");
    true
}

/// Asserts that a refusal is one of those of copies.
fn assert_is_of_reading(kind: ErrorKind) {
    let known = [
        ErrorKind::BadPointer,
        ErrorKind::TooDeep,
        ErrorKind::CapabilityPointer,
        ErrorKind::WrongPointerKind,
    ];
    assert!(known.contains(&kind), "{kind:?}");
}

/// Makes calls on a copy of a message: with what words say, and with parts of the message itself.
fn patch_message(
    random: &mut Random,
    examples: &Examples,
    name: &str,
    bytes: &[u8],
    schema: StructSchema<'_>,
) -> Calls {
    let count = 1 + random.below(3);
    let said: Vec<CallWord> = (0..count).filter_map(|_| call_word(random, name, schema)).collect();
    let values: Vec<PlainValue<'_>> = said.iter().map(|word| value_of(schema, word)).collect();
    let steps: Vec<Vec<Step<'_>>> = said.iter().map(steps_of).collect();
    let other = random.one_of(&examples.bases);
    let part = read_root(&other.bytes, schema)
        .map(Value::Struct)
        .unwrap_or(Value::Void);
    let given = values
        .iter()
        .map(|value| if random.once_in(6) { part } else { value.as_reader() });
    let given: Vec<Value<'_>> = given.collect();
    let calls = said
        .iter()
        .zip(&steps)
        .zip(&given)
        .map(|((word, steps), value)| call_of(word, steps, *value));
    let calls: Vec<Call<'_>> = calls.collect();
    run_limited(bytes, schema, &calls);
    run_whole(bytes, schema, &calls)
}

/// A call of a word, where it can be read and is no edit.
fn call_word(random: &mut Random, name: &str, schema: StructSchema<'_>) -> Option<CallWord> {
    let word = words::call(random, name, schema);
    let word = patch::parse_call(Global, &word).expect("there is memory").ok()?;
    (!is_edit(&word.op)).then_some(word)
}

fn is_edit(op: &WordOp) -> bool {
    matches!(
        op,
        WordOp::Append(..) | WordOp::Insert(..) | WordOp::Remove(_) | WordOp::Resize(_) | WordOp::Copy(_)
    )
}

/// The value that a call sets, a void where it sets none.
fn value_of<'s>(schema: StructSchema<'s>, word: &CallWord) -> PlainValue<'s> {
    let (WordOp::Set(value, _), Some(target)) = (&word.op, patch::target_type(schema, &word.path)) else {
        return PlainValue::Void;
    };
    let read = patch::parse_value(Global, schema.get_set(), target, value).expect("there is memory");
    read.unwrap_or(PlainValue::Void)
}

fn steps_of(word: &CallWord) -> Vec<Step<'_>> {
    let steps = word.path.steps.iter().map(|step| match step {
        PathStep::Named(name) => Step::Named(name),
        PathStep::Field(number) => Step::Field(*number),
        PathStep::Element(index) => Step::Element(*index),
    });
    steps.collect()
}

fn call_of<'c>(word: &CallWord, steps: &'c [Step<'c>], value: Value<'c>) -> Call<'c> {
    let op = match word.op {
        WordOp::Get => Op::Get,
        WordOp::Has => Op::Has,
        WordOp::Which => Op::Which,
        WordOp::Set(..) => Op::Set(value),
        WordOp::Init => Op::Init,
        WordOp::Initn(length) => Op::Initn(length),
        WordOp::Clear => Op::Clear,
        WordOp::Append(..) | WordOp::Insert(..) | WordOp::Remove(_) | WordOp::Resize(_) | WordOp::Copy(_) => {
            unreachable!("edits are no calls")
        }
    };
    match (op, steps.split_last()) {
        (Op::Which, _) | (_, None) => Call {
            path: steps,
            last: Step::Field(0),
            op,
        },
        (_, Some((last, path))) => Call { path, last: *last, op },
    }
}

/// Makes calls on a copy of a message that may not grow past a limit: each has a reply.
fn run_limited(bytes: &[u8], schema: StructSchema<'_>, calls: &[Call<'_>]) {
    match run_copied(Global, MOST_WORDS, root(bytes), schema, calls) {
        Ok(left) => {
            assert_eq!(left.replies.len(), calls.len());
            let written = left.message.write_message().expect("a message of limited size is short");
            assert!(written.len() <= 8 + 8 * MOST_WORDS);
        }
        Err(error) => assert_is_of_reading(error.kind),
    }
}

/// Makes calls on a copy of a message, which is written and printed: what is read back has that text. The call that
/// patches bytes leaves the same message.
fn run_whole(bytes: &[u8], schema: StructSchema<'_>, calls: &[Call<'_>]) -> Calls {
    let mut text = Text::new(Global);
    let whole = whole_copied(Global, root(bytes), schema, calls, &mut text, false);
    let patched = patch::run_bytes(Global, bytes, schema, calls);
    let Ok((replies, written)) = whole else {
        assert!(text.is_empty());
        return Calls::default();
    };
    let reader = read_root(&written, schema).expect("what was written is read back");
    assert_eq!(
        printer::to_string(Value::Struct(reader), false).as_deref(),
        Ok(text.as_str())
    );
    assert_eq!(replies.len(), calls.len());
    let left = patched.expect("the same calls are not refused elsewhere");
    assert!(left.replies == replies, "the same calls have the same replies");
    assert_eq!(left.message.write_message(), Ok(written));
    Calls::of(&replies)
}
