//! Scripts that read a message, and their answers as text. Each call of the readers stands here once.
//!
//! A script is questions with semicolons between them. A question is a path of words with dots between them:
//! `struct.u16 0` enters the struct at a pointer and reads its first number of 16 bits. A path before a colon is
//! followed first, and the questions go on from its end: `message.struct.field 3.structs: length; element 0.u16 0`. Such
//! a path may be followed more than once: `words: 62 times struct.field 0: struct`.
//!
//! The answers stand in the order of the questions, with semicolons between them. An error is `refused` and its number
//! (`ErrorKind::number`). Text and data are their bytes in quotes. A question that ends at bytes, a struct, a list or a
//! pointer is answered with that name. If a path before a colon meets an error, that error is the only answer.
//!
//! | at | words |
//! |---|---|
//! | bytes | `message` (the root of a message in a stream), `words` (the pointer before these words), numbers, `length` |
//! | a pointer | `struct`, `text`, `data`, `null`, `total`, `sum` (of a list of numbers) |
//! | a pointer, as a list | `voids`, `bits`, `bytes`, `twos`, `fours`, `eights`, `pointers`, `structs` |
//! | a struct | numbers, `bool`, `field`, `section` (the bytes of its data), `count` (of its pointers), `total` |
//! | a list | numbers, `bool`, `element`, `pointer`, `length`, `empty`, `size`, and all its numbers |
//!
//! Numbers are `u8` to `u64` and `i8` to `i64` with their offset or index, as `u16 3`. Except for a list, a default may
//! follow, which is XORed with the number: `u16 3 default 7`. The same holds of `bool`, whose default is 0 or 1. All
//! numbers of a list are `u8s` to `u64s` and `i8s` to `i64s`. Their answer is how many there are, each of them as a loop
//! gives them, and after a comma each of them as `get` gives them, with one past the end: `2: 7 8, 7 8 0`.

use crate::capnp_wire::error::Result;
use crate::capnp_wire::message::Reader;
use crate::capnp_wire::primitive::PrimitiveElement;
use crate::capnp_wire::size::{ElementSize, MessageSize};
use crate::capnp_wire::{ListReader, PointerReader, StructReader};
use crate::capnp_wire_callers::sum::sum_of_list;
use crate::fixtures::bytes::bytes_of;
use crate::fixtures::words::{first_word, named, number};
use crate::rattle_std::alloc::Global;
use crate::rows::{assert_text, Place, Reading, Section};
use std::fmt::Display;

/// The words that read lists, with the size of their elements.
static SIZES: [(&str, ElementSize); 8] = [
    ("voids", ElementSize::Void),
    ("bits", ElementSize::Bit),
    ("bytes", ElementSize::Byte),
    ("twos", ElementSize::TwoBytes),
    ("fours", ElementSize::FourBytes),
    ("eights", ElementSize::EightBytes),
    ("pointers", ElementSize::Pointer),
    ("structs", ElementSize::InlineComposite),
];

/// Where a path has come to.
#[derive(Clone, Copy)]
enum Cursor<'a> {
    Bytes(&'a [u8]),
    Pointer(PointerReader<'a>),
    Struct(StructReader<'a>),
    List(ListReader<'a>),
}

/// What a word gives: a cursor for the next word, or an answer, after which there is none.
enum Reply<'a> {
    At(Cursor<'a>),
    Said(String),
}

/// A word of a path, with its number and its default.
struct Word<'s> {
    name: &'s str,
    index: u32,
    default: Option<[u8; 8]>,
}

impl Word<'_> {
    fn read(text: &str) -> Word<'_> {
        let (name, rest) = first_word(text);
        let (index, default) = match rest.split_once(" default ") {
            Some((index, default)) => (index, Some(number::<i64>(default).to_le_bytes())),
            None => (rest, None),
        };
        let index = if index.is_empty() { 0 } else { number(index) };
        Word { name, index, default }
    }
}

fn said<'a>(value: impl Display) -> Reply<'a> {
    Reply::Said(value.to_string())
}

/// Text or data in quotes. A byte that isn't printed stands in angle brackets, as the last one of `'hi<00>'`.
pub fn quoted(bytes: &[u8]) -> String {
    let shown = |byte: &u8| match byte {
        b' '..=b'~' => char::from(*byte).to_string(),
        _ => format!("<{byte:02x}>"),
    };
    format!("'{}'", bytes.iter().map(shown).collect::<String>())
}

/// A size that `total` gives.
fn total<'a>(size: MessageSize) -> Reply<'a> {
    let MessageSize { word_count, cap_count } = size;
    said(format_args!("{word_count} words, {cap_count} capabilities"))
}

/// A number at a cursor, or `None` if there is no such word there. Bytes are read as a struct's data section is.
fn one_number<T: PrimitiveElement + Display>(cursor: Cursor<'_>, word: &Word<'_>) -> Option<String> {
    let index = word.index;
    let default = word.default.map(|default| T::read(&default, 0));
    let number: T = match (cursor, default) {
        (Cursor::Bytes(bytes), None) => T::read(bytes, index),
        (Cursor::Bytes(bytes), Some(default)) => T::read_masked(bytes, index, default),
        (Cursor::Struct(fields), None) => fields.get_data_field(index),
        (Cursor::Struct(fields), Some(default)) => fields.get_data_field_mask(index, default),
        (Cursor::List(list), None) => list.get_data_element(index),
        _ => return None,
    };
    Some(number.to_string())
}

/// All numbers of a list.
fn all_numbers<T: PrimitiveElement + Display>(cursor: Cursor<'_>, _word: &Word<'_>) -> Option<String> {
    let Cursor::List(list) = cursor else {
        return None;
    };
    let numbers = list.numbers::<T>();
    let joined = |numbers: &mut dyn Iterator<Item = T>| numbers.map(|number| format!(" {number}")).collect::<String>();
    let looped = joined(&mut numbers.into_iter());
    let got = joined(&mut (0..=numbers.len()).map(|index| numbers.get(index)));
    Some(format!("{}:{looped},{got}", numbers.len()))
}

/// What a word of numbers gives at a cursor, or `None` if it is no such word.
fn numbers(cursor: Cursor<'_>, word: &Word<'_>) -> Option<String> {
    let read: fn(Cursor<'_>, &Word<'_>) -> Option<String> = match word.name {
        "u8" => one_number::<u8>,
        "u16" => one_number::<u16>,
        "u32" => one_number::<u32>,
        "u64" => one_number::<u64>,
        "i8" => one_number::<i8>,
        "i16" => one_number::<i16>,
        "i32" => one_number::<i32>,
        "i64" => one_number::<i64>,
        "u8s" => all_numbers::<u8>,
        "u16s" => all_numbers::<u16>,
        "u32s" => all_numbers::<u32>,
        "u64s" => all_numbers::<u64>,
        "i8s" => all_numbers::<i8>,
        "i16s" => all_numbers::<i16>,
        "i32s" => all_numbers::<i32>,
        "i64s" => all_numbers::<i64>,
        _ => return None,
    };
    read(cursor, word)
}

fn at_bytes<'a>(bytes: &'a [u8], word: &Word<'_>) -> Result<Reply<'a>> {
    Ok(match word.name {
        "message" => Reply::At(Cursor::Pointer(Reader::new(Global, bytes)?.get_root())),
        "words" => Reply::At(Cursor::Pointer(PointerReader::from_words(bytes))),
        "length" => said(bytes.len()),
        name => panic!("{name:?} is no word at bytes"),
    })
}

fn at_pointer<'a>(pointer: PointerReader<'a>, word: &Word<'_>) -> Result<Reply<'a>> {
    if let Some(size) = named(&SIZES, word.name) {
        return Ok(Reply::At(Cursor::List(pointer.get_list(size)?)));
    }
    Ok(match word.name {
        "struct" => Reply::At(Cursor::Struct(pointer.get_struct()?)),
        "text" => said(quoted(pointer.get_text()?)),
        "data" => said(quoted(pointer.get_data()?)),
        "null" => said(pointer.is_null()),
        "total" => total(pointer.total_size()?),
        "sum" => said(sum_of_list(pointer)?),
        name => panic!("{name:?} is no word at a pointer"),
    })
}

fn at_struct<'a>(fields: StructReader<'a>, word: &Word<'_>) -> Result<Reply<'a>> {
    Ok(match (word.name, word.default) {
        ("bool", None) => said(fields.get_bool_field(word.index)),
        ("bool", Some(default)) => said(fields.get_bool_field_mask(word.index, default[0] != 0)),
        ("field", None) => {
            let index = u16::try_from(word.index).expect("the index of a field has 16 bits");
            Reply::At(Cursor::Pointer(fields.get_pointer_field(index)))
        }
        ("section", None) => Reply::At(Cursor::Bytes(fields.get_data_section())),
        ("count", None) => said(fields.get_pointer_count()),
        ("total", None) => total(fields.total_size()?),
        (name, _) => panic!("{name:?} is no word at a struct"),
    })
}

fn at_list<'a>(list: ListReader<'a>, word: &Word<'_>) -> Result<Reply<'a>> {
    Ok(match (word.name, word.default) {
        ("bool", None) => said(list.get_bool_element(word.index)),
        ("element", None) => Reply::At(Cursor::Struct(list.get_struct_element(word.index)?)),
        ("pointer", None) => Reply::At(Cursor::Pointer(list.get_pointer_element(word.index))),
        ("length", None) => said(list.len()),
        ("empty", None) => said(list.is_empty()),
        ("size", None) => {
            let is_its = |(_, size): &&(&str, ElementSize)| *size == list.get_element_size();
            said(SIZES.iter().find(is_its).expect("each size has a word").0)
        }
        (name, _) => panic!("{name:?} is no word at a list"),
    })
}

/// Follows a path from a cursor to its end.
fn follow<'a>(from: Cursor<'a>, path: &str) -> Result<Reply<'a>> {
    let mut reply = Reply::At(from);
    for text in path.split('.') {
        let Reply::At(cursor) = reply else {
            panic!("{text:?} follows an answer");
        };
        let word = Word::read(text);
        reply = match (numbers(cursor, &word), cursor) {
            (Some(numbers), _) => Reply::Said(numbers),
            (None, Cursor::Bytes(bytes)) => at_bytes(bytes, &word)?,
            (None, Cursor::Pointer(pointer)) => at_pointer(pointer, &word)?,
            (None, Cursor::Struct(fields)) => at_struct(fields, &word)?,
            (None, Cursor::List(list)) => at_list(list, &word)?,
        };
    }
    Ok(reply)
}

/// Follows a path before a colon, as often as it says.
fn go<'a>(from: Cursor<'a>, path: &str) -> Result<Cursor<'a>> {
    let (times, path) = path.split_once(" times ").unwrap_or(("1", path));
    (0..number::<u32>(times.trim())).try_fold(from, |cursor, _| match follow(cursor, path)? {
        Reply::At(cursor) => Ok(cursor),
        Reply::Said(_) => panic!("{path:?} ends with an answer"),
    })
}

/// The answer to a question.
fn answer(reply: Result<Reply<'_>>) -> String {
    match reply {
        Ok(Reply::Said(text)) => text,
        Ok(Reply::At(Cursor::Bytes(_))) => "bytes".to_string(),
        Ok(Reply::At(Cursor::Pointer(_))) => "pointer".to_string(),
        Ok(Reply::At(Cursor::Struct(_))) => "struct".to_string(),
        Ok(Reply::At(Cursor::List(_))) => "list".to_string(),
        Err(error) => format!("refused {}", error.kind.number()),
    }
}

/// The answers to a script on bytes.
pub fn answers(bytes: &[u8], script: &str) -> String {
    let mut paths: Vec<&str> = script.split(':').collect();
    let questions = paths.pop().expect("a script has questions").split(';');
    match paths.into_iter().try_fold(Cursor::Bytes(bytes), go) {
        Ok(cursor) => questions
            .map(|question| answer(follow(cursor, question)))
            .collect::<Vec<_>>()
            .join("; "),
        Err(error) => answer(Err(error)),
    }
}

/// Asserts the answers that a row has to a script on bytes.
#[track_caller]
pub fn assert_answers(place: Place, bytes: &[u8], script: &str, wanted: &str) {
    assert_text(place, &answers(bytes, script), wanted);
}

/// Asserts the answers in a section where a row of one column is a message, and each row below it a script with its
/// answers.
#[track_caller]
pub fn scripts_are_answered(section: &Section) {
    let mut bytes = Vec::new();
    for row in section.table() {
        let _reading = Reading(row.place);
        match row.all() {
            [message] => bytes = bytes_of(message),
            _ => {
                let [script, wanted] = row.columns();
                assert_answers(row.place, &bytes, script, wanted);
            }
        }
    }
}

/// Asserts the answers in a section where the first row is a script, and each row below it a message with its answers.
#[track_caller]
pub fn messages_answer(section: &Section) {
    let rows = section.table();
    let [script] = rows[0].columns();
    for row in &rows[1..] {
        let _reading = Reading(row.place);
        let [message, wanted] = row.columns();
        assert_answers(row.place, &bytes_of(message), script, wanted);
    }
}
