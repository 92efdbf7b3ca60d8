//! Calls on the root of a message, as rows write them, and what they return.
//!
//! A call is a name and its arguments, with a space between them:
//!
//! - `clear` clears the root, and `compact` compacts the message.
//! - `set_text TEXT` and `set_data BYTES` set the root.
//! - `init_struct SIZE` makes a struct, and `get_struct SIZE` gets one of at least that size.
//! - `init_list KIND COUNT` makes a list, and `get_list KIND` gets one.
//! - `init_struct_list COUNT SIZE` makes a list of structs, and `get_struct_list SIZE` gets one of at least that size.
//! - `new_struct NUMBER TEXT` makes a struct of a data word and a pointer, which are the number and the text.
//! - `new_filled COUNT` makes a struct of so many data words, of which the last is all ones, and as many pointers, of
//!   which the last leads to the text "before".
//! - `set_field_text TEXT` gets a struct of at least size `1,1`, and sets its first pointer.
//! - `set_root MESSAGE` replaces the message by a copy of another one.
//! - `copy_from MESSAGE` copies the root of another message; `copy_without_levels MESSAGE` does so by a reader that has
//!   no level left, and `copy_of_copy MESSAGE` copies the root of a copy.
//! - `set_list KIND WORDS` copies the list at the root of other words, read as one of that kind.
//! - `set_struct KIND WORDS` copies the first element of that list as a struct.
//! - `copy_content SIZE WORDS` gets a struct of at least that size, and fills it with what fits of the struct at the
//!   root of other words. `copy_content_of_byte WORDS` does so with size `1,1` and the second of a list of bytes there.
//! - `get_data` and `get_text` read the bytes, and then lend the same.
//! - `init_data COUNT [BYTES]` and `init_text COUNT [TEXT]` make zero bytes, lend them, and overwrite them with others,
//!   if there are any.
//! - `reverse_data` and `reverse_text` reverse the bytes that are lent.
//! - `get_struct_or_default SIZE DEFAULT`, `get_list_or_default KIND DEFAULT` and `get_struct_list_or_default SIZE
//!   DEFAULT` get a struct or a list; a null is filled from the default first.
//!
//! SIZE is the data words and the pointers of a struct, as `2,4`, and KIND an `ElementSize`. BYTES are hexadecimal
//! digits. MESSAGE is the bytes of a message and WORDS those of a segment, by such digits or by a name of
//! `messages.rows`. DEFAULT is a message whose root is the default, or `none`.
//!
//! A row writes what a call returns as `ok`, as `length N` of the list that it makes or gets, as `bytes BYTES` or
//! `no bytes` of what stood where it lends bytes, or as `error KIND`.

use super::{message_of, new_message, size, spelled, ONE_EACH};
use crate::capnp_arena::handles::{BlobBuilder, ListBuilder};
use crate::capnp_arena::message::Builder;
use crate::capnp_arena::segment::bytes_of;
use crate::capnp_wire::error::Result;
use crate::capnp_wire::size::{ElementSize, StructSize};
use crate::capnp_wire::{PointerReader, StructReader};
use crate::fixtures::bytes::root_of;
use crate::rows::{hex, Row};
use std::fmt::{self, Display, Formatter};
use std::str::FromStr;

/// What a call returns.
#[derive(Debug)]
pub enum Answer {
    Done,
    Length(u32),
    Bytes(Vec<u8>),
}

impl Display for Answer {
    fn fmt(&self, f: &mut Formatter<'_>) -> fmt::Result {
        match self {
            Answer::Done => f.write_str("ok"),
            Answer::Length(length) => write!(f, "length {length}"),
            Answer::Bytes(bytes) if bytes.is_empty() => f.write_str("no bytes"),
            Answer::Bytes(bytes) => write!(f, "bytes {}", hex(bytes)),
        }
    }
}

/// What a call returns, as a row writes it.
fn said(made: &Result<Answer>) -> String {
    match made {
        Ok(made) => made.to_string(),
        Err(error) => format!("error {}", error.kind.name()),
    }
}

/// A call that was read. Unless it returns bytes, only the layer takes memory for it.
pub type Call<'t> = Box<dyn Fn(&mut Builder) -> Result<Answer> + 't>;

/// The words of a call that are still to be read.
#[derive(Clone, Copy)]
struct Words<'t> {
    place: &'t dyn Display,
    rest: &'t str,
}

impl<'t> Words<'t> {
    fn word(&mut self) -> &'t str {
        let (word, rest) = self.rest.split_once(' ').unwrap_or((self.rest, ""));
        self.rest = rest;
        word
    }

    fn number<N: FromStr>(&mut self) -> N {
        let word = self.word();
        word.parse()
            .unwrap_or_else(|_| panic!("{}: {word:?} is no such number", self.place))
    }

    fn size(&mut self) -> StructSize {
        let word = self.word();
        let parts = word.split_once(',');
        parts
            .and_then(|(data_words, pointers)| Some(size(data_words.parse().ok()?, pointers.parse().ok()?)))
            .unwrap_or_else(|| panic!("{}: {word:?} is no size", self.place))
    }

    fn kind(&mut self) -> ElementSize {
        match self.word() {
            "Void" => ElementSize::Void,
            "Bit" => ElementSize::Bit,
            "Byte" => ElementSize::Byte,
            "TwoBytes" => ElementSize::TwoBytes,
            "FourBytes" => ElementSize::FourBytes,
            "EightBytes" => ElementSize::EightBytes,
            "Pointer" => ElementSize::Pointer,
            "InlineComposite" => ElementSize::InlineComposite,
            word => panic!("{}: {word:?} is no size of elements", self.place),
        }
    }

    fn bytes(self) -> Vec<u8> {
        spelled(self.rest).unwrap_or_else(|| panic!("{}: {:?} are no bytes", self.place, self.rest))
    }

    /// The bytes of the message or of the words that the rest names or spells.
    fn message(self) -> Vec<u8> {
        message_of(self.place, self.rest)
    }

    /// The message that the rest names or spells, or nothing.
    fn default(self) -> Option<Vec<u8>> {
        (self.rest != "none").then(|| self.message())
    }
}

/// Reads a call.
pub fn read_call<'t>(place: &'t dyn Display, text: &'t str) -> Call<'t> {
    let mut words = Words { place, rest: text };
    let name = words.word();
    let readers = [
        read_set,
        read_filled,
        read_list,
        read_copy,
        read_part,
        read_lent,
        read_default,
    ];
    let read = readers.iter().find_map(|read| read(name, words));
    read.unwrap_or_else(|| panic!("{place}: {name:?} is no call"))
}

fn read_set<'t>(name: &str, mut words: Words<'t>) -> Option<Call<'t>> {
    Some(match name {
        "clear" => Box::new(|message| {
            message.root().clear();
            Ok(Answer::Done)
        }),
        "compact" => Box::new(|message| message.compact().map(done)),
        "set_text" => Box::new(move |message| message.root().set_text(words.rest.as_bytes()).map(done)),
        "set_data" => {
            let bytes = words.bytes();
            Box::new(move |message| message.root().set_data(&bytes).map(done))
        }
        "init_struct" => {
            let size = words.size();
            Box::new(move |message| message.root().init_struct(size).map(done))
        }
        "get_struct" => {
            let size = words.size();
            Box::new(move |message| message.root().get_struct(size).map(done))
        }
        _ => return None,
    })
}

fn done<T>(_: T) -> Answer {
    Answer::Done
}

fn read_filled<'t>(name: &str, mut words: Words<'t>) -> Option<Call<'t>> {
    Some(match name {
        "new_struct" => {
            let number = words.number();
            Box::new(move |message| new_struct(message, ONE_EACH, number, words.rest))
        }
        "new_filled" => {
            let count = words.number();
            Box::new(move |message| new_struct(message, size(count, count), u64::MAX, "before"))
        }
        "set_field_text" => Box::new(move |message| {
            let mut fields = message.root().get_struct(ONE_EACH)?;
            fields.pointer_field_mut(0).set_text(words.rest.as_bytes()).map(done)
        }),
        _ => return None,
    })
}

/// Makes a struct whose last word is a number and whose last pointer leads to a text.
fn new_struct(message: &mut Builder, size: StructSize, number: u64, text: &str) -> Result<Answer> {
    let mut fields = message.root().init_struct(size)?;
    let mut pointer = fields.pointer_field_mut(size.pointers - 1);
    pointer.set_text(text.as_bytes())?;
    fields.set_data_field::<u64>(u32::from(size.data_words) - 1, number);
    Ok(Answer::Done)
}

fn read_list<'t>(name: &str, mut words: Words<'t>) -> Option<Call<'t>> {
    let place = words.place;
    let length = move |list: ListBuilder<'_>| length(place, &list);
    Some(match name {
        "init_list" => {
            let (kind, count) = (words.kind(), words.number());
            Box::new(move |message| message.root().init_list(kind, count).map(length))
        }
        "init_struct_list" => {
            let (count, size) = (words.number(), words.size());
            Box::new(move |message| message.root().init_struct_list(count, size).map(length))
        }
        "get_list" => {
            let kind = words.kind();
            Box::new(move |message| message.root().get_list(kind).map(length))
        }
        "get_struct_list" => {
            let size = words.size();
            Box::new(move |message| message.root().get_struct_list(size).map(length))
        }
        _ => return None,
    })
}

/// The length of a list, which a reader of it has too.
fn length(place: &dyn Display, list: &ListBuilder<'_>) -> Answer {
    let length = list.len();
    assert_eq!(list.is_empty(), length == 0, "{place}");
    assert_eq!(list.as_reader().len(), length, "{place}");
    Answer::Length(length)
}

fn read_copy<'t>(name: &str, words: Words<'t>) -> Option<Call<'t>> {
    let source = || words.message();
    Some(match name {
        "set_root" => {
            let source = source();
            Box::new(move |message| message.set_root(root_of(&source)?).map(done))
        }
        "copy_from" => {
            let source = source();
            Box::new(move |message| message.root().copy_from(root_of(&source)?).map(done))
        }
        "copy_without_levels" => {
            let source = source();
            Box::new(move |message| {
                let spent = PointerReader::new(root_of(&source)?.pointer(), 0);
                message.root().copy_from(spent).map(done)
            })
        }
        "copy_of_copy" => {
            let source = source();
            Box::new(move |message| {
                let mut first = new_message();
                first.root().copy_from(root_of(&source)?)?;
                message.root().copy_from(first.as_reader()).map(done)
            })
        }
        _ => return None,
    })
}

/// The struct at an index of the list at the root of these words.
fn element_of(words: &[u8], kind: ElementSize, index: u32) -> Result<StructReader<'_>> {
    PointerReader::from_words(words)
        .get_list(kind)?
        .get_struct_element(index)
}

fn read_part<'t>(name: &str, mut words: Words<'t>) -> Option<Call<'t>> {
    Some(match name {
        "set_list" => {
            let (kind, source) = (words.kind(), words.message());
            Box::new(move |message| {
                let list = PointerReader::from_words(&source).get_list(kind)?;
                message.root().set_list(&list).map(done)
            })
        }
        "set_struct" => {
            let (kind, source) = (words.kind(), words.message());
            Box::new(move |message| message.root().set_struct(&element_of(&source, kind, 0)?).map(done))
        }
        "copy_content" => {
            let (size, source) = (words.size(), words.message());
            Box::new(move |message| {
                let source = PointerReader::from_words(&source).get_struct()?;
                message.root().get_struct(size)?.copy_content_from(&source).map(done)
            })
        }
        "copy_content_of_byte" => {
            let source = words.message();
            Box::new(move |message| {
                let second = element_of(&source, ElementSize::Byte, 1)?;
                message
                    .root()
                    .get_struct(ONE_EACH)?
                    .copy_content_from(&second)
                    .map(done)
            })
        }
        _ => return None,
    })
}

fn read_lent<'t>(name: &str, mut words: Words<'t>) -> Option<Call<'t>> {
    let place = words.place;
    Some(match name {
        "get_data" => Box::new(move |message| {
            let read = message.root().get_data().map(copied);
            let lent = message.root().get_data_mut().map(|built| copied(lent(place, built)));
            same(place, read, lent)
        }),
        "get_text" => Box::new(move |message| {
            let read = message.root().get_text().map(copied);
            let lent = message.root().get_text_mut().map(|built| copied(lent(place, built)));
            same(place, read, lent)
        }),
        "init_data" => {
            let (count, bytes) = (words.number(), words.bytes());
            Box::new(move |message| Ok(overwrite(lent(place, message.root().init_data(count)?), &bytes)))
        }
        "init_text" => {
            let (count, text) = (words.number(), words.rest.as_bytes());
            Box::new(move |message| Ok(overwrite(lent(place, message.root().init_text(count)?), text)))
        }
        "reverse_data" => Box::new(move |message| {
            lent(place, message.root().get_data_mut()?).reverse();
            Ok(Answer::Done)
        }),
        "reverse_text" => Box::new(move |message| {
            lent(place, message.root().get_text_mut()?).reverse();
            Ok(Answer::Done)
        }),
        _ => return None,
    })
}

/// The bytes that are lent, as many as the builder says.
fn lent<'b>(place: &dyn Display, built: BlobBuilder<'b>) -> &'b mut [u8] {
    let length = built.len();
    let bytes = built.into_bytes();
    assert_eq!(bytes.len(), length, "{place}");
    bytes
}

fn copied(bytes: &[u8]) -> Answer {
    Answer::Bytes(bytes.to_vec())
}

/// What was read, which is lent too.
fn same(place: &dyn Display, read: Result<Answer>, lent: Result<Answer>) -> Result<Answer> {
    let [as_read, as_lent] = [&read, &lent].map(said);
    assert!(as_read == as_lent, "{place}:\n   read: {as_read}\n   lent: {as_lent}");
    read
}

/// What stood where bytes are lent, which others overwrite if there are any.
fn overwrite(bytes: &mut [u8], others: &[u8]) -> Answer {
    let before = copied(bytes);
    if !others.is_empty() {
        bytes.copy_from_slice(others);
    }
    before
}

fn read_default<'t>(name: &str, mut words: Words<'t>) -> Option<Call<'t>> {
    Some(match name {
        "get_struct_or_default" => {
            let (size, default) = (words.size(), words.default());
            Box::new(move |message| message.root().get_struct_or_default(size, root_in(&default)).map(done))
        }
        "get_list_or_default" => {
            let (kind, default) = (words.kind(), words.default());
            Box::new(move |message| message.root().get_list_or_default(kind, root_in(&default)).map(done))
        }
        "get_struct_list_or_default" => {
            let (size, default) = (words.size(), words.default());
            Box::new(move |message| {
                message
                    .root()
                    .get_struct_list_or_default(size, root_in(&default))
                    .map(done)
            })
        }
        _ => return None,
    })
}

/// The root of a message of one segment, whose words follow the table.
fn root_in(message: &Option<Vec<u8>>) -> Option<PointerReader<'_>> {
    message.as_ref().map(|bytes| PointerReader::from_words(&bytes[8..]))
}

/// The words of a message's segment, and whether its root is a null, a struct or a list.
pub fn parts_of(message: &mut Builder) -> String {
    let words = message.size_in_words().expect("the message has at most 129 levels");
    let root = message.root();
    let kind = match (root.is_null(), root.is_struct(), root.is_list()) {
        (true, false, false) => "null",
        (false, true, false) => "struct",
        (false, false, true) => "list",
        several => panic!("a root is one of null, struct and list: {several:?}"),
    };
    format!("{words} {kind}")
}

/// The same of the bytes of a message of one segment.
fn parts_in(bytes: &[u8]) -> String {
    let kind = match (&bytes[8..16], bytes[8] % 4) {
        ([0, 0, 0, 0, 0, 0, 0, 0], _) => "null",
        (_, 0) => "struct",
        (_, 1) => "list",
        (_, other) => panic!("a pointer of kind {other}"),
    };
    format!("{} {kind}", bytes.len() / 8 - 1)
}

/// Makes a call on a message, and compares what it returns and the message then with these columns of a row. A refused
/// call leaves the segment as it was.
pub fn follow_call(message: &mut Builder, place: &dyn Display, [call, answer, then]: [&str; 3]) {
    let before = bytes_of(message).to_vec();
    let made = read_call(place, call)(message);
    if made.is_err() {
        assert!(
            bytes_of(message) == before,
            "{place}: {call}: the refused call changed the segment"
        );
    }
    let made = said(&made);
    assert!(made == answer, "{place}: {call}:\n   seen: {made}\n wanted: {answer}");
    let wanted = message_of(place, then);
    let written = message.write_message().expect("there is memory");
    assert!(
        written.as_slice() == wanted,
        "{place}: {call}:\n   seen: {}\n wanted: {}",
        hex(&written),
        hex(&wanted)
    );
    assert_eq!(parts_of(message), parts_in(&wanted), "{place}: {call}");
}

/// Makes the calls of rows on one message in turn.
pub fn follow(rows: &[Row]) {
    let mut message = new_message();
    for row in rows {
        let [_, call, answer, then] = row.columns();
        follow_call(&mut message, &row.place, [call, answer, then]);
    }
}

/// Makes the call of each row on a message of its own.
pub fn follow_changes(rows: &[Row]) {
    for row in rows {
        let [_, before, call, answer, then] = row.columns();
        let mut message = new_message();
        follow_call(&mut message, &row.place, [&format!("set_root {before}"), "ok", before]);
        follow_call(&mut message, &row.place, [call, answer, then]);
    }
}
