//! Calls on the root of a message, as rows. A row is a line with a call, its answer, and the words of the message then,
//! by the name that they have in `calls.rows`:
//!
//! ```text
//! get_text or hi => text 6869 => hi
//! ```
//!
//! The calls of a section are made on one message, which is a null at first.
//!
//! | call | what it does |
//! |---|---|
//! | `clear` | makes the root null |
//! | `numbers 0 0 4` | starts a list of numbers of two bytes, and sets each of them |
//! | `init_text 3`, `init_data 3` | starts a text or data of so many bytes |
//! | `get_text`, `get_data` | gets the text or data of the root |
//! | `get_text or hi`, `get_data or hi` | the same, with the default that these words lead to |
//! | `set_and_get INPUT` | sets the root, and reads it |
//! | `read_data` | reads the data by the reader that the root's builder becomes |
//!
//! These are calls on the root as an untyped pointer:
//!
//! | call | what it does |
//! |---|---|
//! | `untyped init_text 3`, `untyped init_data 3` | starts a text or data of so many bytes |
//! | `untyped init_text`, `untyped init_pointer` | starts a text or an untyped pointer without a length |
//! | `untyped push 3 ab` | starts a text of so many bytes, and pushes a string to it |
//! | `untyped fill 3 7` | starts data of so many bytes, which are zero, and makes each of them this one |
//! | `untyped get_text`, `untyped get_data`, `untyped get_pointer` | gets the pointer as one of that type |
//! | `untyped set INPUT` | sets the pointer |
//!
//! An input is a string, `string hi`; the bytes of a name as a text or as data, `text hi_bytes`, `data hi_bytes`; or
//! what the words of a name lead to, `pointer hi`.
//!
//! An answer is `done`; the bytes of a text or of data, `text 6869`, `data 6869`; `null` or `not null` for an untyped
//! pointer that is built, and `null` or data for one that is read; or the kind of the error.

use crate::capnp_arena::handles::PointerBuilder;
use crate::capnp_arena::message::Builder as Message;
use crate::capnp_builders::traits::{set_and_get, FromPointerBuilder};
use crate::capnp_builders::{any_pointer, data, text};
use crate::capnp_wire::error::Result;
use crate::capnp_wire::size::ElementSize;
use crate::capnp_wire::PointerReader;
use crate::fixtures::bytes::bytes_of;
use crate::fixtures::words::first_word;
use crate::rattle_std::alloc::Global;
use crate::rows::{assert_bytes, assert_text, hex, row_file, Line, Place, RowFile, Section};
use std::collections::HashMap;
use std::fmt;
use std::str::FromStr;
use std::sync::LazyLock;

static ROWS: RowFile = row_file!("calls.rows");

/// The words and bytes that rows name.
static NAMED: LazyLock<HashMap<&str, Vec<u8>>> = LazyLock::new(|| {
    let lines = ROWS.section("words").lines();
    let entries = lines.iter().map(|line| first_word(line.text));
    entries.map(|(name, words)| (name, bytes_of(words))).collect()
});

/// What a call answers. It borrows from the message, so that making a call allocates nothing beside the layer.
pub enum Answer<'a> {
    Done,
    Pointer { is_null: bool },
    Text(&'a [u8]),
    Data(&'a [u8]),
}

impl fmt::Display for Answer<'_> {
    fn fmt(&self, f: &mut fmt::Formatter<'_>) -> fmt::Result {
        match self {
            Answer::Done => f.write_str("done"),
            Answer::Pointer { is_null: true } => f.write_str("null"),
            Answer::Pointer { is_null: false } => f.write_str("not null"),
            Answer::Text([]) => f.write_str("text"),
            Answer::Text(bytes) => write!(f, "text {}", hex(bytes)),
            Answer::Data([]) => f.write_str("data"),
            Answer::Data(bytes) => write!(f, "data {}", hex(bytes)),
        }
    }
}

fn text_of(text: text::Reader<'_>) -> Answer<'_> {
    Answer::Text(text.as_bytes())
}

fn built_text(text: text::Builder<'_>) -> Answer<'_> {
    text_of(text.into_reader())
}

fn built_data(data: data::Builder<'_>) -> Answer<'_> {
    Answer::Data(data.into_reader())
}

fn built_pointer(pointer: any_pointer::Builder<'_>) -> Answer<'_> {
    let is_null = pointer.is_null();
    Answer::Pointer { is_null }
}

/// What an untyped pointer leads to, as data.
fn data_behind(pointer: any_pointer::Reader<'_>) -> Result<Answer<'_>> {
    match pointer.is_null() {
        true => Ok(Answer::Pointer { is_null: true }),
        false => pointer.get_as::<data::Reader<'_>>().map(Answer::Data),
    }
}

/// A call of a row.
#[derive(Clone, Copy)]
pub struct Call {
    place: Place,
    text: &'static str,
}

impl Call {
    fn number<N: FromStr>(self, text: &str) -> N {
        text.parse()
            .unwrap_or_else(|_| panic!("{}: {text:?} is no such number", self.place))
    }

    /// The words or bytes of a name.
    fn named(self, name: &str) -> &'static [u8] {
        let named = NAMED.get(name);
        named.unwrap_or_else(|| panic!("{}: no words are named {name:?}", self.place))
    }

    /// What the words of a name lead to.
    fn pointer(self, name: &str) -> PointerReader<'static> {
        PointerReader::from_words(self.named(name))
    }

    fn default(self, text: &str) -> Option<PointerReader<'static>> {
        text.strip_prefix("or ").map(|name| self.pointer(name))
    }

    fn set_numbers<'a>(self, root: PointerBuilder<'a>, numbers: &str) -> Result<Answer<'a>> {
        let count = numbers.split(' ').count();
        let mut list = root.init_list(ElementSize::TwoBytes, count as u32)?;
        for (index, number) in (0..).zip(numbers.split(' ')) {
            list.set_data_element::<u16>(index, self.number(number));
        }
        Ok(Answer::Done)
    }

    fn set_and_get<'a>(self, root: PointerBuilder<'a>, input: &'static str) -> Result<Answer<'a>> {
        let (kind, rest) = first_word(input);
        match kind {
            "string" => set_and_get::<text::Owned, _>(root, rest).map(text_of),
            "text" => set_and_get::<text::Owned, _>(root, text::Reader(self.named(rest))).map(text_of),
            "data" => set_and_get::<data::Owned, _>(root, self.named(rest)).map(Answer::Data),
            "pointer" => {
                let input = any_pointer::Reader::new(self.pointer(rest));
                data_behind(set_and_get::<any_pointer::Owned, _>(root, input)?)
            }
            _ => panic!("{}: {input:?} is no input", self.place),
        }
    }

    fn set_untyped(self, mut root: any_pointer::Builder<'_>, input: &str) -> Result<()> {
        let (kind, rest) = first_word(input);
        match kind {
            "string" => root.set_as::<text::Owned, _>(rest),
            "text" => root.set_as::<text::Owned, _>(text::Reader(self.named(rest))),
            "data" => root.set_as::<data::Owned, _>(self.named(rest)),
            "pointer" => root.set_as::<any_pointer::Owned, _>(any_pointer::Reader::new(self.pointer(rest))),
            _ => panic!("{}: {input:?} is no input", self.place),
        }
    }

    /// Gets the pointer in each way that there is, and asserts that it is null in all of them or in none.
    fn get_untyped(self, mut root: any_pointer::Builder<'_>) -> Result<Answer<'_>> {
        let is_null = root.is_null();
        assert_eq!(root.reborrow().is_null(), is_null, "{}: while it is lent", self.place);
        assert_eq!(root.is_null(), is_null, "{}: after it was lent", self.place);
        let pointer = any_pointer::Builder::get_from_pointer(root.into_pointer(), None)?;
        assert_eq!(pointer.is_null(), is_null, "{}: as it is got", self.place);
        pointer.get_as().map(built_pointer)
    }

    fn fill(self, root: any_pointer::Builder<'_>, length: u32, byte: u8) -> Result<Answer<'_>> {
        let mut data: data::Builder<'_> = root.initn_as(length)?;
        let is_new = data.reborrow_as_reader().iter().all(|byte| *byte == 0);
        assert!(is_new, "{}: new data are zeros", self.place);
        (0..data.len()).for_each(|index| data.set(index, byte));
        Ok(built_data(data))
    }

    fn make_untyped<'a>(self, root: any_pointer::Builder<'a>, call: &str) -> Result<Answer<'a>> {
        let (word, rest) = first_word(call);
        let (length, more) = first_word(rest);
        match word {
            "init_text" if rest.is_empty() => root.init_as().map(built_text),
            "init_text" => root.initn_as(self.number(rest)).map(built_text),
            "init_data" => root.initn_as(self.number(rest)).map(built_data),
            "init_pointer" => root.init_as().map(built_pointer),
            "push" => {
                let mut text: text::Builder<'_> = root.initn_as(self.number(length))?;
                text.push_str(more);
                Ok(built_text(text))
            }
            "fill" => self.fill(root, self.number(length), self.number(more)),
            "get_text" => root.get_as().map(built_text),
            "get_data" => root.get_as().map(built_data),
            "get_pointer" => self.get_untyped(root),
            "set" => self.set_untyped(root, rest).map(|()| Answer::Done),
            _ => panic!("{}: {call:?} is no call on an untyped pointer", self.place),
        }
    }

    /// Makes the call.
    pub fn make(self, message: &mut Message) -> Result<Answer<'_>> {
        let (word, rest) = first_word(self.text);
        let root = message.root();
        match word {
            "clear" => {
                any_pointer::Builder::new(root).clear();
                Ok(Answer::Done)
            }
            "numbers" => self.set_numbers(root, rest),
            "init_text" => text::Builder::init_pointer(root, self.number(rest)).map(built_text),
            "init_data" => data::Builder::init_pointer(root, self.number(rest)).map(built_data),
            "get_text" => text::Builder::get_from_pointer(root, self.default(rest)).map(built_text),
            "get_data" => data::Builder::get_from_pointer(root, self.default(rest)).map(built_data),
            "set_and_get" => self.set_and_get(root, rest),
            "read_data" => {
                let root = any_pointer::Builder::new(root).into_reader();
                root.get_as::<data::Reader<'_>>().map(Answer::Data)
            }
            "untyped" => self.make_untyped(any_pointer::Builder::new(root), rest),
            _ => panic!("{}: {:?} is no call", self.place, self.text),
        }
    }
}

/// A call, what it answers, and the words of the message then.
pub struct Row {
    pub place: Place,
    pub call: Call,
    pub answer: &'static str,
    pub words: &'static [u8],
}

impl Row {
    fn read(line: Line) -> Row {
        let Line { place, text } = line;
        let columns: Vec<&str> = text.split(" => ").collect();
        let [text, answer, name] = columns[..] else {
            panic!("{place}: a row has a call, an answer and words");
        };
        let call = Call { place, text };
        Row {
            place,
            call,
            answer,
            words: call.named(name),
        }
    }

    /// Asserts that the call answered so.
    pub fn assert_answer(&self, answer: Result<Answer<'_>>) {
        let said = answer.map_or_else(|error| error.kind.name().to_string(), |answer| answer.to_string());
        assert_text(self.place, &said, self.answer);
    }
}

/// The rows of a section.
pub fn rows_of(section: &Section) -> Vec<Row> {
    section.lines().into_iter().map(Row::read).collect()
}

/// A message whose root is null.
pub fn new_message() -> Message {
    Message::new(Global).expect("there is memory")
}

/// Asserts that a message is written as these words, that its sizes are theirs, and that its root is null if they are.
pub fn assert_words(place: Place, message: &mut Message, words: &[u8]) {
    let count = words.len() / 8;
    let mut segment = vec![0, 0, 0, 0, count as u8, 0, 0, 0];
    segment.extend_from_slice(words);
    let written = message.write_message().expect("there is memory");
    assert_bytes(place, written.as_slice(), &segment);
    let size = message.size_in_words().map_err(|error| error.kind);
    assert_eq!(size, Ok(count as u64), "{place}: the words of the message");
    let root = any_pointer::Builder::new(message.root());
    assert_eq!(root.is_null(), words == [0; 8], "{place}: whether the root is null");
    let target = root.target_size().map(|size| size.word_count);
    assert_eq!(
        target.map_err(|error| error.kind),
        Ok(count as u64 - 1),
        "{place}: the words behind the root"
    );
}

/// Makes the calls of a section on one message.
pub fn follow(section: &Section) {
    let mut message = new_message();
    for row in rows_of(section) {
        row.assert_answer(row.call.make(&mut message));
        assert_words(row.place, &mut message, row.words);
    }
}
