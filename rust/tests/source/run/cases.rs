//! Cases: calls on the root of a message, and what they leave of it.
//!
//! A case is a block of a rows file. Its first line names the struct of the root, by its name or its number in the set,
//! and after `from` a message: the calls are made on a copy of it. Without a message, they are made on an empty root.
//! The calls follow, with their answers, as `calls.rs` has them. The line `leaves` has the text of the root after the
//! calls, or the error if it can't be printed; an indented line goes on with it. The line `writes` names the message
//! after the calls, and may be left out:
//!
//! ```text
//! Lists from items_as_numbers
//! get items.0.a -> UInt16(1)
//! leaves (items = [(a = 1), (a = 2)])
//! writes structs
//! ```
//!
//! The calls are made twice: by `run::run` on a builder or by `message::run_copied`, and by `message::whole_new` or
//! `whole_copied`, which also write and print the message. Both times the answers and the message have to be the same.

use super::answers::refusal;
use super::calls::{assert_answers, calls_of, CallLine};
use super::messages::{message_of, Head};
use crate::capnp_arena::message::Builder;
use crate::capnp_callers::streams::run_on_stream;
use crate::capnp_dynamic::dynamic_struct;
use crate::capnp_run::calls::{Call, Reply};
use crate::capnp_run::message::{run_copied, whole_new, MOST_WORDS};
use crate::capnp_run::run::run;
use crate::capnp_schema::schema::StructSchema;
use crate::capnp_schema::set::SchemaSet;
use crate::capnp_slots::size_of;
use crate::capnp_wire::error::Result;
use crate::capnp_wire::message::Reader;
use crate::rattle_std::alloc::Global;
use crate::rattle_std::string::String as LayerString;
use crate::rattle_std::vec::Vec as List;
use crate::rows::{assert_bytes, assert_text, joined, Block, Line, Place, Reading, Section};

/// The replies to calls, and the message that they left.
type Left = (List<Reply>, List<u8>);

/// Calls on the root of a message.
pub struct Case<'a> {
    pub place: Place,
    pub schema: StructSchema<'a>,
    /// The message on whose copy the calls are made.
    pub start: Option<&'static [u8]>,
    pub calls: Vec<CallLine<'a>>,
    /// The text of the root after the calls.
    pub leaves: Line,
    /// The message after the calls, if it is compared.
    writes: Option<(Place, &'static [u8])>,
}

impl<'a> Case<'a> {
    pub fn read(schemas: &'a SchemaSet, block: &Block) -> Case<'a> {
        let place = block.place;
        let lines = joined(&block.lines);
        let (head, lines) = lines.split_first().expect("a block has lines");
        let head = Head::read(schemas, *head);
        let (mut calls, mut leaves, mut writes) = (Vec::new(), None, None);
        for line in lines {
            match line.text.split_once(' ') {
                Some(("leaves", text)) => leaves = Some(Line { text, ..*line }),
                Some(("writes", name)) => {
                    let _reading = Reading(line.place);
                    writes = Some((line.place, message_of(name)));
                }
                _ => calls.push(CallLine::read(head.schema, *line)),
            }
        }
        Case {
            place,
            schema: head.schema,
            start: head.message(),
            calls,
            leaves: leaves.unwrap_or_else(|| panic!("{place}: no line `leaves`")),
            writes,
        }
    }

    /// Makes the calls on a builder, or on a copy.
    fn run(&self, calls: &[Call<'_>]) -> Result<Left> {
        let schema = self.schema;
        if let Some(bytes) = self.start {
            let source = Reader::new(Global, bytes)?.get_root();
            let left = run_copied(Global, MOST_WORDS, source, schema, calls)?;
            return Ok((left.replies, left.message.write_message()?));
        }
        let mut message = Builder::new(Global)?;
        let place = message.get_struct(0, size_of(schema))?;
        let arena = &mut message;
        let replies = run(Global, dynamic_struct::Builder { arena, place, schema }, calls)?;
        Ok((replies, message.write_message()?))
    }

    /// Makes the calls, writes the message, and prints its root.
    fn run_whole(&self, calls: &[Call<'_>], text: &mut LayerString) -> Result<Left> {
        match self.start {
            Some(bytes) => run_on_stream(Global, self.schema, bytes, calls, text, false),
            None => whole_new(Global, self.schema, calls, text, false),
        }
    }

    /// Asserts that the calls are answered as the lines say, and leave this message. Returns the text of its root.
    fn text(&self, calls: &[Call<'_>], left: &[u8]) -> String {
        let mut text = LayerString::new(Global);
        match self.run_whole(calls, &mut text) {
            Ok((replies, bytes)) => {
                assert_answers(&self.calls, &replies, |answer| answer);
                assert_bytes(self.place, &bytes, left);
                text.into()
            }
            Err(error) => {
                assert_text(self.place, &text, "");
                refusal(&error.kind)
            }
        }
    }

    fn holds(&self) {
        let calls = calls_of(&self.calls);
        let left = self.run(&calls);
        let (replies, bytes) = left.unwrap_or_else(|error| panic!("{}: {error:?}", self.place));
        assert_answers(&self.calls, &replies, |answer| answer);
        assert_text(self.leaves.place, &self.text(&calls, &bytes), self.leaves.text);
        if let Some((place, message)) = self.writes {
            assert_bytes(place, &bytes, message);
        }
    }
}

/// Runs the cases of a section on the structs of a set.
pub fn cases_hold(schemas: &SchemaSet, section: &Section) {
    for block in section.blocks() {
        Case::read(schemas, &block).holds();
    }
}
