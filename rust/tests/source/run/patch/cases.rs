//! Cases: calls on messages, the lines that report them, and the message that is written.
//!
//! A case is a block of a rows file. Its first line names the struct of the root, by its name or its number in the set,
//! and after `from` messages: the calls are made on a copy of each. Without messages, they are made on an empty root.
//! The calls follow, as `../calls.rs` has them, each with the line that reports it, behind `> `. The last line names
//! the message that is written:
//!
//! ```text
//! Mixed from mixed_hi
//! set b Text(ho)
//! get b
//! > 2: get b = "ho"
//! writes mixed_ho
//! ```
//!
//! If one of the calls fails, the last line has `keeps` in place of `writes`: the message is only written if the
//! program keeps going.
//!
//! A line behind `! ` is the report if a call runs out of memory: `memory.rs` reads these.

use crate::capnp_call::calls::{any_refused, Call, Reply};
use crate::capnp_call::message::{run_new, Run, MOST_WORDS};
use crate::capnp_patch::engine::run_bytes;
use crate::capnp_patch::lines::get_lines;
use crate::capnp_schema::schema::StructSchema;
use crate::capnp_schema::set::SchemaSet;
use crate::capnp_wire::error::Result;
use crate::rattle_std::alloc::Global;
use crate::rattle_std::string::String as LayerString;
use crate::rows::{assert_bytes, assert_text, Block, Line, Place, Reading, Section};
use crate::run::calls::{calls_of, CallLine};
use crate::run::messages::{message_of, Head};

/// The lines that report calls.
pub struct Report {
    place: Place,
    lines: Vec<Line>,
}

impl Report {
    /// The lines of a block behind a mark.
    fn behind(mark: &str, block: &Block) -> Report {
        let marked = |line: &Line| {
            let text = line.text.strip_prefix(mark)?;
            Some(Line { text, ..*line })
        };
        Report {
            place: block.place,
            lines: block.lines.iter().filter_map(marked).collect(),
        }
    }

    /// Asserts that these are the lines.
    pub fn is(&self, seen: &str) {
        let mut seen = seen.split_inclusive('\n');
        for line in &self.lines {
            let wanted = format!("{}\n", line.text);
            assert_text(line.place, seen.next().unwrap_or("nothing"), &wanted);
        }
        assert_text(self.place, seen.next().unwrap_or(""), "");
    }
}

/// The message that calls leave.
pub struct Left {
    place: Place,
    message: &'static [u8],
}

impl Left {
    /// Asserts that these bytes are left.
    pub fn is(&self, seen: &[u8]) {
        assert_bytes(self.place, seen, self.message);
    }
}

/// Calls on messages or on an empty root.
pub struct Case<'a> {
    pub place: Place,
    schema: StructSchema<'a>,
    /// The messages; none for an empty root.
    pub starts: Vec<Option<&'static [u8]>>,
    pub calls: Vec<CallLine<'a>>,
    pub report: Report,
    /// The report if a call runs out of memory.
    pub report_without_memory: Report,
    /// The message that is left.
    pub left: Left,
    /// Whether a call fails.
    has_refusal: bool,
}

impl<'a> Case<'a> {
    pub fn read(schemas: &'a SchemaSet, block: &Block) -> Case<'a> {
        let head = Head::read(schemas, block.lines[0]);
        let (last, lines) = block.lines[1..].split_last().expect("a case has an end");
        let is_call = |line: &&Line| !line.text.starts_with(['>', '!']);
        let calls = lines.iter().filter(is_call);
        let calls = calls.map(|line| CallLine::read(head.schema, *line)).collect();
        let _reading = Reading(last.place);
        let (has_refusal, name) = match last.text.split_once(' ') {
            Some(("writes", name)) => (false, name),
            Some(("keeps", name)) => (true, name),
            _ => panic!("{:?} is no end of a case", last.text),
        };
        let starts = head.messages.iter().copied().map(Some).collect();
        Case {
            place: block.place,
            schema: head.schema,
            starts: if head.messages.is_empty() { vec![None] } else { starts },
            calls,
            report: Report::behind("> ", block),
            report_without_memory: Report::behind("! ", block),
            left: Left {
                place: last.place,
                message: message_of(name),
            },
            has_refusal,
        }
    }

    /// Makes the calls on a message or on an empty root.
    pub fn run(&self, start: Option<&[u8]>, calls: &[Call<'_>]) -> Result<Run> {
        match start {
            Some(message) => run_bytes(Global, message, self.schema, calls),
            None => run_new(Global, MOST_WORDS, self.schema, calls),
        }
    }

    /// The calls as they are written.
    pub fn words(&self) -> Vec<&'static str> {
        self.calls.iter().map(|line| line.word).collect()
    }

    /// Asserts that the calls are reported so, and that the message is written or not.
    fn holds(&self, keeps_going: bool) {
        let calls = calls_of(&self.calls);
        for start in &self.starts {
            let run = self.run(*start, &calls);
            let run = run.unwrap_or_else(|error| panic!("{}: {error:?}", self.place));
            self.report.is(&lines_of(&self.words(), &run.replies));
            let written = if keeps_going || !any_refused(&run.replies) {
                run.message.write_message().expect("there is memory").into()
            } else {
                Vec::new()
            };
            let is_written = keeps_going || !self.has_refusal;
            assert_bytes(
                self.left.place,
                &written,
                if is_written { self.left.message } else { &[] },
            );
        }
    }
}

/// The lines that report replies to calls.
pub fn lines_of(words: &[&str], replies: &[Reply]) -> LayerString {
    get_lines(Global, words, replies).expect("there is memory")
}

/// Runs the cases of a section on the structs of a set. If a call fails, the message is only written if the case keeps
/// going.
pub fn cases_hold(schemas: &SchemaSet, section: &Section, keeps_going: bool) {
    for block in section.blocks() {
        Case::read(schemas, &block).holds(keeps_going);
    }
}
