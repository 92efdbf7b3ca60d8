//! Questions about the structs of a set, as text.
//!
//! A section consists of blocks. A block has the entries of a set, as `fixtures/set_text.rs` reads them, and questions
//! with their answers, one a line: `follows 0 1 -> true`. It has no set if its test has one for all blocks. An indented
//! line goes on with the line above.
//!
//! A question names the older struct and the newer, by their numbers, and a message of `messages.rs` whose root is a
//! struct of either:
//!
//! | question | answer |
//! |---|---|
//! | `follows 0 1` | whether the newer struct is a compatible successor |
//! | `upgrades 0 1` | whether a list in it became a list of structs; `none` if it is no successor |
//! | `narrow 0 1 numbers` | the text of the message as the older struct reads it; `none` if the newer is no successor |
//! | `widen 0 1 numbers` | the same as the newer struct reads it |
//! | `known 0 1 nine` | whether a member that the older struct has is active in the message |
//!
//! An error is its number and name: `refused: 32 NoSuchElement`.
//!
//! In other sections each line is a pair, and says whether the second struct follows the first:
//! `struct 1 2 | struct 2 2 -> yes`.

use super::messages::root_of;
use crate::capnp_callers::brands::{between, is_successor, seen_by_newer, seen_by_older};
use crate::capnp_dynamic::dynamic_struct;
use crate::capnp_dynamic::dynamic_value::Reader as Value;
use crate::capnp_dynamic::printer::print;
use crate::capnp_schema::set::SchemaSet;
use crate::capnp_wire::error::Result;
use crate::fixtures::set_text::{read_texts, texts_in};
use crate::fixtures::words::{first_word, number};
use crate::rattle_std::alloc::Global;
use crate::rattle_std::string::String as LayerString;
use crate::rows::{assert_text, joined, Line, Place, Reading, Section};

/// The text of an answer, or `none`.
fn or_none(found: Option<impl ToString>) -> String {
    found.map_or_else(|| "none".to_owned(), |it| it.to_string())
}

/// The text of a struct, if there is one.
fn text_of(seen: Option<dynamic_struct::Reader<'_>>) -> Result<String> {
    let Some(reader) = seen else {
        return Ok("none".to_owned());
    };
    let mut out = LayerString::new(Global);
    print(Value::Struct(reader), &mut out, false)?;
    Ok(out.into())
}

/// Whether a member is active, if there is a struct.
fn has_member(seen: Option<dynamic_struct::Reader<'_>>) -> Result<String> {
    let member = seen.map(|reader| reader.which()).transpose()?;
    Ok(or_none(member.map(|found| found.is_some())))
}

/// The answer to a question.
fn answer_of(schemas: &SchemaSet, question: &str) -> Result<String> {
    let (word, rest) = first_word(question);
    let (older, rest) = first_word(rest);
    let (newer, message) = first_word(rest);
    let (older, newer) = (number(older), number(newer));
    match word {
        "follows" => Ok(is_successor(Global, schemas, older, newer)?.to_string()),
        "upgrades" => {
            let pair = between(Global, schemas, older, newer)?;
            Ok(or_none(pair.map(|pair| pair.upgrades())))
        }
        "narrow" => text_of(seen_by_older(Global, schemas, older, newer, root_of(message))?),
        "widen" => text_of(seen_by_newer(Global, schemas, older, newer, root_of(message))?),
        "known" => has_member(seen_by_older(Global, schemas, older, newer, root_of(message))?),
        _ => panic!("{word:?} is no question"),
    }
}

/// Asserts that a question about a set has this answer.
fn is_answered(place: Place, schemas: &SchemaSet, question: &str, answer: &str) {
    let seen = match answer_of(schemas, question) {
        Ok(seen) => seen,
        Err(error) => format!("refused: {} {}", error.kind.number(), error.kind.name()),
    };
    assert_text(place, &seen, answer);
}

/// The set of these texts, which the check accepts.
fn set_of(texts: &[&'static str]) -> SchemaSet {
    read_texts(texts).expect("the check accepts the set")
}

/// Asserts that the questions of each block have these answers. They are about these texts of a set and those of the
/// block.
fn blocks_hold(texts: &[&'static str], section: &Section) {
    for block in section.blocks() {
        let lines = joined(&block.lines);
        let is_entry = |line: &&Line| !line.text.contains(" -> ");
        let own = lines.iter().filter(is_entry).map(|line| line.text);
        let texts: Vec<&str> = texts.iter().copied().chain(own).collect();
        let schemas = {
            let _reading = Reading(block.place);
            set_of(&texts)
        };
        let questions: Vec<Line> = lines.iter().filter(|line| !is_entry(line)).copied().collect();
        assert!(!questions.is_empty(), "{}: no question", block.place);
        for line in questions {
            let _reading = Reading(line.place);
            let (question, answer) = line.sides();
            is_answered(line.place, &schemas, question, answer);
        }
    }
}

/// Asserts that the questions of each block have these answers.
pub fn answers_hold(section: &Section) {
    blocks_hold(&[], section);
}

/// Asserts that the questions of each block have these answers. They are about the set of another section.
pub fn answers_hold_of(set: &Section, section: &Section) {
    blocks_hold(&texts_in(set), section);
}

/// Asserts that each line says whether its second part follows the first. `texts` makes a set of both parts, and
/// `question` asks about it.
fn lines_hold(section: &Section, question: &str, texts: impl Fn(&'static str, &'static str) -> Vec<&'static str>) {
    for line in joined(&section.lines()) {
        let place = line.place;
        let (parts, answer) = line.sides();
        let _reading = Reading(place);
        let (older, newer) = parts.split_once(" | ").expect("a row has two parts");
        let follows = match answer {
            "yes" => "true",
            "no" => "false",
            _ => panic!("{answer:?} is neither yes nor no"),
        };
        is_answered(place, &set_of(&texts(older, newer)), question, follows);
    }
}

/// Asserts that each line says whether its second struct is a compatible successor of the first. `others` is the rest
/// of the set.
pub fn pairs_hold(others: &[&'static str], section: &Section) {
    lines_hold(section, "follows 0 1", |older, newer| {
        [&[older, newer], others].concat()
    });
}

/// Asserts that each line says whether a struct with a list of structs follows its first struct, whose list has other
/// elements. The second part of a line is the struct that an element became.
pub fn lists_hold(section: &Section) {
    lines_hold(section, "follows 9 10", |list, element| {
        vec!["built-in", list, "struct 0 1, xs List(Struct(11)) @0", element]
    });
}
