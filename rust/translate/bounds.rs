//! Bounds that Rust has no need of, and those that it wants said.

use super::edits::Edits;
use super::rules::Rule;
use super::tokens::{Kind, Words};

/// Takes the bound `Drop` of type parameters and types.
pub fn take_drop_bounds(words: &Words<'_>, edits: &mut Edits) {
    for index in 0..words.list.len() {
        if words.at(index) != "Drop" || !words.is(index, Kind::Name) {
            continue;
        }
        let before = words.before(index);
        let next = words.after(index);
        let is_path = words.at(next) == ":" || before.is_some_and(|before| words.text_before(before) == ":");
        match (words.text_before(index), words.at(next)) {
            _ if is_path => edits.refuse(words, index, "a path of Drop".to_string()),
            ("+", _) => edits.take(words, Rule::DropBound, before.unwrap_or(index), index),
            (":", "+") => edits.take(words, Rule::DropBound, index, next),
            (":", "," | ">" | ";" | "{" | "=") => edits.take(words, Rule::DropBound, index, index),
            _ => {
                if !is_derived(words, index) {
                    edits.refuse(words, index, "Drop where no bound is".to_string());
                }
            }
        }
    }
}

/// Whether a name is one in the list of `#[derive(..)]`.
pub fn is_derived(words: &Words<'_>, index: usize) -> bool {
    let open = words.list[..index]
        .iter()
        .rposition(|word| &words.text[word.start..word.end] == "(");
    open.is_some_and(|open| words.text_before(open) == "derive" && words.closing(open).is_some_and(|last| index < last))
}

/// Says of each trait that its types have a size, where it does not say so.
pub fn size_traits(words: &Words<'_>, edits: &mut Edits) {
    for index in 0..words.list.len() {
        if words.at(index) != "trait" || !words.is(index, Kind::Name) {
            continue;
        }
        let name = words.after(index);
        let head = after_parameters(words, words.after(name));
        match (words.at(head), words.before(head)) {
            ("{", Some(before)) => edits.insert_after(words, Rule::SizedTrait, before, ": Sized".to_string()),
            (":", _) if words.at(words.after(head)) == "Sized" => {}
            (":", _) => edits.insert_after(words, Rule::SizedTrait, head, " Sized +".to_string()),
            _ => edits.refuse(words, index, "a trait whose head is not known".to_string()),
        }
    }
}

/// The word after a list of type parameters, if one stands here and can be told.
pub fn after_parameters(words: &Words<'_>, open: usize) -> usize {
    if words.at(open) != "<" {
        return open;
    }
    let mut depth = 0usize;
    for index in open..words.list.len() {
        match words.at(index) {
            "<" => depth += 1,
            ">" if words.at(index - 1) == "-" => return open,
            ">" => {
                depth -= 1;
                if depth == 0 {
                    return words.after(index);
                }
            }
            "{" | ";" => return open,
            _ => {}
        }
    }
    open
}

/// Makes Rust's formatters of those that name what they write to.
pub fn hide_writers(words: &Words<'_>, edits: &mut Edits) {
    let writer = ["Formatter", "<", "W", ">"];
    let parameter = ["<", "W", ":", "fmt", ":", ":", "Write", ">"];
    for index in 0..words.list.len() {
        if words.reads(index, &writer) {
            let named = words.after(words.after(index));
            edits.replace(words, Rule::Formatter, named, named, "'_");
        }
        if words.reads(index, &parameter) && names_writer(words, index, &writer) {
            let last = (1..parameter.len()).fold(index, |at, _| words.after(at));
            edits.take(words, Rule::Formatter, index, last);
        }
    }
}

/// Whether the head of the item here names the writer of a formatter.
fn names_writer(words: &Words<'_>, from: usize, writer: &[&str]) -> bool {
    (from..words.list.len())
        .take_while(|at| words.at(*at) != "{")
        .any(|at| words.reads(at, writer))
}
