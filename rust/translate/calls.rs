//! Calls, macros and functions that differ between the two languages.

use super::edits::Edits;
use super::rules::Rule;
use super::tokens::{Kind, Words};

/// Macros that mean the same, or for which `rust/std` has one of the same name.
const MACROS: [&str; 5] = ["unreachable", "write", "format", "vec", "matches"];

/// Keywords behind which `!` is no macro's.
const KEYWORDS: [&str; 7] = ["if", "while", "match", "return", "in", "else", "break"];

/// Attributes that mean the same, and those that a rule reads: up to the bracket that ends them, or a bracket's start.
const ATTRIBUTES: [&[&str]; 7] = [
    &["[", "inline", "]"],
    &["[", "inline", "("],
    &["[", "cold", "]"],
    &["[", "derive", "("],
    &["[", "derive_where", "("],
    &["[", "error", "("],
    &["[", "unsafe", "(", "no_mangle", ")", "]"],
];

/// Calls that take memory, each with how many arguments it has in Rust: one more is the allocator.
const ALLOCATED: [(&str, usize); 2] = [("to_vec", 0), ("collect", 0)];

/// Names calls that are given an allocator as `rust/std` does.
pub fn name_allocated_calls(words: &Words<'_>, edits: &mut Edits) {
    for index in 0..words.list.len() {
        let known = ALLOCATED.iter().find(|(name, _)| *name == words.at(index));
        let open = words.after(index);
        let (Some((_, count)), Some(close)) = (known, words.closing(open)) else {
            continue;
        };
        let is_call = words.text_before(index) == "." && words.at(open) == "(";
        if is_call && count_arguments(words, open, close) > *count {
            edits.insert_after(words, Rule::AllocatedCall, index, "_given".to_string());
        }
    }
}

/// How many arguments stand between two brackets.
fn count_arguments(words: &Words<'_>, open: usize, close: usize) -> usize {
    let mut at = words.after(open);
    let mut count = usize::from(at < close);
    while at < close {
        if words.at(at) == "," && words.after(at) < close {
            count += 1;
        }
        at = words.after(words.closing(at).unwrap_or(at));
    }
    count
}

/// Refuses macros that are not known.
pub fn know_macros(words: &Words<'_>, edits: &mut Edits) {
    for index in 0..words.list.len() {
        let name = words.at(index);
        if is_macro(words, index) && name != "prove" && !MACROS.contains(&name) {
            edits.refuse(words, index, format!("{name}!, a macro that is not known"));
        }
    }
}

/// Whether a name is a macro's: `!` stands behind it, and is no part of `!=`.
fn is_macro(words: &Words<'_>, index: usize) -> bool {
    let mark = words.after(index);
    words.is(index, Kind::Name)
        && !KEYWORDS.contains(&words.at(index))
        && words.at(mark) == "!"
        && words.at(mark + 1) != "="
}

/// Refuses attributes that are not known.
pub fn know_attributes(words: &Words<'_>, edits: &mut Edits) {
    for index in 0..words.list.len() {
        if words.at(index) != "#" || !words.is(index, Kind::Mark) {
            continue;
        }
        let open = words.after(index);
        let name = words.at(words.after(open));
        if !ATTRIBUTES.iter().any(|attribute| words.reads(open, attribute)) {
            edits.refuse(words, index, format!("#[{name}], an attribute that is not known"));
        }
    }
}

/// Shows what starts a program, and refuses a runtime by value anywhere else.
pub fn start_functions(words: &Words<'_>, edits: &mut Edits) {
    let parameter = ["(", "rt", ":", "HostRuntime", ")"];
    for index in 0..words.list.len() {
        if words.at(index) != "fn" || !words.is(index, Kind::Name) {
            continue;
        }
        let name = words.after(index);
        if words.at(name) == "main" {
            edits.insert_before(words, Rule::Main, index, "pub(crate) ".to_string());
        } else if words.reads(words.after(name), &parameter) {
            edits.refuse(words, index, "a runtime by value, of what is no program".to_string());
        }
    }
}

/// Refuses modules within a file that take names from without: those of `rust/std` stand at the head of files alone. What
/// a `pub use` hands on needs none of them.
pub fn know_modules(words: &Words<'_>, edits: &mut Edits) {
    let names = ["Vec", "String", "HostRuntime", "format", "vec", "use", "fn"];
    let is_handed_on = |at: usize| words.at(at) == "use" && words.text_before(at) == "pub";
    let is_taken = |at: &usize| names.contains(&words.at(*at)) && !is_handed_on(*at);
    for index in 0..words.list.len() {
        let open = words.after(words.after(index));
        if words.at(index) != "mod" || !words.is(index, Kind::Name) || words.at(open) != "{" {
            continue;
        }
        let close = words.closing(open).unwrap_or(open);
        if let Some(taken) = (open..close).find(is_taken) {
            edits.refuse(
                words,
                taken,
                "more than constants in a module within a file".to_string(),
            );
        }
    }
}

/// Puts the names that each file takes from `rust/std` before its first item.
pub fn begin_file(words: &Words<'_>, edits: &mut Edits) {
    let is_head = |kind| matches!(kind, Kind::Space | Kind::Comment | Kind::FileDoc | Kind::GhostUse);
    let is_inner = |index: usize| words.is(index, Kind::Tactic) && words.at(index).starts_with("#!");
    let first = (0..words.list.len()).find(|at| !is_head(words.list[*at].kind) && !is_inner(*at));
    let Some(first) = first else {
        return;
    };
    let prelude = "#[allow(unused_imports)] use crate::rattle_std::prelude::*; \
                   #[allow(unused_imports)] use crate::rattle_std::{rattle_format as format, rattle_vec as vec}; ";
    edits.insert_before(words, Rule::Prelude, first, prelude.to_string());
}

/// Marks the examples of documentation as such that rustdoc can't try.
pub fn mark_examples(words: &Words<'_>, edits: &mut Edits) {
    let mut is_inside = false;
    for index in 0..words.list.len() {
        if !words.is(index, Kind::Doc) && !words.is(index, Kind::FileDoc) {
            continue;
        }
        let line = words.at(index)[3..].trim();
        let Some(language) = line.strip_prefix("```") else {
            continue;
        };
        match (is_inside, language) {
            (true, "") | (false, "text") => {}
            (false, "rust") => edits.insert_after(words, Rule::DocExample, index, ",ignore".to_string()),
            _ => edits.refuse(words, index, line.to_string()),
        }
        is_inside = !is_inside;
    }
}
