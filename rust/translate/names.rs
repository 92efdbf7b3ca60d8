//! Paths: each library is a module of one crate.

use super::edits::Edits;
use super::rules::Rule;
use super::tokens::{Kind, Words};

/// Where a library's name leads in the crate that all are modules of.
pub struct Place<'a> {
    /// The library that is translated.
    pub library: &'a str,
    /// The file of it, by its path below `src`.
    pub file: &'a str,
    /// All libraries.
    pub libraries: &'a [String],
}

impl Place<'_> {
    /// Whether this is a file of a library.
    pub fn is_at(&self, library: &str, file: &str) -> bool {
        self.library == library && self.file == file
    }
}

/// Leads each path to its module. A name of a path's head may stand nowhere else, where it could mean something else.
pub fn lead_paths(words: &Words<'_>, place: &Place<'_>, edits: &mut Edits) {
    for index in 0..words.list.len() {
        let name = words.at(index);
        if !words.is(index, Kind::Name) || !is_head(name, place) || is_visibility(words, index) {
            continue;
        }
        if name == "core" || is_inside_path(words, index) || !begins_path(words, index) {
            edits.refuse(words, index, format!("the name {name} where no path begins"));
        } else if name == "crate" {
            edits.insert_after(words, Rule::CratePath, index, format!("::{}", place.library));
        } else if name == "std" {
            edits.replace(words, Rule::StdPath, index, index, "crate::rattle_std");
        } else {
            edits.insert_before(words, Rule::LibraryPath, index, "crate::".to_string());
        }
    }
}

/// Whether paths to other libraries begin with a name.
fn is_head(name: &str, place: &Place<'_>) -> bool {
    matches!(name, "crate" | "std" | "core") || place.libraries.iter().any(|library| library == name)
}

/// Whether a name is that of `pub(crate)`.
fn is_visibility(words: &Words<'_>, index: usize) -> bool {
    words.at(index) == "crate"
        && words.at(words.after(index)) == ")"
        && words
            .before(index)
            .is_some_and(|open| words.at(open) == "(" && words.text_before(open) == "pub")
}

/// Whether `::` stands behind a name.
fn begins_path(words: &Words<'_>, index: usize) -> bool {
    let next = words.after(index);
    words.reads(next, &[":", ":"]) && words.list[next].end == words.list[next + 1].start
}

/// Whether `::` or `.` stands before a name.
fn is_inside_path(words: &Words<'_>, index: usize) -> bool {
    match words.before(index) {
        Some(before) if words.at(before) == "." => {
            // a range's dots are no call's
            words.text_before(before) != "."
        }
        Some(before) if words.at(before) == ":" => words.text_before(before) == ":",
        _ => false,
    }
}
