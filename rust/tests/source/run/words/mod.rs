//! Tests of words by the public calls of `capnp_words`.
//!
//! A row is a word between bars, and what it is read as: `|a.0| [Named("a"), Element(0)]`. In a word, ␉, ␊ and ␡ are
//! the tab, the line feed and the delete character. If the word can't be read, the row has the place of the first byte
//! that is wrong: `|a..b| at 2`.

use crate::rows::{Place, Section};

mod calls;
mod paths;
mod targets;
mod values;

/// A word, and what it is read as.
struct WordRow {
    place: Place,
    word: String,
    wanted: &'static str,
}

/// The rows of a section.
fn words_in(section: &Section) -> Vec<WordRow> {
    let mut rows = Vec::new();
    for line in section.lines() {
        let parts = line.text.strip_prefix('|').and_then(|rest| rest.rsplit_once("| "));
        let (word, wanted) = parts.unwrap_or_else(|| panic!("{}: no word between bars", line.place));
        rows.push(WordRow {
            place: line.place,
            word: word.replace('␉', "\t").replace('␊', "\n").replace('␡', "\x7f"),
            wanted,
        });
    }
    rows
}
