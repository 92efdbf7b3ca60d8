//! What the rules take of a file, and what they put in its place.

use super::rules::Rule;
use super::tokens::{Unknown, Words};

/// A part of a file that a rule takes, and what stands in its place.
#[derive(Debug)]
pub struct Edit {
    pub start: usize,
    pub end: usize,
    pub rule: Rule,
    pub text: String,
}

/// A part of a file as it was and as it became.
pub struct Piece<'a> {
    /// None where the part stands as it was.
    pub rule: Option<Rule>,
    pub before: &'a str,
    pub after: &'a str,
}

/// The edits of a file.
#[derive(Default)]
pub struct Edits {
    pub list: Vec<Edit>,
    pub unknown: Vec<Unknown>,
    /// What a table of a rule names in this file, and is not there.
    pub missing: Vec<String>,
}

impl Edits {
    /// Takes the words from one to another, both too. Their line breaks stay, so that a line keeps its number.
    pub fn take(&mut self, words: &Words<'_>, rule: Rule, first: usize, last: usize) {
        self.replace(words, rule, first, last, "");
    }

    /// Takes these words and puts a text in their place.
    pub fn replace(&mut self, words: &Words<'_>, rule: Rule, first: usize, last: usize, text: &str) {
        let start = words.list[first].start;
        let end = words.list[last].end;
        let breaks = words.text[start..end].matches('\n').count();
        let text = format!("{text}{}", "\n".repeat(breaks));
        self.list.push(Edit { start, end, rule, text });
    }

    /// Puts a text before a word.
    pub fn insert_before(&mut self, words: &Words<'_>, rule: Rule, index: usize, text: String) {
        let start = words.list.get(index).map_or(words.text.len(), |word| word.start);
        self.list.push(Edit {
            start,
            end: start,
            rule,
            text,
        });
    }

    /// Puts a text behind a word.
    pub fn insert_after(&mut self, words: &Words<'_>, rule: Rule, index: usize, text: String) {
        let start = words.list[index].end;
        self.list.push(Edit {
            start,
            end: start,
            rule,
            text,
        });
    }

    /// Notes words of which it is not known what they mean.
    pub fn refuse(&mut self, words: &Words<'_>, index: usize, what: String) {
        let at = words.list.get(index).map_or(words.text.len(), |word| word.start);
        self.unknown.push(Unknown { at, what });
    }

    /// Puts the edits in the order of their places. Two rules may not take the same words.
    pub fn sort(&mut self) {
        self.list.sort_by_key(|edit| (edit.start, edit.end));
        for pair in self.list.windows(2) {
            if pair[0].end > pair[1].start {
                let what = format!("{:?} and {:?} take the same words", pair[0].rule, pair[1].rule);
                self.unknown.push(Unknown {
                    at: pair[1].start,
                    what,
                });
            }
        }
    }

    /// The file, part by part.
    pub fn pieces<'a>(&'a self, text: &'a str) -> Vec<Piece<'a>> {
        let mut pieces = Vec::new();
        let mut at = 0;
        for edit in &self.list {
            let kept = &text[at..edit.start];
            pieces.push(Piece {
                rule: None,
                before: kept,
                after: kept,
            });
            pieces.push(Piece {
                rule: Some(edit.rule),
                before: &text[edit.start..edit.end],
                after: &edit.text,
            });
            at = edit.end;
        }
        let kept = &text[at..];
        pieces.push(Piece {
            rule: None,
            before: kept,
            after: kept,
        });
        pieces
    }
}
