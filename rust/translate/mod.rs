//! The translation of Rattle to Rust: contracts go, the code stays as it is, but for a short list of rules.

mod bounds;
mod calls;
pub mod checks;
mod derives;
mod edits;
mod ghost;
pub mod handles;
mod loads;
mod names;
mod rules;
mod tokens;
pub mod workspace;

pub use edits::{Edits, Piece};
pub use names::Place;
#[allow(unused_imports, reason = "the tests of the translation use them")]
pub use rules::{Rule, Told, RULES};
#[allow(unused_imports, reason = "the tests of the translation use them")]
pub use tokens::{Kind, Word, Words};

use tokens::Unknown;

/// What becomes of a file.
pub struct Translation<'a> {
    text: &'a str,
    edits: Edits,
}

impl<'a> Translation<'a> {
    /// Translates a file of a library. Refused with a line for each part that no rule knows: the line's number and the
    /// words.
    pub fn new(place: &Place<'_>, text: &'a str) -> Result<Translation<'a>, Vec<String>> {
        let told = |unknown: &Unknown| {
            let line = text[..unknown.at].matches('\n').count() + 1;
            format!("{line}: {}", unknown.what)
        };
        let words = Words::new(text).map_err(|unknown| vec![told(&unknown)])?;
        let mut edits = Edits::default();
        apply_rules(&words, place, &mut edits);
        edits.sort();
        if edits.unknown.is_empty() {
            Ok(Translation { text, edits })
        } else {
            Err(edits.unknown.iter().map(told).collect())
        }
    }

    /// The file in Rust, each line at its number.
    pub fn rust(&self) -> String {
        self.pieces().iter().map(|piece| piece.after).collect()
    }

    /// What a table of a rule names in this file, and is not there: of a whole file nothing may be missing.
    pub fn missing(&self) -> &[String] {
        &self.edits.missing
    }

    /// The file, part by part.
    pub fn pieces(&self) -> Vec<Piece<'_>> {
        self.edits.pieces(self.text)
    }
}

fn apply_rules(words: &Words<'_>, place: &Place<'_>, edits: &mut Edits) {
    ghost::take_ghost_parts(words, edits);
    ghost::assert_constants(words, edits);
    bounds::size_traits(words, edits);
    bounds::take_drop_bounds(words, edits);
    bounds::hide_writers(words, edits);
    derives::write_derives(words, edits);
    names::lead_paths(words, place, edits);
    loads::join_loads(words, edits);
    calls::name_allocated_calls(words, edits);
    calls::know_macros(words, edits);
    calls::know_attributes(words, edits);
    calls::start_functions(words, edits);
    calls::know_modules(words, edits);
    calls::begin_file(words, edits);
    calls::mark_examples(words, edits);
    handles::own_fields(words, place, edits);
    handles::own_raw_calls(words, place, edits);
    checks::add_checks(words, place, edits);
    checks::tell_cases(words, place, edits);
    ghost::take_models(words, edits);
}
