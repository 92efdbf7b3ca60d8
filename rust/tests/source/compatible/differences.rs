//! What differs between structs of a set.
//!
//! A block is the entries of a set, as `fixtures/set_text.rs` reads them, a line that asks, and the differences, one a
//! line. `explain` asks for those between struct 0 and struct 1. `explain all: 0 1 no, 4 4 yes` asks for those of
//! several pairs together, and says which of them follow. A difference is the numbers of its structs, its field and its
//! cause, `0 1 2 FieldGone`, or without a field `0 1 UnionMoved`.

use crate::capnp_differences::{explain, explain_all, Difference, Pair};
use crate::capnp_schema::set::SchemaSet;
use crate::fixtures::records::schema_of;
use crate::fixtures::set_text::read_texts;
use crate::fixtures::words::{first_word, number};
use crate::rattle_std::alloc::Global;
use crate::rows::{assert_text, joined, row_file, Line, Reading, RowFile, Section};

static ROWS: RowFile = row_file!("differences.rows");

/// The differences, one a line.
fn lines_of(differences: &[Difference]) -> String {
    let line = |it: &Difference| {
        let field = it.field.map(|field| format!("{field} ")).unwrap_or_default();
        format!("{} {} {field}{:?}", it.pair.older, it.pair.newer, it.cause)
    };
    differences.iter().map(line).collect::<Vec<_>>().join("\n")
}

/// A pair of structs, and whether the newer follows the older.
fn pair_of(words: &str) -> (Pair, bool) {
    let (older, rest) = first_word(words);
    let (newer, follows) = first_word(rest);
    let pair = Pair {
        older: number(older),
        newer: number(newer),
    };
    (pair, follows == "yes")
}

/// The differences that a line asks for. Those of several pairs are compared with what it says of them.
fn answer(schemas: &SchemaSet, ask: Line) -> String {
    if ask.text == "explain" {
        let found = explain(Global, schema_of(schemas, 0), schema_of(schemas, 1));
        return lines_of(&found.expect("there is memory"));
    }
    let pairs = ask.text.strip_prefix("explain all").expect("the line asks");
    let pairs = pairs.trim_start_matches(": ").split_terminator(", ").map(pair_of);
    let (pairs, wanted): (Vec<Pair>, Vec<bool>) = pairs.unzip();
    let explanation = explain_all(Global, schemas, &pairs).expect("there is memory");
    assert_eq!(*explanation.follows, *wanted, "{}", ask.place);
    lines_of(&explanation.told)
}

fn differences_hold(section: &Section) {
    for block in section.blocks() {
        let _reading = Reading(block.place);
        let lines = joined(&block.lines);
        let asks = lines.iter().position(|line| line.text.starts_with("explain"));
        let (entries, rest) = lines.split_at(asks.expect("a block asks"));
        let texts: Vec<&str> = entries.iter().map(|line| line.text).collect();
        let schemas = read_texts(&texts).expect("the check accepts the set");
        let wanted: Vec<&str> = rest[1..].iter().map(|line| line.text).collect();
        assert_text(rest[0].place, &answer(&schemas, rest[0]), &wanted.join("\n"));
    }
}

#[test]
fn differences_are_told() {
    differences_hold(&ROWS.section("differences_are_told"));
}

#[test]
fn differences_of_several_are_told() {
    differences_hold(&ROWS.section("differences_of_several_are_told"));
}
