//! What only the prover reads.

use super::bounds;
use super::edits::Edits;
use super::rules::Rule;
use super::tokens::{Kind, Words};

/// Takes the parts that the words already tell apart: contracts, ghost members, imports of these, and tactics.
pub fn take_ghost_parts(words: &Words<'_>, edits: &mut Edits) {
    for index in 0..words.list.len() {
        match words.list[index].kind {
            Kind::GhostUse => edits.take(words, Rule::GhostUse, index, index),
            Kind::Tactic => edits.take(words, Rule::Tactic, index, index),
            Kind::Clause if !is_in_head(words, index) => {
                edits.refuse(words, index, "a clause that stands at no function".to_string());
            }
            Kind::Clause => edits.take(words, Rule::Clause, index, index),
            Kind::GhostMember => take_member(words, edits, index),
            _ => {}
        }
    }
}

/// Whether a clause stands between the parameters of a function and its body.
fn is_in_head(words: &Words<'_>, clause: usize) -> bool {
    let next = words.after(clause);
    let is_followed = matches!(words.at(next), "{" | ";") || is_clause(words, next);
    let is_behind = !matches!(words.text_before(clause), "(" | "," | "=" | ":" | "<" | "&" | ";");
    let head = (0..clause).rev().take_while(|at| !matches!(words.at(*at), "{" | "}"));
    let mut has_parameters = false;
    for index in head {
        let is_function = words.at(index) == "fn" && words.is(words.after(index), Kind::Name);
        if is_function && words.is(index, Kind::Name) {
            return has_parameters && is_followed && is_behind;
        }
        has_parameters |= words.at(index) == ")";
    }
    false
}

fn is_clause(words: &Words<'_>, index: usize) -> bool {
    words.is(index, Kind::Clause)
}

/// Takes a ghost member with its documentation and visibility.
fn take_member(words: &Words<'_>, edits: &mut Edits, member: usize) {
    let start = item_start(words, member);
    let before = words.before(start);
    let is_ghost = before.is_some_and(|before| matches!(words.list[before].kind, Kind::GhostUse | Kind::GhostMember));
    if is_ghost || matches!(words.text_before(start), "{" | "}" | ";" | ",") {
        edits.take(words, Rule::GhostMember, start, member);
    } else {
        edits.refuse(words, member, words.at(member).to_string());
    }
}

/// Where an item begins: with its documentation and visibility.
fn item_start(words: &Words<'_>, item: usize) -> usize {
    let mut start = item;
    while let Some(before) = words.before(start) {
        let is_its_own = words.is(before, Kind::Doc) || words.at(before) == "pub";
        if !is_its_own {
            break;
        }
        start = before;
    }
    start
}

/// Takes each `impl Model for T {..}`, and the import of the trait.
pub fn take_models(words: &Words<'_>, edits: &mut Edits) {
    let import = ["use", "std", ":", ":", "marker", ":", ":", "Model", ";"];
    for index in 0..words.list.len() {
        if words.reads(index, &import) {
            let last = (1..import.len()).fold(index, |at, _| words.after(at));
            take_whole(words, edits, index, last);
        } else if words.at(index) == "impl" && words.is(index, Kind::Name) {
            take_model(words, edits, index);
        }
    }
    let is_taken = |start: usize| {
        let models = edits.list.iter().filter(|edit| edit.rule == Rule::Model);
        models.into_iter().any(|edit| edit.start <= start && start < edit.end)
    };
    let named = (0..words.list.len()).filter(|at| words.at(*at) == "Model");
    let unknown: Vec<usize> = named.filter(|at| !is_taken(words.list[*at].start)).collect();
    for index in unknown {
        edits.refuse(words, index, "Model where no import or impl is".to_string());
    }
}

/// Takes a block, if it is one of the trait.
fn take_model(words: &Words<'_>, edits: &mut Edits, first: usize) {
    let named = bounds::after_parameters(words, words.after(first));
    if !words.reads(named, &["Model", "for"]) {
        return;
    }
    let open = (named..words.list.len()).find(|at| words.at(*at) == "{");
    let close = open.and_then(|open| words.closing(open));
    let (Some(open), Some(last)) = (open, close) else {
        edits.refuse(words, first, "impl Model for ..".to_string());
        return;
    };
    match (open + 1..last).find(|at| !is_ghost(words.list[*at].kind)) {
        Some(code) => edits.refuse(words, code, "code within an impl of Model".to_string()),
        None => take_whole(words, edits, first, last),
    }
}

/// Whether a word of this kind says nothing to a compiler.
fn is_ghost(kind: Kind) -> bool {
    matches!(
        kind,
        Kind::Space | Kind::Comment | Kind::Doc | Kind::GhostUse | Kind::GhostMember | Kind::Tactic
    )
}

/// Takes the words from one to another, with what other rules do within.
fn take_whole(words: &Words<'_>, edits: &mut Edits, item: usize, last: usize) {
    let first = item_start(words, item);
    if !matches!(words.text_before(first), "" | "}" | ";") {
        edits.refuse(words, item, "a model behind what is not known".to_string());
        return;
    }
    let (start, end) = (words.list[first].start, words.list[last].end);
    // what is put before the first word or behind the last is not within
    edits.list.retain(|edit| edit.end <= start || end <= edit.start);
    edits.take(words, Rule::Model, first, last);
}

/// Makes an assertion of each proof about constants. No other proof stands within code.
pub fn assert_constants(words: &Words<'_>, edits: &mut Edits) {
    for index in 0..words.list.len() {
        if !words.reads(index, &["prove", "!"]) {
            continue;
        }
        let head = ["const", "_", ":", "(", ")", "=", "prove", "!", "("];
        let first = (0..6).try_fold(index, |at, _| words.before(at));
        let is_constant = first.is_some_and(|first| words.reads(first, &head));
        if is_constant {
            edits.replace(words, Rule::ConstProof, index, index, "assert");
        } else {
            edits.refuse(words, index, "a prove! within code".to_string());
        }
    }
}
