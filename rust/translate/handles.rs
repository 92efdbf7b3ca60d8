//! What callers in Rust don't get: fields of handles, and calls by the positions of words.
//!
//! The prover holds Rattle's callers to what a handle's fields have to be. In Rust they are the crate's own.

use super::bounds;
use super::edits::Edits;
use super::names::Place;
use super::rules::Rule;
use super::tokens::{Kind, Words};

/// A type of a library: the library, the file and the type's name.
pub type Named = (&'static str, &'static str, &'static str);

/// The handles whose fields are the crate's own.
pub const HANDLES: [Named; 9] = [
    ("capnp_arena", "blob_builder.rt", "BlobBuilder"),
    ("capnp_arena", "list_builder.rt", "ListBuilder"),
    ("capnp_arena", "pointer_builder.rt", "PointerBuilder"),
    ("capnp_arena", "struct_builder.rt", "StructBuilder"),
    ("capnp_builders", "any_pointer.rt", "Builder"),
    ("capnp_builders", "data.rt", "Builder"),
    ("capnp_builders", "text.rt", "Builder"),
    ("capnp_dynamic", "dynamic_list/build.rt", "Builder"),
    ("capnp_dynamic", "dynamic_struct/build.rt", "Builder"),
];

/// Fields that are private in the source, each with its type. A check looks at them.
pub const SEEN: [(Named, &str); 2] = [
    (("capnp_dynamic_readers", "dynamic_list.rt", "Reader"), "schemas"),
    (("capnp_dynamic_readers", "dynamic_value.rt", "Enum"), "schema"),
];

/// The library of messages that are built, and the type of them.
pub const MESSAGE: (&str, &str) = ("capnp_arena", "Arena");

/// The calls on such a message that callers in Rust get. The others take the positions of words.
pub const MESSAGE_CALLS: [&str; 11] = [
    "as_reader",
    "compact",
    "get_limit",
    "is_shallow",
    "new",
    "root",
    "set_root",
    "size_in_words",
    "with_limit",
    "write_message",
    "write_message_to",
];

/// Calls of other types that take the positions of words, or parts that nobody has checked.
pub const RAW_CALLS: [(Named, &str); 11] = [
    (("capnp_arena", "blob_builder.rt", "PointerBuilder"), "bytes_mut"),
    (("capnp_schema", "set.rt", "SchemaSet"), "of_accepted"),
    (("capnp_schema", "set/taken.rt", "SchemaSet"), "of_lists"),
    (("capnp_wire", "list_reader.rt", "ListReader"), "found"),
    (("capnp_wire", "list_reader.rt", "ListReader"), "new"),
    (("capnp_wire", "pointer_reader.rt", "PointerReader"), "new"),
    (("capnp_wire", "pointer_reader.rt", "PointerReader"), "of_word"),
    (("capnp_wire", "pointer_reader.rt", "PointerReader"), "pointer"),
    (("capnp_wire", "struct_reader.rt", "StructReader"), "new"),
    (("capnp_wire", "struct_reader.rt", "StructReader"), "of_words"),
    (("capnp_wire", "struct_reader.rt", "StructReader"), "parts"),
];

/// The files of a library that the tables name.
pub fn files_of(library: &str) -> impl Iterator<Item = &'static str> + '_ {
    let seen = SEEN.iter().chain(&RAW_CALLS).map(|(named, _)| named);
    let named = HANDLES.iter().chain(seen);
    named.filter(move |(of, _, _)| *of == library).map(|(_, file, _)| *file)
}

/// Makes the fields of handles the crate's own, and shows the crate those that a check looks at.
pub fn own_fields(words: &Words<'_>, place: &Place<'_>, edits: &mut Edits) {
    for (library, file, name) in HANDLES {
        if !place.is_at(library, file) {
            continue;
        }
        let fields: Vec<usize> = fields_of(words, name)
            .filter(|at| words.text_before(*at) == "pub")
            .collect();
        if fields.is_empty() {
            edits.missing.push(format!("no handle {name} with fields"));
        }
        for visibility in fields.iter().filter_map(|field| words.before(*field)) {
            edits.insert_after(words, Rule::HandleField, visibility, "(crate)".to_string());
        }
    }
    for ((library, file, name), field) in SEEN {
        if !place.is_at(library, file) {
            continue;
        }
        match fields_of(words, name).find(|at| words.at(*at) == field) {
            Some(at) => edits.insert_before(words, Rule::SeenField, at, "pub(crate) ".to_string()),
            None => edits.missing.push(format!("no field {field} of {name}")),
        }
    }
}

/// The fields of a struct, by their names' words.
fn fields_of<'a>(words: &'a Words<'_>, name: &'a str) -> impl Iterator<Item = usize> + 'a {
    let head = (0..words.list.len()).find(|at| words.reads(*at, &["struct", name]));
    let open = head.map(|at| bounds::after_parameters(words, words.after(words.after(at))));
    let close = open.and_then(|open| words.closing(open));
    let range = open.unwrap_or(0)..close.unwrap_or(0);
    range.filter(|at| {
        let is_first = matches!(words.text_before(*at), "{" | "," | "pub")
            || words.before(*at).is_some_and(|before| words.is(before, Kind::Doc));
        words.is(*at, Kind::Name) && words.at(words.after(*at)) == ":" && is_first
    })
}

/// Makes calls by the positions of words the crate's own.
pub fn own_raw_calls(words: &Words<'_>, place: &Place<'_>, edits: &mut Edits) {
    let calls = public_calls(words);
    if place.library == MESSAGE.0 {
        let is_raw = |(of, name): &(&str, &str)| *of == MESSAGE.1 && !MESSAGE_CALLS.contains(name);
        for (visibility, _) in calls.iter().filter(|(_, call)| is_raw(call)) {
            edits.insert_after(words, Rule::RawCall, *visibility, "(crate)".to_string());
        }
    }
    for ((library, file, of), name) in RAW_CALLS {
        if !place.is_at(library, file) {
            continue;
        }
        match calls.iter().find(|(_, call)| *call == (of, name)) {
            Some((visibility, _)) => edits.insert_after(words, Rule::RawCall, *visibility, "(crate)".to_string()),
            None => edits.missing.push(format!("no call {name} of {of}")),
        }
    }
}

/// The public calls in blocks of a type's own: the word of each one's `pub`, the type and the call's name.
fn public_calls<'a>(words: &Words<'a>) -> Vec<(usize, (&'a str, &'a str))> {
    let mut calls = Vec::new();
    for index in 0..words.list.len() {
        if words.at(index) != "impl" || !words.is(index, Kind::Name) {
            continue;
        }
        let of = bounds::after_parameters(words, words.after(index));
        let open = bounds::after_parameters(words, words.after(of));
        let Some(close) = words.closing(open).filter(|_| words.at(open) == "{") else {
            continue;
        };
        for at in (open..close).filter(|at| words.reads(*at, &["pub", "fn"])) {
            let name = words.after(words.after(at));
            calls.push((at, (words.at(of), words.at(name))));
        }
    }
    calls
}
