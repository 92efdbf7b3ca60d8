//! The checks of callers in Rust. The prover holds Rattle's callers to the conditions of a call; here a line before the
//! call's own asks for them, and `rust/src/checks.rs` has what the lines call.

use super::edits::Edits;
use super::names::Place;
use super::rules::Rule;
use super::tokens::{Kind, Words};

/// A call that is checked: how its head begins, from `fn` on; the line that stands first in its body, none where the body
/// has no need of one; and what its documentation says of the check.
pub type Check = (&'static str, &'static str, &'static str);

const FIELD: &str =
    "This crate checks the field: one of another struct or of another set is refused with `FieldNotFound`.";
const INACTIVE: &str = "This crate checks the field: one of another struct or of another set is not active.";
const VALUE: &str =
    "This crate checks the value: a struct, list or enum of another set is refused with `TypeMismatch`. An \
                     untyped field takes it.";
const ELEMENT: &str =
    "This crate checks the value: a struct, list or enum of another set is refused with `TypeMismatch`.";
const PAST_END: &str = "This crate checks the index: one past the end is refused with `NoSuchElement`.";
const ONE_SET: &str =
    "This crate checks the schemas: those of two sets are refused with `TypeMismatch`, and one past the \
                       last struct of its set with `NoSuchElement`.";
const NOT_COMPOSITE: &str = "This crate checks the size: `InlineComposite` is refused with `WrongElementSize`.";
const META: &str = "This crate checks the record: one of another set is refused with `TypeMismatch`.";
const PANICS: &str = "This crate checks the condition, and panics otherwise.";
const ITEM: &str = "This crate checks each index as its item is taken, and panics where the list has none.";
const TEXT: &str = "The calls of the builder panic where something else than a text stands there.";
const BYTES: &str = "The call panics where a byte of the number lies outside `bytes`.";
const BYTES_NEAR: &str = "The call panics where a byte of the number lies outside `bytes`, of an index below 2^60.";
const DATA: &str = "The calls of the builder panic where something else than data stands there.";

const CHECK_FIELD: &str = "crate::checks::field(field, self.schema)?;";
const CHECK_ELEMENT: &str = "crate::checks::element(index, self.arena.get_length(self.at))?;";
const CHECK_INDEX: &str = "crate::checks::index(index, self.len());";
const CHECK_POINTER: &str = "crate::checks::pointer(self.place, index);";
const CHECK_POINTER_IN: &str = "crate::checks::pointer_in(self.list, index);";
const CHECK_STRUCT_IN: &str = "crate::checks::struct_in(self.list, index);";
const CHECK_SIZE: &str = "crate::checks::size(size)?;";
const CHECK_PLAIN: &str = "crate::checks::not_canonical(_canonicalize);";
const CHECK_DEFAULT: &str = "crate::checks::no_default(_default.is_some());";
const CHECK_REPLY: &str =
    "if let Err(error) = crate::checks::value(field, value) { return Reply::Refused(error.kind); }";
const CHECK_REPLY_IN: &str =
    "if let Err(error) = crate::checks::value_in(schemas, &value) { return Reply::Refused(error.kind); }";

/// The checks, by libraries and files.
pub const CHECKS: &[(&str, &str, &[Check])] = &[
    (
        "capnp_arena",
        "list_builder.rt",
        &[
            (
                "fn set_bool_element(&mut self, index: u32",
                "crate::checks::bit_in(self.list, index);",
                PANICS,
            ),
            (
                "fn set_data_element<T: PrimitiveElement>(&mut self, index: u32",
                "crate::checks::number_in(self.list, index, T::count_bytes());",
                PANICS,
            ),
            ("fn get_struct_element(self, index: u32)", CHECK_STRUCT_IN, PANICS),
            ("fn struct_element_mut(&mut self, index: u32)", CHECK_STRUCT_IN, PANICS),
            ("fn get_pointer_element(self, index: u32)", CHECK_POINTER_IN, PANICS),
            ("fn pointer_element_mut(&mut self, index: u32)", CHECK_POINTER_IN, PANICS),
        ],
    ),
    (
        "capnp_arena",
        "pointer_builder.rt",
        &[
            ("fn get_list(self, size: ElementSize)", CHECK_SIZE, NOT_COMPOSITE),
            ("fn init_list(self, size: ElementSize, count: u32)", CHECK_SIZE, NOT_COMPOSITE),
            ("fn get_list_or_default(self, size: ElementSize", CHECK_SIZE, NOT_COMPOSITE),
        ],
    ),
    (
        "capnp_arena",
        "struct_builder.rt",
        &[
            (
                "fn set_data_field<T: PrimitiveElement>(&mut self, offset: u32",
                "crate::checks::number(self.place, offset, T::count_bytes());",
                PANICS,
            ),
            (
                "fn set_data_field_mask<T: PrimitiveElement>(&mut self, offset: u32",
                "crate::checks::number(self.place, offset, T::count_bytes());",
                PANICS,
            ),
            (
                "fn set_bool_field(&mut self, offset: u32",
                "crate::checks::bit(self.place, offset);",
                PANICS,
            ),
            (
                "fn set_bool_field_mask(&mut self, offset: u32",
                "crate::checks::bit(self.place, offset);",
                PANICS,
            ),
            ("fn pointer_field(&self, index: u16)", CHECK_POINTER, PANICS),
            ("fn get_pointer_field(self, index: u16)", CHECK_POINTER, PANICS),
            ("fn pointer_field_mut(&mut self, index: u16)", CHECK_POINTER, PANICS),
        ],
    ),
    (
        "capnp_base",
        "any_pointer.rt",
        &[(
            "fn get_from_pointer(reader: &PointerReader<'a>, _default: Option<PointerReader<'a>>",
            CHECK_DEFAULT,
            "",
        )],
    ),
    (
        "capnp_base",
        "traits.rt",
        &[("fn get_from_pointer(reader: &PointerReader<'a>, default:", "", PANICS)],
    ),
    (
        "capnp_base",
        "traits/iterators.rt",
        &[
            ("fn from_number(index: u32) -> Self", "", PANICS),
            ("fn from_number(index: u32) -> u16", "crate::checks::short(index);", ""),
            ("fn index_move(&self, index: I) -> T", "", PANICS),
            ("fn new(list: T, size: I) -> Self", "", ITEM),
        ],
    ),
    (
        "capnp_builders",
        "any_pointer.rt",
        &[(
            "fn get_from_pointer(builder: PointerBuilder<'a>, _default: Option<PointerReader<'a>>",
            CHECK_DEFAULT,
            "",
        )],
    ),
    (
        "capnp_builders",
        "data.rt",
        &[
            ("fn new(builder: PointerBuilder<'a>) -> Builder<'a>", "", DATA),
            (
                "fn set(&mut self, index: usize, byte: u8)",
                "crate::checks::byte(index, self.len());",
                PANICS,
            ),
        ],
    ),
    (
        "capnp_builders",
        "text.rt",
        &[
            ("fn new(builder: PointerBuilder<'a>) -> Builder<'a>", "", TEXT),
            ("fn with_pos(builder: PointerBuilder<'a>, pos: usize)", "", TEXT),
            (
                "fn push_ascii(&mut self, ascii: u8)",
                "crate::checks::ascii(ascii); crate::checks::room(1, self.room());",
                PANICS,
            ),
            (
                "fn push_str(&mut self, string: &str)",
                "crate::checks::room(string.len(), self.room());",
                PANICS,
            ),
        ],
    ),
    (
        "capnp_builders",
        "traits.rt",
        &[("fn get_from_pointer(builder: PointerBuilder<'a>, default:", "", PANICS)],
    ),
    (
        "capnp_call",
        "end.rt",
        &[(
            "fn set_field(arena: &mut Arena, place: Place, field: Field<'_>, value: &Value<'_>)",
            CHECK_REPLY,
            "",
        )],
    ),
    ("capnp_call", "list_end.rt", &[("fn set_element(", CHECK_REPLY_IN, "")]),
    (
        "capnp_compatible",
        "check.rt",
        &[
            ("fn check(", "crate::checks::one_set(older, newer)?;", ONE_SET),
            (
                "fn narrow(&self, reader: dynamic_struct::Reader<'s>)",
                "crate::checks::read_under(reader.get_schema(), self.newer);",
                PANICS,
            ),
            (
                "fn widen(&self, reader: dynamic_struct::Reader<'s>)",
                "crate::checks::read_under(reader.get_schema(), self.older);",
                PANICS,
            ),
        ],
    ),
    (
        "capnp_device",
        "memory.rt",
        &[
            (
                "fn new(bytes: &'a [u8], chunk: usize",
                "crate::checks::chunk(chunk);",
                PANICS,
            ),
            ("fn new(alloc: Global, chunk: usize", "crate::checks::chunk(chunk);", PANICS),
        ],
    ),
    (
        "capnp_differences",
        "walk.rt",
        &[
            ("fn explain(", "crate::checks::one_set(older, newer)?;", ONE_SET),
            (
                "fn explain_all(",
                "for pair in asked { crate::checks::brands(schemas, pair.older, pair.newer)?; }",
                "This crate checks the numbers: one past the set's last struct is refused with `NoSuchElement`.",
            ),
        ],
    ),
    (
        "capnp_diffs",
        "diff.rt",
        &[(
            "fn find_changes<'a>(",
            "crate::checks::same_schema(old.get_schema(), new.get_schema())?;",
            "Structs of two schemas, or of two sets, are refused with `TypeMismatch`.",
        )],
    ),
    (
        "capnp_dynamic",
        "dynamic_list/build.rt",
        &[
            (
                "fn set(&mut self, index: u32, value: dynamic_value::Reader<'_>)",
                "crate::checks::element(index, self.arena.get_length(self.at))?; crate::checks::value_in(self.schemas, &value)?;",
                "This crate checks both: an index past the end is refused with `NoSuchElement`, and a struct, list or enum \
                 of another set with `TypeMismatch`.",
            ),
            ("fn init(self, index: u32, size: u32)", CHECK_ELEMENT, PAST_END),
        ],
    ),
    (
        "capnp_dynamic",
        "dynamic_struct/build.rt",
        &[
            (
                "fn new(builder: StructBuilder<'a>, schema: StructSchema<'a>)",
                "crate::checks::sections(builder.place, schema);",
                PANICS,
            ),
            ("fn has(&self, field: Field<'a>)", CHECK_FIELD, FIELD),
            (
                "fn set(&mut self, field: Field<'a>, value: dynamic_value::Reader<'_>)",
                "crate::checks::field(field, self.schema)?; crate::checks::value(field, &value)?;",
                "This crate checks the field and the value: a field of another struct or of another set is refused with \
                 `FieldNotFound`, and a struct, list or enum of another set with `TypeMismatch`. An untyped field takes \
                 it.",
            ),
            (
                "fn set_named(&mut self, field_name: &str, value: dynamic_value::Reader<'_>)",
                "",
                VALUE,
            ),
            ("fn clear(&mut self, field: Field<'a>)", CHECK_FIELD, FIELD),
            (
                "fn downcast<T: OwnedStruct<'a>>(self)",
                "crate::checks::downcast(T::introspect(), self.schema);",
                PANICS,
            ),
        ],
    ),
    (
        "capnp_dynamic",
        "dynamic_value/build.rt",
        &[
            ("fn downcast_builder(value: Builder<'a>)", "", PANICS),
            ("fn downcast<T: DowncastBuilder<'a>>(self)", "", PANICS),
            ("fn downcast_struct<T: OwnedStruct<'a>>(self)", "", PANICS),
        ],
    ),
    (
        "capnp_dynamic",
        "hand.rt",
        &[("fn get(self, field: Field<'a>)", CHECK_FIELD, FIELD)],
    ),
    (
        "capnp_dynamic",
        "hand_element.rt",
        &[("fn get(self, index: u32)", CHECK_ELEMENT, PAST_END)],
    ),
    (
        "capnp_dynamic",
        "start.rt",
        &[
            ("fn init(self, field: Field<'a>)", CHECK_FIELD, FIELD),
            ("fn initn(self, field: Field<'a>, size: u32)", CHECK_FIELD, FIELD),
        ],
    ),
    (
        "capnp_dynamic_readers",
        "dynamic_struct.rt",
        &[
            ("fn get(self, field: Field<'a>)", CHECK_FIELD, FIELD),
            (
                "fn is_active(&self, field: Field<'a>)",
                "if crate::checks::field(field, self.schema).is_err() { return false; }",
                INACTIVE,
            ),
            ("fn has(&self, field: Field<'a>)", CHECK_FIELD, FIELD),
            (
                "fn downcast<T: OwnedStruct<'a>>(self)",
                "crate::checks::downcast(T::introspect(), self.schema);",
                PANICS,
            ),
        ],
    ),
    (
        "capnp_dynamic_readers",
        "dynamic_value.rt",
        &[
            ("fn downcast_reader(value: Reader<'a>)", "", PANICS),
            ("fn downcast<T: DowncastReader<'a>>(self)", "", PANICS),
            ("fn downcast_struct<T: OwnedStruct<'a>>(self)", "", PANICS),
        ],
    ),
    (
        "capnp_edit_calls",
        "message.rt",
        &[(
            "fn run_acts(alloc: Global, message: &mut Builder, schema: StructSchema<'_>",
            "crate::checks::root(message, schema)?;",
            "This crate checks the root: any other is refused with `TypeMismatch`.",
        )],
    ),
    (
        "capnp_edits",
        "added.rt",
        &[("fn list_one(", "crate::checks::value_in(schemas, &value)?;", ELEMENT)],
    ),
    (
        "capnp_packed",
        "pack.rt",
        &[(
            "fn pack(alloc: Global, bytes: &[u8])",
            "crate::checks::whole_words(bytes)?;",
            "This crate checks the bytes: others are refused with `Truncated`.",
        )],
    ),
    (
        "capnp_schema",
        "schema/annotations.rt",
        &[("fn get(self, index: u32) -> Annotation<'s>", CHECK_INDEX, PANICS)],
    ),
    (
        "capnp_schema",
        "schema/enums.rt",
        &[
            (
                "fn new(schemas: &'s SchemaSet, raw: RawEnumSchema)",
                "crate::checks::raw_enum(schemas, raw);",
                PANICS,
            ),
            (
                "fn get(self, ordinal: u16) -> Enumerant<'s>",
                "crate::checks::index(ordinal, self.len());",
                PANICS,
            ),
        ],
    ),
    (
        "capnp_schema",
        "schema/field_list.rt",
        &[("fn get(self, index: u16) -> Field<'s>", "", PANICS)],
    ),
    (
        "capnp_schema",
        "schema/field_subset.rt",
        &[("fn get(self, index: u16) -> Field<'s>", CHECK_INDEX, PANICS)],
    ),
    (
        "capnp_schema",
        "schema/group_walk.rt",
        &[
            ("fn advance(self)", "crate::checks::stands(self.index < self.schema.schemas.field_count(self.schema.number));", PANICS),
            (
                "fn enter(self, group: StructSchema<'s>)",
                "crate::checks::group(self.schema, self.index, group);",
                PANICS,
            ),
        ],
    ),
    (
        "capnp_schema",
        "schema/structs.rt",
        &[(
            "fn new(schemas: &'s SchemaSet, raw: RawBrandedStructSchema)",
            "crate::checks::raw_struct(schemas, raw);",
            PANICS,
        )],
    ),
    (
        "capnp_sets",
        "sets.rt",
        &[
            (
                "fn read_set(alloc: Global, reader: dynamic_struct::Reader<'_>",
                "crate::checks::meta_record(alloc, reader.get_schema())?;",
                META,
            ),
            ("fn read_schema_set(alloc: Global, reader: dynamic_struct::Reader<'_>)", "", META),
        ],
    ),
    (
        "capnp_slots",
        "setter.rt",
        &[
            ("fn set_pointer_builder(builder: PointerBuilder<'_>, input: Self", "", PANICS),
            (
                "fn set_pointer_builder(builder: PointerBuilder<'_>, input: text::Reader<'a>, _canonicalize",
                CHECK_PLAIN,
                "",
            ),
            (
                "fn set_pointer_builder(builder: PointerBuilder<'_>, input: &'a str, _canonicalize",
                CHECK_PLAIN,
                "",
            ),
            (
                "fn set_pointer_builder(builder: PointerBuilder<'_>, input: &'a [u8], _canonicalize",
                CHECK_PLAIN,
                "",
            ),
        ],
    ),
    (
        "capnp_slots",
        "source.rt",
        &[
            (
                "fn set_pointer_builder(builder: PointerBuilder<'_>, input: any_pointer::Reader<'a>, _canonicalize",
                CHECK_PLAIN,
                "",
            ),
            (
                "fn set_pointer_builder(builder: PointerBuilder<'_>, input: dynamic_struct::Reader<'a>, _canonicalize",
                CHECK_PLAIN,
                "",
            ),
            (
                "fn set_pointer_builder(builder: PointerBuilder<'_>, input: dynamic_list::Reader<'a>, _canonicalize",
                CHECK_PLAIN,
                "",
            ),
        ],
    ),
    (
        "capnp_wire",
        "primitive.rt",
        &[
            ("fn read_inside(bytes: &[u8], index: usize) -> Self", "", BYTES_NEAR),
            ("fn write(bytes: &mut [u8], offset: u32, value: Self)", "", BYTES),
            ("fn write_masked(bytes: &mut [u8], offset: u32, value: Self", "", BYTES),
        ],
    ),
];

/// Files where `unreachable!()` stands for a case that a condition excludes, each with the call that says so.
pub const CASES: [(&str, &str, &str); 7] = [
    ("capnp_builders", "data.rt", "crate::checks::no_data()"),
    ("capnp_builders", "text.rt", "crate::checks::no_text()"),
    ("capnp_dynamic", "dynamic_value/build.rt", "crate::checks::other_kind()"),
    (
        "capnp_dynamic",
        "dynamic_value/built_conversions.rt",
        "crate::checks::other_kind()",
    ),
    (
        "capnp_dynamic_readers",
        "dynamic_value.rt",
        "crate::checks::other_kind()",
    ),
    (
        "capnp_dynamic_readers",
        "dynamic_value/conversions.rt",
        "crate::checks::other_kind()",
    ),
    (
        "capnp_schema",
        "schema/fields.rt",
        "crate::checks::past_end(index, schema.schemas.field_count(schema.number))",
    ),
];

/// The files of a library that the tables name.
pub fn files_of(library: &str) -> impl Iterator<Item = &'static str> + '_ {
    let checked = CHECKS.iter().map(|(of, file, _)| (*of, *file));
    let excluded = CASES.iter().map(|(of, file, _)| (*of, *file));
    checked
        .chain(excluded)
        .filter(move |(of, _)| *of == library)
        .map(|(_, file)| file)
}

/// Puts the checks of a file into it. Each has to find one call.
pub fn add_checks(words: &Words<'_>, place: &Place<'_>, edits: &mut Edits) {
    let checks = CHECKS.iter().filter(|(library, file, _)| place.is_at(library, file));
    for check in checks.flat_map(|(_, _, checks)| *checks) {
        let functions = (0..words.list.len()).filter(|at| words.at(*at) == "fn" && words.is(*at, Kind::Name));
        let found: Vec<usize> = functions.filter(|at| begins(words, *at, check.0)).collect();
        match found[..] {
            [function] => add_check(words, edits, function, check),
            _ => edits
                .missing
                .push(format!("{} calls that begin with {}", found.len(), check.0)),
        }
    }
}

/// Whether the words from one on are these, whatever stands between them.
fn begins(words: &Words<'_>, from: usize, head: &str) -> bool {
    let mut left = head;
    let mut at = from;
    while !left.is_empty() {
        let Some(behind) = left.strip_prefix(words.at(at)).filter(|_| at < words.list.len()) else {
            return false;
        };
        left = behind.trim_start();
        at = words.after(at);
    }
    true
}

/// Puts a check into a function, and what it does into the function's documentation.
fn add_check(words: &Words<'_>, edits: &mut Edits, function: usize, (_, line, told): &Check) {
    if !told.is_empty() {
        let visibility = words.before(function).filter(|before| words.at(*before) == "pub");
        // so the panic names the caller's line
        let caller = if *told == PANICS && !line.is_empty() {
            "#[track_caller] "
        } else {
            ""
        };
        let lines = format!("#[doc = \"\"] #[doc = {told:?}] {caller}");
        edits.insert_before(words, Rule::CheckDoc, visibility.unwrap_or(function), lines);
    }
    if line.is_empty() {
        return;
    }
    let open = (function..words.list.len()).find(|at| words.at(*at) == "(");
    let behind = open.and_then(|open| words.closing(open)).unwrap_or(function);
    match (behind..words.list.len()).find(|at| matches!(words.at(*at), "{" | ";")) {
        Some(body) if words.at(body) == "{" => edits.insert_after(words, Rule::Check, body, format!(" {line}")),
        _ => edits.refuse(words, function, "a check of a call without a body".to_string()),
    }
}

/// Says what is not so where a condition excludes a case.
pub fn tell_cases(words: &Words<'_>, place: &Place<'_>, edits: &mut Edits) {
    for (_, _, call) in CASES.iter().filter(|(library, file, _)| place.is_at(library, file)) {
        let case = ["unreachable", "!", "(", ")"];
        for index in (0..words.list.len()).filter(|at| words.reads(*at, &case)) {
            let last = (1..case.len()).fold(index, |at, _| words.after(at));
            edits.replace(words, Rule::ExcludedCase, index, last, call);
        }
    }
}
