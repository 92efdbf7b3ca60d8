//! The reflection layer of Cap'n Proto: messages under schemas that are known only at run time.
//!
//! The code is that of the proved crates of this repository, translated by the build script: contracts go, the rest
//! stays as it is. Names are those of the crate `capnp` where it has them.
//!
//! ```
//! use riftcalico::{message, printer, schema::SchemaSet};
//!
//! # fn main() -> riftcalico::Result<()> {
//! # let request = include_bytes!("../../examples/addressbook.request");
//! # let bytes = include_bytes!("../../examples/addressbook.bin");
//! // `capnp compile -o- addressbook.capnp` makes the request
//! let schemas = SchemaSet::from_request(request)?;
//! let book = message::read_root(bytes, schemas.get_struct_named("AddressBook")?)?;
//! assert!(printer::to_string(book.into(), false)?.starts_with("(people = [(id = 123, name = \"Alice\""));
//! # Ok(())
//! # }
//! ```
//!
//! # What is proved, and what is not
//!
//! Each function of the source is proved to meet its contract (`docs/PROMISES.md` of the repository). This crate has the
//! same lines, compiled by rustc in place of the prover's own compiler. So you also trust rustc, the translator, and what
//! stands for the prover's standard library (`rust/README.md`).
//!
//! # Conditions
//!
//! A section `# Conditions` lists what a call requires of its arguments. The prover holds callers in Rattle to it. Callers
//! in Rust are checked by the call itself, before it changes anything:
//!
//! |you pass|the call|
//! |---|---|
//! |a field of another struct, or of another set|returns `FieldNotFound`; `is_active` returns false|
//! |a struct, list or enum of another set|returns `TypeMismatch`, except for an untyped field, which takes it|
//! |schemas or structs of two sets, to be compared|returns `TypeMismatch`|
//! |an index past the end of a list that is built|returns `NoSuchElement`|
//! |an index past the end of a list that is read|returns zero, false, null or an empty value|
//! |an index past the end of a list of fields, enumerants or annotations|panics|
//! |a type that the value is not of, to `downcast`|panics|
//! |a number, bit or pointer outside a struct or list without a schema, or more bytes than a text has room for|panics|
//!
//! A panic's message says what is wrong, as "the index 5 is not below the length 3". The page of a call says which of
//! these it does. What a condition says of the place where a handle stands holds for each handle that the crate hands out:
//! the fields of handles are private. Two loads of one schema are two sets, and a set is known by its address.
//!
//! The names in brackets, as `BelongsTo`, are definitions of the proof: `docs/DEFINITIONS.md` and the folders `specs/` have
//! them. There is no `unsafe` in the crate.
//!
//! # Walks
//!
//! A null struct reads as its default. If a struct has a field of its own type, that field is a struct with such a null
//! again, without end: a walk over all fields asks `has` before `get`, as the printer does. Pointers of a message may share
//! a target, so a walk can be far longer than the message: [`printer::print_within`] takes a limit.
//!
//! # Memory and stack
//!
//! Running out of memory is an error, not an abort: every call that may allocate returns a `Result`, and most take the
//! allocator, [`memory::Global`].
//!
//! Calls use a bounded stack, whatever they are given. A message that was received is read 64 levels down, one that is
//! built 129. If a built message is deeper, calls that measure, write or compact it return `OutOfMemory`, and copies
//! `TooDeep`. Groups inside one another, the steps of a path and the lists around a type take no more stack the more there
//! are: tests go through 65,535 groups and paths of 1,000,000 steps in a thread with a stack of 512 KiB.
//!
//! # Overflow
//!
//! Sums are proved not to overflow. To have them checked at run time too, set `overflow-checks = true` in your own profile;
//! `rust/README.md` says what it costs.
#![forbid(unsafe_code)]
#![warn(missing_docs)]

#[cfg(not(target_pointer_width = "64"))]
compile_error!("the source is proved for a `usize` of 64 bits");

#[allow(dead_code, reason = "tests take more of it")]
#[path = "../std/mod.rs"]
mod rattle_std;

mod checks;
mod conversions;
mod one_call;

include!(concat!(env!("OUT_DIR"), "/libraries.rs"));

pub use capnp_device::error::{Error, ErrorKind, Result, SchemaTable};
pub use capnp_wire::size::MessageSize;

/// Any pointers, whose type no schema says.
pub mod any_pointer {
    pub use crate::capnp_builders::any_pointer::{Builder, Owned, Reader};
}

/// Compatible successors of a schema, reads of one under the other, and why a schema is none.
pub mod compatible {
    pub use crate::capnp_compatible::Compatible;
    pub use crate::capnp_differences::{
        enumerant_name, explain, explain_all, Cause, Change, Difference, EnumPair, Explanation, Note, Pair,
    };
    pub use crate::capnp_joined_sets::{join, join_owned};
    pub use crate::capnp_versions::{
        compare, compare_all, compare_all_owned, get_named_report, get_report, Comparison, FullComparison,
    };
}

/// Data: bytes as they stand.
pub mod data {
    pub use crate::capnp_builders::data::{Builder, Owned, Reader};
}

/// Where bytes come from, and where they go.
pub mod device {
    pub use crate::capnp_device::device::{DeviceFault, ReadSource, Sink, Source, WriteSink};
    pub use crate::capnp_device::memory::{MemorySink, MemorySource};
    pub use crate::capnp_device::transfer::{read_all, write_all};
}

/// Lists whose type is known at run time.
pub mod dynamic_list {
    pub use crate::capnp_dynamic::dynamic_list::{Builder, Reader};
}

/// Structs whose schema is known at run time.
pub mod dynamic_struct {
    pub use crate::capnp_dynamic::dynamic_struct::{Builder, Reader};
}

/// Values whose type is known at run time.
pub mod dynamic_value {
    pub use crate::capnp_dynamic::dynamic_value::{
        AnnotationValue, Builder, DowncastBuilder, DowncastReader, Enum, Kept, Reader,
    };
}

/// The changes from one struct to another of its schema, and the calls that make them.
pub mod diffs {
    pub use crate::capnp_diffs::change::{as_calls, Change};
    pub use crate::capnp_diffs::diff::find_changes;
    pub use crate::one_call::diff_bytes;
}

/// Lists that are edited, and copies along paths: where they stand in a message, in runs with calls; lists also in messages
/// of their own, which a set takes.
pub mod edits {
    pub use crate::capnp_edit_calls::acts::Act;
    pub use crate::capnp_edit_calls::appends::{append_all, list_all};
    pub use crate::capnp_edit_calls::change::{make_list, Change};
    pub use crate::capnp_edit_calls::copy::PathCopy;
    pub use crate::capnp_edit_calls::edit::ListEdit;
    pub use crate::capnp_edit_calls::message::{run_acts, run_acts_copied, run_acts_new};
    pub use crate::capnp_edits::added::{list_one, new_elements};
    pub use crate::capnp_edits::edit::{change_list, Edit};
    pub use crate::capnp_splices::read::read_list;
    pub use crate::one_call::{copy_part, edit_by_words, edit_bytes, edit_list, Unreadable};
}

/// Types as values.
pub mod introspect {
    pub use crate::capnp_base::introspect::{Introspect, RawBrandedStructSchema, RawEnumSchema, Type, TypeVariant};
}

/// Values and messages as JSON, and messages of JSON texts. None of these calls looks whether names of the set meet in JSON:
/// `check_names` does, once for a set.
pub mod json {
    pub use crate::capnp_from_json::error::{Error as ReadError, Refusal as ReadRefusal, RefusalKind};
    pub use crate::capnp_json::error::JsonError;
    pub use crate::capnp_json::forms::{form_of, plain, Form};
    pub use crate::capnp_json::json::{to_json, to_json_as};
    pub use crate::capnp_json::message::message_to_json;
    pub use crate::capnp_json_messages::message::read_message as from_json;
    pub use crate::capnp_json_messages::value::read_value_within;
    pub use crate::capnp_json_names::names::{check_names, NamesMeet};
}

/// The allocator, and vectors and strings whose growth can be refused.
pub mod memory {
    pub use crate::rattle_std::alloc::{AllocError, Global};
    pub use crate::rattle_std::string::String;
    pub use crate::rattle_std::vec::Vec;
}

/// Messages as they are received, and as they are built.
pub mod message {
    pub use crate::capnp_arena::arena::Arena as Builder;
    pub use crate::capnp_arena::list_builder::ListBuilder;
    pub use crate::capnp_arena::pointer_builder::PointerBuilder;
    pub use crate::capnp_arena::struct_builder::StructBuilder;
    pub use crate::capnp_wire::message::Reader;
    pub use crate::capnp_wire::size::{ElementSize, StructSize};
    pub use crate::capnp_wire::{ListReader, NumberIter, Numbers, PointerReader, PrimitiveElement, StructReader};
    pub use crate::one_call::read_root;
}

/// Calls along paths on messages, as words say them; what stands at a path.
pub mod patch {
    pub use crate::capnp_call::calls::{any_refused, is_refused};
    pub use crate::capnp_patch::engine::run_bytes;
    pub use crate::capnp_patch::get::{get_line, get_line_within};
    pub use crate::capnp_patch::lines::get_lines;
    pub use crate::capnp_patch::reach::read_path;
    pub use crate::capnp_words::call::{parse_call, CallWord, WordOp};
    pub use crate::capnp_words::marked::parse_marked_value;
    pub use crate::capnp_words::path::{parse_path, Path, PathStep};
    pub use crate::capnp_words::target::target_type;
    pub use crate::capnp_words::value::{parse_value, PlainValue};
    pub use crate::one_call::{get_path, patch_bytes};
}

/// Values as text.
pub mod printer {
    pub use crate::capnp_dynamic::printer::{print, print_within};
    pub use crate::capnp_float_texts::printer::print_floats_within;
    pub use crate::one_call::to_string;
}

/// What stands at paths of messages: the values, their JSON, texts and lengths.
pub mod query {
    pub use crate::capnp_queries::floats::{get_form_at, has_floats_at, has_floats_behind};
    pub use crate::capnp_queries::json::{get_json, NoJson};
    pub use crate::capnp_queries::length::{get_length, NoLength};
    pub use crate::capnp_queries::patterns::{list_paths, Listed, NotListed, RefusedPath};
    pub use crate::capnp_queries::reach::reach_path;
    pub use crate::capnp_queries::shown::get_shown;
}

/// Sets from the requests of the public compiler.
pub mod request {
    pub use crate::capnp_request::request_set::new_set;
    pub use crate::capnp_request::{read_request, Converted, Note, StandIn};
}

/// Lists of calls along paths, and runs on whole messages.
pub mod run {
    pub use crate::capnp_call::calls::{any_refused, is_refused, Call, Op, Plain, Reply, Step};
    pub use crate::capnp_call::message::{run_copied, run_new, whole_copied, whole_new, Run, MOST_WORDS};
    pub use crate::capnp_run::run::run;
}

/// Schemas, and checked sets of them.
pub mod schema {
    pub use crate::capnp_schema::record;
    pub use crate::capnp_schema::schema::{
        Annotation, AnnotationList, EnumSchema, Enumerant, EnumerantList, Field, FieldList, FieldSubset, GroupWalk,
        StructSchema,
    };
    pub use crate::capnp_schema::set::{SchemaSet, SetLists};
    pub use crate::capnp_schema::{builtin, meta, plan, value};
}

/// Messages that follow one another in a stream.
pub mod serialize {
    pub use crate::capnp_streams::receive::{try_read_message, MOST_BYTES};
}

/// Packed messages.
pub mod serialize_packed {
    pub use crate::capnp_packed::pack::pack;
    pub use crate::capnp_packed::received::read_message;
    pub use crate::capnp_packed::source::UnpackSource;
    pub use crate::capnp_packed::unpack::unpack;
}

/// Sets of schemas as messages.
pub mod sets {
    pub use crate::capnp_set_writer::set_writer::write_set;
    pub use crate::capnp_sets::message::read_message;
    pub use crate::capnp_sets::sets::{read_schema_set, read_set};
}

/// Texts, which need not be UTF-8.
pub mod text {
    pub use crate::capnp_builders::text::{Builder, Owned, Reader};
}

/// Values as they are printed, read back.
pub mod value_texts {
    pub use crate::capnp_value_texts::calls::{field_calls, root_calls};
    pub use crate::capnp_value_texts::error::{Error, Refusal, RefusalKind};
    pub use crate::capnp_value_texts::made::{as_calls, Goal, Made};
    pub use crate::capnp_value_texts::parts::Name;
    pub use crate::capnp_value_texts::shown::{read_shown, Shown};
    pub use crate::capnp_value_texts::target::{field_target, Target};
    pub use crate::capnp_value_texts::value::{read_element, read_field, read_root};
}

/// What handles have in common.
pub mod traits {
    pub use crate::capnp_base::traits::{
        FromPointerReader, HasStructSize, HasTypeId, Index, IndexIter, IndexMove, IntoInternalListReader,
        IntoInternalStructReader, ListIter, ShortListIter,
    };
    pub use crate::capnp_builders::traits::{FromPointerBuilder, Owned, OwnedStruct, SetterInput};
}

/// What callers can't write: the fields of a handle. This is built:
///
/// ```
/// # use riftcalico::{dynamic_struct, memory::Global, message, schema::SchemaSet};
/// # fn main() -> riftcalico::Result<()> {
/// # let schemas = SchemaSet::from_request(include_bytes!("../../examples/addressbook.request"))?;
/// let mut message = message::Builder::new(Global)?;
/// let mut person = dynamic_struct::Builder::open(message.root(), schemas.get_struct_named("Person")?)?;
/// person.set_named("id", 7u32.into())?;
/// # Ok(())
/// # }
/// ```
///
/// and this is not:
///
/// ```compile_fail,E0616
/// # use riftcalico::{dynamic_struct, memory::Global, message, schema::SchemaSet};
/// # fn main() -> riftcalico::Result<()> {
/// # let schemas = SchemaSet::from_request(include_bytes!("../../examples/addressbook.request"))?;
/// let mut message = message::Builder::new(Global)?;
/// let mut person = dynamic_struct::Builder::open(message.root(), schemas.get_struct_named("Person")?)?;
/// person.place.start = 3;
/// person.set_named("id", 7u32.into())?;
/// # Ok(())
/// # }
/// ```
#[cfg(doctest)]
mod handles {}

/// The programs, from the words that they are started with to their exit status.
#[doc(hidden)]
pub mod programs {
    use crate::rattle_std::rt::HostRuntime;
    use std::process::ExitCode;

    /// The program `capnp_show`.
    pub fn capnp_show() -> ExitCode {
        crate::capnp_show::main(HostRuntime)
    }

    /// The program `capnp_set`.
    pub fn capnp_set() -> ExitCode {
        crate::capnp_set::main(HostRuntime)
    }

    /// The program `riftcalico`.
    pub fn riftcalico() -> ExitCode {
        crate::riftcalico::main(HostRuntime)
    }
}
