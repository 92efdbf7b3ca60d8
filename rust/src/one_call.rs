//! What takes several calls of the layer, in one call.

use crate::capnp_call::calls::{Call, Reply, Step};
use crate::capnp_call::message::{run_copied, MOST_WORDS};
use crate::capnp_device::error::{Error, ErrorKind, Result};
use crate::capnp_diffs::change::Change;
use crate::capnp_diffs::diff::find_changes;
use crate::capnp_dynamic::{dynamic_struct, dynamic_value, printer};
use crate::capnp_edit_calls::acts::Act;
use crate::capnp_edit_calls::copy;
use crate::capnp_edit_calls::edit::{self, ListEdit};
use crate::capnp_edit_calls::message::run_acts_copied;
use crate::capnp_patch::reach::read_path;
use crate::capnp_schema::schema::{Field, StructSchema};
use crate::capnp_schema::set::SchemaSet;
use crate::capnp_wire::message::Reader;
use crate::capnp_words::call::{CallWord, WordOp};
use crate::capnp_words::path::{parse_path, Path, PathStep};
use crate::checks;
use crate::rattle_std::alloc::{AllocError, Global};
use crate::rattle_std::string::String;
use crate::rattle_std::vec::Vec as HeldVec;
pub use crate::riftcalico_core::calls::Unreadable;
use crate::riftcalico_core::calls::{make_acts, make_values, read_all_calls, read_calls};

impl SchemaSet {
    /// The set that a request of the public compiler stands for: what `capnp compile -o-` writes. Float types stand as
    /// the integers of their bits, interfaces as untyped pointers; [`crate::request::read_request`] also tells where.
    ///
    /// Refused as [`crate::request::read_request`] and [`SchemaSet::new`], and as the request's message is.
    pub fn from_request(bytes: &[u8]) -> Result<SchemaSet> {
        let root = Reader::new(Global, bytes)?.get_root().get_struct()?;
        let made = crate::capnp_request::read_request(Global, root, false)?;
        SchemaSet::new(Global, made.nodes, made.brands, made.enums)
    }

    /// The set that a message holds: what the program `capnp_set` and [`SchemaSet::to_message`] write.
    ///
    /// Refused as [`crate::sets::read_message`].
    pub fn from_message(bytes: &[u8]) -> Result<SchemaSet> {
        crate::capnp_sets::message::read_message(Global, bytes)
    }

    /// The set as a message.
    ///
    /// Refused as [`crate::sets::write_set`].
    pub fn to_message(&self) -> Result<Vec<u8>> {
        Ok(crate::capnp_set_writer::set_writer::write_set(Global, self)?.into())
    }

    /// The struct of a display name, as `AddressBook` or `Person.PhoneNumber`: of several the first that is no group.
    ///
    /// Refused with `NameNotFound` where no struct has the name.
    pub fn get_struct_named(&self, name: &str) -> Result<StructSchema<'_>> {
        self.find_struct(name).ok_or(Error::from(ErrorKind::NameNotFound))
    }
}

impl<'a> dynamic_struct::Builder<'a> {
    /// Sets a field of the struct's schema to the value that a text stands for under its type, as `riftcalico patch` reads
    /// it: a struct, group or list as it is printed or as JSON, a text in quotes or as it stands.
    ///
    /// The inner error is the place of the first byte that can't stand there. Returns an error, too, as
    /// [`dynamic_struct::Builder::set`] does: `FieldNotFound` for a field of another struct or of another set. Nothing is
    /// set where no value was read.
    pub fn set_from_text(&mut self, field: Field<'a>, text: &str) -> Result<std::result::Result<(), usize>> {
        checks::field(field, self.schema)?;
        let mut steps = HeldVec::new(Global);
        steps.push(PathStep::Field(field.get_index()))?;
        let mut bytes = HeldVec::new(Global);
        bytes.extend_from_slice(text.as_bytes())?;
        let set = [CallWord {
            path: Path { steps },
            op: WordOp::Set(bytes, 0),
        }];
        let read = match read_all_calls(Global, field.get_containing_struct(), &set)? {
            Ok(read) => read,
            Err(at) => return Ok(Err(at.place as usize)),
        };
        let values = make_values(Global, &read)?;
        self.set(field, values[0]).map(Ok)
    }
}

/// The root of the first message in these bytes, as a struct of a schema. The bytes are not copied.
///
/// Refused as [`crate::message::Reader::new`], and as the root's `get_struct`.
pub fn read_root<'a>(bytes: &'a [u8], schema: StructSchema<'a>) -> Result<dynamic_struct::Reader<'a>> {
    let root = Reader::new(Global, bytes)?.get_root().get_struct()?;
    Ok(dynamic_struct::Reader::new(root, schema))
}

/// The text of a value, on one line, or indented on several.
///
/// Refused as [`crate::printer::print`].
pub fn to_string(value: dynamic_value::Reader<'_>, indented: bool) -> Result<std::string::String> {
    let mut out = String::new(Global);
    printer::print(value, &mut out, indented)?;
    Ok(out.into())
}

/// What calls leave of the root of the first message in these bytes: a reply for each call, and the bytes of the message
/// that is left. The root is copied whole, also what the schema does not know. A call that is refused has its reply,
/// changes nothing but what [`crate::run::run_copied`] says, and the calls after it are made.
///
/// Refused as [`crate::message::Reader::new`], [`crate::run::run_copied`] and the write of the message.
pub fn patch_bytes(bytes: &[u8], schema: StructSchema<'_>, calls: &[Call<'_>]) -> Result<(Vec<Reply>, Vec<u8>)> {
    let source = Reader::new(Global, bytes)?.get_root();
    let left = run_copied(Global, MOST_WORDS, source, schema, calls)?;
    Ok((left.replies.into(), left.message.write_message()?.into()))
}

/// What calls, edits of lists and copies along paths leave of the root of the first message in these bytes, as
/// [`patch_bytes`]: a reply for each, and the bytes of the message that is left.
///
/// Refused as [`crate::message::Reader::new`], [`crate::edits::run_acts_copied`] and the write of the message.
pub fn edit_bytes(bytes: &[u8], schema: StructSchema<'_>, acts: &[Act<'_>]) -> Result<(Vec<Reply>, Vec<u8>)> {
    let source = Reader::new(Global, bytes)?.get_root();
    let left = run_acts_copied(Global, MOST_WORDS, source, schema, acts)?;
    Ok((left.replies.into(), left.message.write_message()?.into()))
}

/// Edits the list that a path of a struct names: a list of its elements after the edit is made in a message of its own, and
/// then put in the place of what stands there. A list that is not there is its default, or has no elements.
///
/// The reply is a refusal where the list can't be read; `TypeMismatch` where no list stands at the end of the path, or a
/// value of the edit is of another type or set; as [`crate::edits::make_list`]; and as a set of the list. Before the list is
/// made nothing has changed.
pub fn edit_list(alloc: Global, root: dynamic_struct::Builder<'_>, list_edit: &ListEdit<'_>) -> Reply {
    let dynamic_struct::Builder { arena, place, schema } = root;
    edit::edit_list(alloc, arena, place, schema, list_edit)
}

/// Sets what a path of a struct names to a copy of what stands at the end of another one, which stays as it is. The copy is
/// made first, so either path may lead through the other.
///
/// The reply is a refusal where nothing can be read there, where a pointer in it can't be followed, and as a set of the copy.
/// Before the copy is made nothing has changed.
pub fn copy_part(alloc: Global, root: dynamic_struct::Builder<'_>, path: &[Step<'_>], from: &[Step<'_>]) -> Reply {
    let dynamic_struct::Builder { arena, place, schema } = root;
    copy::copy_part(alloc, arena, place, schema, path, from)
}

/// What calls, edits and copies that words say leave of the root of the first message in these bytes: the words of
/// `riftcalico patch`, as `set people.0.name Bob` or `append people (name = "Carol")`. As [`edit_bytes`] otherwise.
///
/// The inner refusal is the first word that can't be read, and the place in it; nothing is done then.
pub fn edit_by_words(
    bytes: &[u8],
    schema: StructSchema<'_>,
    words: &[&str],
) -> Result<std::result::Result<(Vec<Reply>, Vec<u8>), Unreadable>> {
    let words = match read_calls(Global, words)? {
        Ok(words) => words,
        Err(at) => return Ok(Err(at)),
    };
    let read = match read_all_calls(Global, schema, &words)? {
        Ok(read) => read,
        Err(at) => return Ok(Err(at)),
    };
    let values = make_values(Global, &read)?;
    let acts = make_acts(Global, &read, &values)?;
    edit_bytes(bytes, schema, &acts).map(Ok)
}

/// The changes that make the root of the first message in the old bytes into that in the new ones. With the calls of
/// [`crate::diffs::as_calls`], [`patch_bytes`] makes them.
///
/// Refused as [`read_root`] and [`crate::diffs::find_changes`].
pub fn diff_bytes<'a>(old: &'a [u8], new: &'a [u8], schema: StructSchema<'a>) -> Result<Vec<Change<'a>>> {
    Ok(find_changes(Global, read_root(old, schema)?, read_root(new, schema)?)?.into())
}

/// What stands at a path of a value, as `people.1.phones.0.number`; `.` alone is the value itself.
///
/// Refused with `FieldNotFound` where the path can't be read, and else as [`crate::patch::read_path`].
pub fn get_path<'a>(value: dynamic_value::Reader<'a>, path: &str) -> Result<dynamic_value::Reader<'a>> {
    let path = match parse_path(Global, path)? {
        Ok(path) => path,
        Err(_) => return Err(Error::from(ErrorKind::FieldNotFound)),
    };
    let mut steps = Vec::new();
    steps.try_reserve_exact(path.steps.len()).map_err(AllocError::from)?;
    steps.extend(path.steps.iter().map(|step| match step {
        PathStep::Named(name) => Step::Named(name),
        PathStep::Field(number) => Step::Field(*number),
        PathStep::Element(index) => Step::Element(*index),
    }));
    read_path(value, &steps)
}
