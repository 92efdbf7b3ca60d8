//! The messages and sets of the folder `examples`.

use riftcalico::memory::Global;
use riftcalico::request;
use riftcalico::schema::{builtin, SchemaSet};
use std::fs;
use std::path::Path;

/// The sets that messages of the examples have.
#[derive(Clone, Copy, Debug, PartialEq, Eq)]
pub enum Set {
    /// That which the programs know without `--set`.
    BuiltIn,
    Station,
    Flat,
    /// The set of sets.
    Meta,
    AddressBook,
    /// The set of requests.
    Request,
}

pub const SETS: [Set; 6] = [
    Set::BuiltIn,
    Set::Station,
    Set::Flat,
    Set::Meta,
    Set::AddressBook,
    Set::Request,
];

/// Each message with its set and the name of its struct. The last of the built-in set were written under schemas that
/// are no set here, so they are read as another struct.
pub const MESSAGES: [(&str, Set, &str); 33] = [
    ("examples/flat.bin", Set::BuiltIn, "Flat"),
    ("examples/flat_segments.bin", Set::BuiltIn, "Flat"),
    ("examples/two_messages.bin", Set::BuiltIn, "Flat"),
    ("examples/many.bin", Set::BuiltIn, "Many"),
    ("examples/many_defaults.bin", Set::BuiltIn, "Many"),
    ("examples/many_segments.bin", Set::BuiltIn, "Many"),
    ("examples/mixed.bin", Set::BuiltIn, "Mixed"),
    ("examples/mixed_segments.bin", Set::BuiltIn, "Mixed"),
    ("examples/shapes.bin", Set::BuiltIn, "Shapes"),
    ("examples/shapes_tag.bin", Set::BuiltIn, "Shapes"),
    ("examples/shapes_word.bin", Set::BuiltIn, "Shapes"),
    ("examples/loop.bin", Set::BuiltIn, "Loop"),
    ("examples/lists.bin", Set::BuiltIn, "Lists"),
    ("examples/lists_segments.bin", Set::BuiltIn, "Lists"),
    ("examples/lists_empty.bin", Set::BuiltIn, "Lists"),
    ("examples/node.bin", Set::BuiltIn, "Node"),
    ("examples/built.bin", Set::BuiltIn, "Lists"),
    ("examples/copied.bin", Set::BuiltIn, "Loop"),
    ("examples/kinds.bin", Set::BuiltIn, "Lists"),
    ("examples/kinds_segments.bin", Set::BuiltIn, "Shapes"),
    ("examples/kinds_empty.bin", Set::BuiltIn, "Many"),
    ("examples/station.bin", Set::Station, "Station"),
    ("examples/station_before.bin", Set::Station, "Station"),
    ("examples/station_segments.bin", Set::Station, "Station"),
    ("examples/flat.bin", Set::Station, "Reading"),
    ("examples/flat.bin", Set::Flat, "Flat"),
    ("examples/two_messages.bin", Set::Flat, "Flat"),
    ("examples/flat.set", Set::Meta, "SetRecord"),
    ("examples/station_set.bin", Set::Meta, "SetRecord"),
    ("examples/meta.set", Set::Meta, "SetRecord"),
    ("examples/addressbook.bin", Set::AddressBook, "AddressBook"),
    ("examples/addressbook.bin", Set::AddressBook, "Person"),
    ("examples/addressbook.request", Set::Request, "CodeGeneratorRequest"),
];

/// Requests of the public compiler.
pub const REQUESTS: [&str; 2] = ["examples/addressbook.request", "crates/capnp_set/stdin"];

/// What is in a file of the repository.
pub fn read(path: &str) -> Vec<u8> {
    let path = Path::new(env!("CARGO_MANIFEST_DIR")).join(path);
    fs::read(&path).unwrap_or_else(|error| panic!("{}: {error}", path.display()))
}

/// A message as it stands, with the place of its set in `SETS`.
pub struct Base {
    pub file: &'static str,
    pub set: usize,
    pub name: &'static str,
    pub bytes: Vec<u8>,
}

/// The examples, read once.
pub struct Examples {
    pub bases: Vec<Base>,
    /// In the order of `SETS`.
    pub sets: Vec<SchemaSet>,
    /// Each set as a message, in that order.
    pub set_messages: Vec<Vec<u8>>,
    pub requests: Vec<Vec<u8>>,
    /// The calls that build the address book, each on a line.
    pub calls: Vec<u8>,
}

impl Examples {
    /// Reads the examples.
    pub fn read() -> Examples {
        let place = |set: Set| SETS.iter().position(|one| *one == set).expect("each set is listed");
        let bases = MESSAGES.iter().map(|(file, set, name)| Base {
            file,
            set: place(*set),
            name,
            bytes: read(file),
        });
        let sets: Vec<SchemaSet> = SETS.iter().map(|set| made(*set)).collect();
        Examples {
            bases: bases.collect(),
            set_messages: sets
                .iter()
                .map(|set| set.to_message().expect("an example's set is short"))
                .collect(),
            sets,
            requests: REQUESTS.iter().map(|path| read(path)).collect(),
            calls: read("examples/addressbook.calls"),
        }
    }

    /// The names of the structs of a set.
    pub fn names(&self, set: usize) -> Vec<&str> {
        self.sets[set]
            .nodes()
            .iter()
            .map(|node| node.display_name.as_str())
            .collect()
    }
}

fn made(set: Set) -> SchemaSet {
    let made = match set {
        Set::BuiltIn => builtin::new_set(Global),
        Set::Station => SchemaSet::from_message(&read("examples/station_set.bin")),
        Set::Flat => SchemaSet::from_message(&read("examples/flat.set")),
        Set::Meta => SchemaSet::from_message(&read("examples/meta.set")),
        Set::AddressBook => SchemaSet::from_request(&read("examples/addressbook.request")),
        Set::Request => request::new_set(Global),
    };
    made.unwrap_or_else(|error| panic!("{set:?}: {error}"))
}
