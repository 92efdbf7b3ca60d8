//! The tests of the libraries by layers, each by the calls of its layer.
//!
//! The translated libraries stand here once more, so that a test can call what the cargo crate hides. Rows stand in files
//! beside the tests that read them: `source/rows.rs` has their form.
#![deny(unsafe_code)]

#[allow(dead_code, reason = "the library takes more of it")]
#[path = "../std/mod.rs"]
mod rattle_std;

#[path = "../src/checks.rs"]
mod checks;

#[path = "source/fixtures/mod.rs"]
mod fixtures;
mod refusing;
#[path = "source/rows.rs"]
mod rows;

#[path = "source/arena/mod.rs"]
mod arena;
#[path = "source/compatible/mod.rs"]
mod compatible;
#[path = "source/dynamic/mod.rs"]
mod dynamic;
#[path = "source/loops.rs"]
mod loops;
#[path = "source/programs/mod.rs"]
mod programs;
#[path = "source/run/mod.rs"]
mod run;
#[path = "source/schema/mod.rs"]
mod schema;
#[path = "source/wire/mod.rs"]
mod wire;
#[path = "source/writes/mod.rs"]
mod writes;

mod diffs;
mod edits;
mod float_texts;
mod floats;
mod given_texts;
mod json;
mod json_text;
mod list_edits;
mod memory;

include!(concat!(env!("OUT_DIR"), "/libraries.rs"));
include!(concat!(env!("OUT_DIR"), "/tests.rs"));
