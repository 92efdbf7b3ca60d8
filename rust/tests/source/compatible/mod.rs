//! Tests of compatible versions of structs, by the public calls of `capnp_compatible` and `capnp_differences`.
//!
//! Rows are sets of schemas as text, and questions about two structs of a set, which `script` asks. They compare
//! structs of the built-in set with one whose union has grown, and structs that differ in one thing: a type, a default,
//! a place, a union, a group. They read messages that the public tool wrote under two versions of a file, and lists of
//! numbers and texts that became lists of structs. `memory` refuses each request for memory in turn, and compares large
//! sets. `differences` asks what differs.

mod messages;
mod script;

mod defaults;
mod differences;
mod evolution;
mod memory;
mod shapes;
mod tool;
mod types;
mod upgrades;
