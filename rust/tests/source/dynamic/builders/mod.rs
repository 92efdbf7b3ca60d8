//! The tests of `capnp_builders` by public calls.
//!
//! `texts` has pushes and what is printed, `structs` a struct type with its reader and builder and all that the traits
//! ask of one. `pointers` and `refusals` set, start and get texts, data and untyped pointers at the root of a message,
//! by the rows that `calls` reads.

mod calls;
mod pointers;
mod refusals;
mod structs;
mod texts;
