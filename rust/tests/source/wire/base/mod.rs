//! The public calls of `capnp_base`: iterators over a list of one's own, a struct type with its reader, texts, types, and
//! what is read by type at the root of a message.

mod iterators;
mod pointers;
mod structs;
mod texts;
mod types;
