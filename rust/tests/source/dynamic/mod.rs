//! The tests of reads of structs, lists and values by the public calls of `capnp_dynamic`, and those of
//! `capnp_builders`.
//!
//! Most are rows, which `script` reads: a struct and messages, questions as `get items.1.a`, and their answers. They
//! read the messages of `messages.rows` under structs of the built-in set and of small sets, and messages that the
//! public tool made of a struct with a field of every kind.

mod annotations;
mod builders;
mod defaults;
mod faults;
mod kinds;
mod lists;
mod messages;
mod prints;
mod script;
mod structs;
