//! Sets of schemas and queries: the calls of `capnp_schema`, and sets that are read from messages, written as messages
//! and converted from requests of the public compiler.

mod accepted;
mod conversions;
mod making;
mod queries;
mod rules;
mod set_writer;
mod sets;
