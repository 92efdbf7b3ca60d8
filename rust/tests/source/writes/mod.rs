//! Tests of writing structs and lists by the public calls of `capnp_dynamic`.
//!
//! Most are scripts, which `script` runs: they begin with a struct and a message, make calls as
//! `set items.1.a UInt16(7)`, and compare what each call answers. They make each kind of call at each kind of field and
//! element. They write messages under the built-in structs, messages of older and newer writers, and groups that an
//! error cuts short. `memory` refuses each request for memory of a call in turn.

mod calls;
mod messages;
mod script;
mod values;

mod beside;
mod built_in;
mod callers;
mod cut;
mod kinds;
mod memory;
mod older;
mod typed;
