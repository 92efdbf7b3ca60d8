//! Tests of calls along paths and of runs, by the public calls of `capnp_run`, and of what programs make such calls
//! with: words (`capnp_words`), JSON values (`capnp_from_json`), and patched messages and values at paths
//! (`capnp_patch`).
//!
//! A call and its answer are a line, such as `set items.1.a UInt16(7) -> Done`: `calls` and `answers` have the form. A
//! case (`cases`) makes such calls on the root of a message, and compares the text and the bytes that they leave. The
//! cases have worked lists of calls on the built-in structs, each kind of field and element of a message that the
//! public tool made, the tests of a step in their order, and steps into defaults and past what can't be read. `limits`
//! makes calls on messages that may have few words, and `memory` refuses each request for memory of a run in turn.

mod answers;
mod calls;
mod cases;
mod messages;

mod from_json;
mod kinds;
mod limits;
mod memory;
mod patch;
mod walks;
mod words;
mod worked;
