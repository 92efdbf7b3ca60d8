//! What stands for Rattle's std where it differs from Rust's: memory may be refused, so what takes memory is given an
//! allocator and answers a `Result`. What is alike is handed on.
//!
//! Rust's std takes memory of its own in three places, and ends the program where it gets none: for the words of a
//! program when it starts, for the buffers of standard input and output, and to open a file by its path (on Unix, one
//! of 384 bytes or more).

pub mod alloc;
pub mod collections;
pub mod env;
pub mod fs;
pub mod io;
mod macros;
pub mod process;
pub mod rt;
pub mod slice;
pub mod string;
pub mod vec;

pub use std::{cmp, fmt, hash, marker, mem, result, str};

pub(crate) use macros::{rattle_format, rattle_vec};

/// The names that each file has without an import.
pub mod prelude {
    pub use super::rt::HostRuntime;
    pub use super::string::String;
    pub use super::vec::{CollectGiven, SliceGiven, Vec};
}
