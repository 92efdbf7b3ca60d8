//! How a program ends.

pub use std::process::ExitCode;
