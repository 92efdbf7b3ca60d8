//! The program `capnp_set`: docs/PROGRAM.md is its page.
#![forbid(unsafe_code)]

use std::process::ExitCode;

fn main() -> ExitCode {
    riftcalico::programs::capnp_set()
}
