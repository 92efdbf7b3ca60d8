//! The program `riftcalico`: docs/PROGRAM.md is its page.
#![forbid(unsafe_code)]

use std::process::ExitCode;

fn main() -> ExitCode {
    riftcalico::programs::riftcalico()
}
