//! The calls that `bench/run` times beside those of the proved libraries, of the same source as cargo builds it.
//!
//! The crates of the calls and those below them are modules here, as the root's crate has them. The build script gives
//! each call a form for programs in C, with `rust_` before its name: the proved libraries have the plain names.
#![deny(unsafe_op_in_unsafe_fn)]

#[allow(dead_code, unused_imports, reason = "the programs and the tests take more of it")]
#[path = "../../std/mod.rs"]
mod rattle_std;

#[allow(dead_code, reason = "what is timed takes some of them")]
#[path = "../../src/checks.rs"]
mod checks;

/// The bytes at a pointer. A message without bytes may stand at no address.
///
/// # Safety
///
/// So many bytes stand there, and nobody writes to them while they are read.
unsafe fn bytes_at<'a>(message: *const u8, length: usize) -> &'a [u8] {
    if length == 0 {
        &[]
    } else {
        // SAFETY: the caller has them there
        unsafe { std::slice::from_raw_parts(message, length) }
    }
}

/// A call in the form that `bench/ours.h` declares.
macro_rules! call_for_c {
    ($call:ident, $name:ident) => {
        #[unsafe(no_mangle)]
        unsafe extern "C" fn $name(message: *const u8, length: usize, rounds: u64) -> u64 {
            // SAFETY: the program in C has the bytes there until the call is done
            let message = unsafe { $crate::bytes_at(message, length) };
            $call($crate::rattle_std::alloc::Global, message, rounds)
        }
    };
}

include!(concat!(env!("OUT_DIR"), "/libraries.rs"));
