//! Tests of patched messages and of values at paths, by the public calls of `capnp_patch`.

mod cases;
mod get;
mod hostile;
mod memory;
mod patches;
mod places;
mod tool;
