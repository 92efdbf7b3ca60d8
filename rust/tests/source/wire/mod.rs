//! The readers of messages, the devices that messages come from, and packed messages, by public calls.
//!
//! Most tests are rows of scripts: `reads.rs` describes the language. A new case is a new row.

mod base;
mod blobs;
mod devices;
mod levels;
mod lists;
mod numbers;
mod packed;
mod packed_streams;
mod pointers;
mod reads;
mod same_trees;
mod sizes;
mod streams;
mod struct_lists;
mod structs;
mod tool;
mod totals;
mod walks;
