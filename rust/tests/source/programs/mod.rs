//! The three programs, run in process: what is typed, and what a program reads, writes and reports.
//!
//! Files, standard input and the two outputs are in memory. A row runs twice: with devices that move one byte a call, and
//! with devices that move up to 4096. In some tests one call of a device fails.

mod devices;
mod riftcalico;
mod rows;
mod set;
mod show;
mod words;
