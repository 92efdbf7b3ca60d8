//! What the groups of tests share: the examples, and changes of them by seeds.
#![allow(dead_code, reason = "each group takes a part of it")]

pub mod bases;
pub mod bounds;
pub mod damage;
pub mod random;
pub mod threads;
pub mod words;
