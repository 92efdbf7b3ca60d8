//! The words that a program is started with.

use super::rt::HostRuntime;
use super::string::String;
use std::io;

/// The words of a program, its name first.
pub struct Args(std::vec::IntoIter<String>);

/// The words that this program is started with. Refused where one of them is not UTF-8. Want of memory ends the program
/// here, as Rust's std has no other way to the words.
pub fn args(_rt: &HostRuntime) -> io::Result<Args> {
    let words = std::env::args_os().map(|word| word.into_string().map(String::from));
    let words: Result<std::vec::Vec<String>, _> = words.collect();
    match words {
        Ok(words) => Ok(Args(words.into_iter())),
        Err(_) => Err(io::Error::from(io::ErrorKind::InvalidData)),
    }
}

impl Iterator for Args {
    type Item = String;

    fn next(&mut self) -> Option<String> {
        self.0.next()
    }
}
