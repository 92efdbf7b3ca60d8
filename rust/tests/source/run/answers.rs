//! Answers of calls, as rows have them.
//!
//! An answer is a reply as `Debug` writes it, a value without more words around it: `Done`, `UInt16(7)`,
//! `Member(Some(1))`, `Flag(false)`, `List(2)`. A text is shown as its letters, `Text(hi)`, data in hexadecimal digits,
//! `Data(00ff)`, and an error by its number and name, `refused: 30 InactiveMember`.

use crate::capnp_run::calls::{Plain, Reply};
use crate::capnp_wire::error::ErrorKind;
use crate::rows::hex;

/// The letters of a text, or its bytes if it isn't UTF-8.
fn letters(bytes: &[u8]) -> String {
    match std::str::from_utf8(bytes) {
        Ok(text) => text.escape_debug().to_string(),
        Err(_) => format!("0x{}", hex(bytes)),
    }
}

/// The number and the name of an error.
pub fn numbered(kind: &ErrorKind) -> String {
    format!("{} {}", kind.number(), kind.name())
}

/// An error, as an answer.
pub fn refusal(kind: &ErrorKind) -> String {
    format!("refused: {}", numbered(kind))
}

/// A reply, as an answer.
pub fn answer(reply: &Reply) -> String {
    match reply {
        Reply::Value(Plain::Text(bytes)) => format!("Text({})", letters(bytes)),
        Reply::Value(Plain::Data(bytes)) => format!("Data({})", hex(bytes)),
        Reply::Value(plain) => format!("{plain:?}"),
        Reply::Refused(kind) => refusal(kind),
        Reply::Done | Reply::Flag(_) | Reply::Member(_) => format!("{reply:?}"),
    }
}
