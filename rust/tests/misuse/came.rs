//! What came of a call, and what is allowed of it.

use riftcalico::run::Reply;
use riftcalico::{ErrorKind, Result};
use std::cell::{Cell, RefCell};
use std::panic::{catch_unwind, AssertUnwindSafe};

/// What came of a call.
#[derive(Clone, Copy, Debug, PartialEq, Eq)]
pub enum Came {
    Done,
    /// It was done, and what it hands out, or began to copy, is documented to be read otherwise under another member.
    Loose,
    Refused(ErrorKind),
    /// It answered `None` or `false`.
    Nothing,
}

impl Came {
    /// Of a call that may return an error.
    pub fn of<T>(answer: Result<T>) -> Came {
        match answer {
            Ok(_) => Came::Done,
            Err(error) => Came::Refused(error.kind),
        }
    }

    /// Of a call that has a reply.
    pub fn of_reply(reply: &Reply) -> Came {
        match reply {
            Reply::Refused(kind) => Came::Refused(*kind),
            _ => Came::Done,
        }
    }

    /// Of a call that answers nothing where it was misused.
    pub fn if_there(is_there: bool) -> Came {
        if is_there {
            Came::Done
        } else {
            Came::Nothing
        }
    }
}

/// The sentences with which a call may panic: how each begins and ends.
const SENTENCES: [(&str, &str); 25] = [
    ("the struct has fewer words or pointers than its schema", ""),
    ("the index ", " is not below the length "),
    ("the number at ", " lies outside the data of the struct"),
    ("the bit at ", " lies outside the data of the struct"),
    ("the struct has no pointer ", ""),
    ("the list has no bit at ", ""),
    ("the list has no number of ", " bytes at "),
    ("the list has no struct at ", ""),
    ("the list has no pointer at ", ""),
    ("the text has no room for ", " bytes: it has room for "),
    ("the byte ", " is no ASCII character"),
    ("the chunk of a device is 0", ""),
    ("the struct is read under another schema than that of the pair", ""),
    ("the type is not that of the struct's schema", ""),
    ("the set has no struct ", " of the node "),
    ("the set has no enum ", ""),
    ("the walk stands at no field", ""),
    ("the walk stands at another field than that of the group", ""),
    ("the index ", " has more than 16 bits"),
    ("canonical copies are not made: `canonicalize` has to be false", ""),
    ("an untyped pointer has no default", ""),
    ("the value is not of the kind that it is taken as", ""),
    ("no ", " stands at the pointer"),
    // those of std, of bytes that the caller gives
    (OF_BYTES, " out of range for slice of length "),
    (OF_BYTE, " but the index is "),
];

/// How the sentences begin that std has for numbers outside bytes: they are those of no other call.
const OF_BYTES: &str = "range ";
const OF_BYTE: &str = "index out of bounds: the len is ";

/// How many sentences there are.
pub const SENTENCE_COUNT: usize = SENTENCES.len();

/// Whether the bytes of the call are the caller's own.
#[derive(Clone, Copy, PartialEq, Eq)]
pub enum Given {
    Bytes,
    Handles,
}

/// Which sentence a panic says.
fn sentence(said: &str, given: Given) -> Option<usize> {
    let is_known = |(first, _): &&(&str, &str)| given == Given::Bytes || ![OF_BYTES, OF_BYTE].contains(first);
    SENTENCES
        .iter()
        .take_while(is_known)
        .position(|(first, then)| said.strip_prefix(first).is_some_and(|behind| behind.contains(then)))
}

thread_local! {
    /// Whether a panic of this thread is looked at by `caught`.
    static IS_CAUGHT: Cell<bool> = const { Cell::new(false) };
    /// What the last of them says, and where.
    static SAID: RefCell<String> = const { RefCell::new(String::new()) };
}

/// Lets no panic be printed that `caught` looks at.
pub fn keep_quiet() {
    let print = std::panic::take_hook();
    std::panic::set_hook(Box::new(move |panic| {
        if IS_CAUGHT.get() {
            SAID.set(panic.to_string());
        } else {
            print(panic);
        }
    }));
}

/// What came of a call, or the sentence that it panicked with.
pub fn caught(given: Given, call: impl FnOnce() -> Came) -> std::result::Result<Came, usize> {
    IS_CAUGHT.set(true);
    let came = catch_unwind(AssertUnwindSafe(call));
    IS_CAUGHT.set(false);
    came.map_err(|panic| {
        let said = match (panic.downcast_ref::<String>(), panic.downcast_ref::<&str>()) {
            (Some(said), _) => said.clone(),
            (None, Some(said)) => (*said).to_string(),
            (None, None) => String::new(),
        };
        sentence(&said, given).unwrap_or_else(|| panic!("a call {}", SAID.take()))
    })
}
