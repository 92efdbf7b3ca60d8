//! Messages that are written to a sink.

use super::{message_of, new_message};
use crate::capnp_arena::message::Builder;
use crate::capnp_device::device::{DeviceFault, Sink};
use crate::capnp_device::memory::MemorySink;
use crate::capnp_wire::error::ErrorKind::{self, OutOfMemory, WriteFailed};
use crate::capnp_wire::size::ElementSize;
use crate::rattle_std::alloc::Global;
use crate::refusing::refuse_each;
use crate::rows::{assert_bytes, hex, row_file, RowFile};

const SINKS: RowFile = row_file!("sinks.rows");

fn set_text(message: &mut Builder) {
    let mut root = message.root();
    root.set_text(b"Hello, World!").expect("there is memory");
}

#[test]
fn a_sink_gets_the_bytes_of_the_message() {
    let rows = SINKS.section("a text and a null").lines();
    let [wanted] = rows.as_slice() else {
        panic!("{} lines, and not one", rows.len());
    };
    let mut sink = MemorySink::new(Global, 5, None);
    let mut message = new_message();
    set_text(&mut message);
    message.write_message_to(&mut sink).expect("the sink takes all");
    message.root().clear();
    message.write_message_to(&mut sink).expect("the sink takes all");
    assert_bytes(wanted.place, sink.as_slice(), &message_of(&wanted.place, wanted.text));
}

/// A text.
fn in_order() -> Builder {
    let mut message = new_message();
    set_text(&mut message);
    message
}

/// The text once more: the first one is still behind the root pointer.
fn replaced() -> Builder {
    let mut message = in_order();
    set_text(&mut message);
    message
}

/// 600 numbers: with the table more bytes than the sink's first call is given.
fn long() -> Builder {
    let mut message = new_message();
    message
        .init_list(0, ElementSize::EightBytes, 600)
        .expect("there is memory");
    message
}

/// Writes a message to a sink that takes so many bytes in a call, and of which so many calls work. Returns why the
/// message is not written, and how many of its bytes the sink has then; `None` if those are no beginning of it.
fn send(message: &Builder, chunk: usize, calls: u64) -> (Option<ErrorKind>, Option<usize>) {
    let whole = message.write_message().expect("there is memory");
    let mut sink = MemorySink::new(Global, chunk, Some(calls));
    let refused = message.write_message_to(&mut sink).err();
    let sent = sink.as_slice();
    let length = whole.starts_with(sent).then_some(sent.len());
    (refused.map(|error| error.kind), length)
}

#[test]
fn a_failed_sink_keeps_a_beginning() {
    for row in SINKS.section("messages that are written").lines() {
        let words: Vec<&str> = row.text.split(' ').collect();
        let [name, chunk, calls, refused, length] = words[..] else {
            panic!("{}: {} words", row.place, words.len());
        };
        let number = |word: &str| {
            word.parse()
                .unwrap_or_else(|_| panic!("{}: {word:?} is no number", row.place))
        };
        let message = match name {
            "in_order" => in_order(),
            "replaced" => replaced(),
            "long" => long(),
            other => panic!("{}: no message is {other:?}", row.place),
        };
        let (kind, sent) = send(&message, number(chunk), number(calls) as u64);
        assert_eq!(kind.map_or("ok", |kind| kind.name()), refused, "{}", row.place);
        assert_eq!(sent, Some(number(length)), "{}", row.place);
    }
}

/// A byte in a call: each failing call leaves just the bytes before it.
#[test]
fn a_sink_that_fails_at_each_byte_has_those_before() {
    for message in [in_order(), replaced()] {
        for calls in 0..32 {
            assert_eq!(send(&message, 1, calls), (Some(WriteFailed), Some(calls as usize)));
        }
        assert_eq!(send(&message, 1, 32), (None, Some(32)));
    }
}

/// A sink that counts its bytes, and takes no memory for them.
#[derive(Default)]
struct CountingSink {
    count: usize,
}

impl Sink for CountingSink {
    fn write_some(&mut self, bytes: &[u8]) -> Result<usize, DeviceFault> {
        self.count += bytes.len();
        Ok(bytes.len())
    }
}

/// Writes a message with each of its requests for memory refused in turn, and then with none. Where one is refused,
/// nothing is written, and the message is as before. Returns how many requests there are.
fn requests_to_write(start: fn() -> Builder, length: usize) -> u64 {
    let written = |message: &Builder| hex(&message.write_message().expect("there is memory"));
    let write = |(message, sink): &mut (Builder, CountingSink)| message.write_message_to(sink);
    let begin = || (start(), CountingSink::default());
    refuse_each(begin, write, |(message, sink), made, is_refused| {
        let kind = made.err().map(|error| error.kind);
        let wanted = if is_refused {
            (Some(OutOfMemory), 0)
        } else {
            (None, length)
        };
        assert_eq!((kind, sink.count), wanted);
        assert_eq!(written(&message), written(&start()));
    })
}

/// A segment that has more than the message is written anew first, which takes memory.
#[test]
fn a_message_in_order_is_written_without_memory() {
    assert_eq!(requests_to_write(in_order, 32), 0);
    assert_eq!(requests_to_write(long, 4816), 0);
    assert!(requests_to_write(replaced, 32) > 0);
}
