//! Packed messages that follow one another: what the public tool packs, and pieces that go across messages.

use crate::capnp_device::device::Source;
use crate::capnp_device::error::ErrorKind::{self, ReadFailed};
use crate::capnp_device::memory::MemorySource;
use crate::capnp_packed::source::UnpackSource;
use crate::capnp_streams::receive::try_read_message;
use crate::fixtures::bytes::{answer, bytes_of};
use crate::rattle_std::alloc::Global;
use crate::rows::{assert_text, hex, row_file, Place, Reading, Row, RowFile};

static ROWS: RowFile = row_file!("packed_streams.rows");

/// The message of a name.
fn message_named(name: &str) -> Vec<u8> {
    let rows = ROWS.section("messages").table();
    let mut columns = rows.iter().map(Row::columns::<2>);
    let found = columns.find(|[known, _]| *known == name);
    let [_, words] = found.expect("the message has a row");
    bytes_of(words)
}

/// Packed bytes, and the messages that they stand for, as text.
struct Stream {
    place: Place,
    packed: Vec<u8>,
    messages: String,
}

/// Messages as text: hexadecimal words, with strokes between messages.
fn shown(messages: &[Vec<u8>]) -> String {
    let shown: Vec<String> = messages.iter().map(|message| hex(message)).collect();
    shown.join(" / ")
}

fn streams() -> Vec<Stream> {
    let read = |row: Row| {
        let _reading = Reading(row.place);
        let [packed, first, second] = row.columns();
        Stream {
            place: row.place,
            packed: bytes_of(packed),
            messages: shown(&[first, second].map(message_named)),
        }
    };
    ROWS.section("streams").table().into_iter().map(read).collect()
}

/// The messages that a source of packed bytes gives until it ends, as text.
fn messages_of(source: MemorySource<'_>) -> Result<String, ErrorKind> {
    let mut unpacked = UnpackSource::new(source);
    let mut messages = Vec::new();
    while let Some(message) = answer(try_read_message(Global, &mut unpacked))? {
        messages.push(message.into());
    }
    Ok(shown(&messages))
}

#[test]
fn packed_messages_follow_one_another() {
    for stream in streams() {
        for chunk in [1, 4096] {
            let source = MemorySource::new(&stream.packed, chunk, None);
            let messages = messages_of(source).expect("no call fails");
            assert_text(stream.place, &messages, &stream.messages);
        }
    }
}

#[test]
fn a_failed_read_is_refused() {
    for stream in streams() {
        let place = stream.place;
        let read = |works| messages_of(MemorySource::new(&stream.packed, 1, Some(works)));
        // a call for each byte, and one that finds the end
        let calls = stream.packed.len() as u64 + 1;
        for works in 0..calls {
            assert_eq!(read(works), Err(ReadFailed), "{place}: after {works} calls");
        }
        assert_text(place, &read(calls).expect("no call fails"), &stream.messages);
    }
}

/// The bytes that a source of packed bytes stands for, at most so many in a call. A call that fails is made again, once.
fn read_again(source: MemorySource<'_>, most: usize) -> Vec<u8> {
    let mut unpacked = UnpackSource::new(source);
    let mut bytes = Vec::new();
    let mut buffer = vec![0; most];
    let mut failures = 0;
    loop {
        match unpacked.read_some(&mut buffer) {
            Ok(0) => return bytes,
            Ok(count) => bytes.extend_from_slice(&buffer[..count]),
            Err(_) => failures += 1,
        }
        assert!(failures <= 1, "the source fails once");
    }
}

#[test]
fn a_failed_read_loses_nothing() {
    let packed = [0x10, 4, 0x10, 3, 1, 5, 0, 1];
    let message = message_named("zeros last");
    for works in 0..9 {
        let source = MemorySource::new(&packed, 1, Some(works));
        assert_eq!(hex(&read_again(source, 3)), hex(&message), "after {works} calls");
    }
}

/// Pieces of 2,048 bytes, more of them than a source unpacks ahead.
#[test]
fn long_runs_are_unpacked() {
    let packed = [0, 255, 0, 255, 0, 255, 1, 7];
    let bytes = read_again(MemorySource::new(&packed, 3, None), 8);
    let (zeros, last) = bytes.split_at(3 * 2048);
    assert!(zeros.iter().all(|byte| *byte == 0));
    assert_eq!(last, [7, 0, 0, 0, 0, 0, 0, 0]);
}
