//! Sources and sinks: what they move, how they report a failure, and the numbers of errors.

use crate::capnp_device::device::{DeviceFault, ReadSource, Sink, Source, WriteSink};
use crate::capnp_device::error::ErrorKind::{ReadFailed, WriteFailed};
use crate::capnp_device::error::{Error, ErrorKind, SchemaTable};
use crate::capnp_device::memory::{MemorySink, MemorySource};
use crate::capnp_device::transfer::{read_all, write_all};
use crate::capnp_wire_callers::devices::{bytes_of, sink_of};
use crate::fixtures::bytes::answer;
use crate::rattle_std::alloc::Global;
use std::io::{self, Read, Write};

/// A reader and writer that is always interrupted.
struct Interrupted;

impl Read for Interrupted {
    fn read(&mut self, _: &mut [u8]) -> io::Result<usize> {
        Err(io::ErrorKind::Interrupted.into())
    }
}

impl Write for Interrupted {
    fn write(&mut self, _: &[u8]) -> io::Result<usize> {
        Err(io::ErrorKind::Interrupted.into())
    }

    fn flush(&mut self) -> io::Result<()> {
        Ok(())
    }
}

#[test]
fn std_readers_and_writers_move_all() {
    let mut source = ReadSource::new([5, 6, 7].as_slice());
    let read = read_all(Global, &mut source).expect("no call fails");
    assert_eq!(read.as_slice(), [5, 6, 7]);
    assert!(source.into_inner().is_empty());
    let mut sink = WriteSink::new(Vec::new());
    write_all(&mut sink, &[5, 6]).expect("no call fails");
    write_all(&mut sink, &[7]).expect("no call fails");
    assert_eq!(sink.into_inner(), [5, 6, 7]);
}

#[test]
fn a_writer_that_takes_none_fails() {
    let mut room = [0; 2];
    let mut sink = WriteSink::new(room.as_mut_slice());
    assert_eq!(answer(write_all(&mut sink, &[5, 6, 7])), Err(WriteFailed));
    assert_eq!(sink.write_some(&[]), Ok(0));
}

#[test]
fn an_interruption_is_a_failure() {
    let mut source = ReadSource::new(Interrupted);
    assert_eq!(source.read_some(&mut [0; 4]), Err(DeviceFault));
    let mut sink = WriteSink::new(Interrupted);
    assert_eq!(sink.write_some(&[5]), Err(DeviceFault));
}

#[test]
fn moves_one_byte_at_a_time() {
    let bytes = bytes_of(Global, &[5, 6, 7]).expect("no call fails");
    assert_eq!(bytes.as_slice(), [5, 6, 7]);
    let sink = sink_of(Global, &[5, 6, 7]).expect("no call fails");
    assert_eq!(sink.as_slice(), [5, 6, 7]);
}

/// A call of a source that fails leaves the bytes that no call has given.
#[test]
fn each_failed_read_is_told() {
    let bytes = [5, 6, 7];
    for calls in 0..4 {
        let mut source = MemorySource::new(&bytes, 1, Some(calls));
        assert_eq!(answer(read_all(Global, &mut source)), Err(ReadFailed), "call {calls}");
        let rest = read_all(Global, &mut source).expect("one call fails");
        assert_eq!(rest.as_slice(), &bytes[calls as usize..], "after call {calls}");
    }
}

#[test]
fn a_failed_write_leaves_a_beginning() {
    let bytes = [5, 6, 7, 8, 9];
    for (calls, written) in [(0, 0), (1, 2), (2, 4)] {
        let mut sink = MemorySink::new(Global, 2, Some(calls));
        assert_eq!(answer(write_all(&mut sink, &bytes)), Err(WriteFailed), "call {calls}");
        assert_eq!(sink.as_slice(), &bytes[..written], "call {calls}");
    }
    let mut sink = MemorySink::new(Global, 2, Some(3));
    write_all(&mut sink, &bytes).expect("three calls are enough");
    assert_eq!(sink.as_slice(), bytes);
}

fn broken_rule(rule: u32) -> ErrorKind {
    ErrorKind::Schema {
        rule,
        table: SchemaTable::Brand,
        entry: 7,
        field: 3,
    }
}

static NUMBERS: [(ErrorKind, u32); 25] = [
    (ErrorKind::OutOfMemory, 1),
    (ErrorKind::Truncated, 2),
    (ErrorKind::TooManySegments, 3),
    (ErrorKind::BadPointer, 4),
    (ErrorKind::WrongPointerKind, 5),
    (ErrorKind::WrongElementSize, 6),
    (ErrorKind::TextNotTerminated, 7),
    (ErrorKind::TooDeep, 8),
    (ErrorKind::CapabilityPointer, 9),
    (ErrorKind::SizePastFormat, 10),
    (ErrorKind::TooLarge, 11),
    (ErrorKind::ReadFailed, 12),
    (ErrorKind::WriteFailed, 13),
    (ErrorKind::FieldNotFound, 20),
    (ErrorKind::TypeMismatch, 21),
    (ErrorKind::NotAStruct, 22),
    (ErrorKind::ExpectedAListOrBlob, 23),
    (ErrorKind::ListAnyPointerNotSupported, 24),
    (ErrorKind::InitIsOnlyValidForStructAndAnyPointerFields, 25),
    (ErrorKind::InitnIsOnlyValidForListTextOrDataFields, 26),
    (ErrorKind::CannotSetAnyPointerFieldToAPrimitiveValue, 27),
    (ErrorKind::InactiveMember, 30),
    (ErrorKind::UntypedStep, 31),
    (ErrorKind::NoSuchElement, 32),
    (ErrorKind::NotAContainer, 33),
];

#[test]
fn each_kind_has_its_number() {
    for (kind, number) in NUMBERS {
        assert_eq!(kind.number(), number, "{kind:?}");
    }
    for (rule, number) in [(1, 41), (12, 52), (u32::MAX - 40, u32::MAX), (u32::MAX, u32::MAX)] {
        assert_eq!(broken_rule(rule).number(), number, "rule {rule}");
    }
}

#[test]
fn shows_what_is_broken() {
    let error = Error::from(broken_rule(12));
    assert_eq!(error.to_string(), "schema rule 12 is broken in brand 7, field 3");
    assert_eq!(format!("{} {}", SchemaTable::Node, SchemaTable::Enum), "node enum");
}
