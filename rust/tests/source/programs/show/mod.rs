//! `capnp_show` over messages and sets in memory.

mod files;

use super::devices::{Device, Devices, Files, Outcome, FAST, SLOW};
use super::rows::{rows_of, Row};
use crate::capnp_show_engine::command::report;
use crate::capnp_wire::error::{ErrorKind, SchemaTable};
use crate::capnp_wire::memory::MemorySink;
use crate::fixtures::bytes::bytes_of;
use crate::rattle_std::alloc::Global;
use crate::rows::{row_file, RowFile, Section};

const MESSAGES: RowFile = row_file!("messages.rows");
const EXAMPLES: RowFile = row_file!("examples.rows");

/// Runs a row's program, and asserts the outcome, and that it opens one file if its words name one and are well-formed.
fn check_run(row: &Row, devices: Devices, wanted: &Outcome) {
    let mut files = Files::new(&row.files, devices);
    let seen = row.run_over(&mut files, devices);
    row.assert_outcome(devices, &seen, wanted);
    let is_named = wanted.status != 2 && row.words.get(1).is_some_and(|word| word == "--set");
    assert_eq!(files.opened, usize::from(is_named), "{}: opened files", row.place);
}

/// Checks each row over slow and over fast devices.
fn check(rows: &[Row]) {
    for row in rows {
        check_run(row, SLOW, &row.wanted);
        check_run(row, FAST, &row.wanted);
    }
}

/// The rows of a section, with a file `set`.
fn rows_under(set: &[u8], section: &Section) -> Vec<Row> {
    let mut rows = rows_of(section);
    rows.iter_mut().for_each(|row| row.add_file("set", set));
    rows
}

/// The outcome of a row if a call of a device fails. What was written before stays.
fn with_failure(row: &Row, device: Device, call: usize) -> Outcome {
    let wanted = &row.wanted;
    let refused = |line: &str, output: &[u8], is_unread| Outcome {
        output: output.to_vec(),
        errors: line.as_bytes().to_vec(),
        status: 1,
        is_unread,
    };
    match device {
        Device::Files => refused("refused: 12\n", b"", true),
        Device::Input => refused("refused: 12\n", b"", call == 0),
        Device::Output => refused("refused: 13\n", &wanted.output[..call], false),
        Device::Errors => Outcome {
            errors: wanted.errors[..call].to_vec(),
            ..wanted.clone()
        },
    }
}

/// Lets each call of a slow device fail in turn, and asserts the outcome. A call that is never made cannot fail.
fn check_failures(rows: &[Row], device: Device) {
    for row in rows {
        // a call moves one byte, and the last read finds the end
        let calls = match device {
            Device::Files => row.files[0].1.len() + 1,
            Device::Input => row.input().len() + 1,
            Device::Output => row.wanted.output.len(),
            Device::Errors => row.wanted.errors.len(),
        };
        for call in 0..calls {
            check_run(row, SLOW.failing(device, call), &with_failure(row, device, call));
        }
        check_run(row, SLOW.failing(device, calls), &row.wanted);
    }
}

#[test]
fn prints_each_message() {
    check(&rows_of(&MESSAGES.section("printed")));
}

#[test]
fn prints_each_example() {
    check(&rows_of(&EXAMPLES.section("examples")));
}

#[test]
fn refuses_each_broken_message() {
    check(&rows_of(&MESSAGES.section("refused")));
}

#[test]
fn refuses_each_proper_beginning() {
    let truncated = Outcome {
        errors: b"refused: 2\n".to_vec(),
        status: 1,
        ..Outcome::default()
    };
    for mut row in rows_of(&MESSAGES.section("beginnings")) {
        check(std::slice::from_ref(&row));
        let whole = row.input().to_vec();
        row.wanted = truncated.clone();
        for end in 0..whole.len() {
            row.set_input(&whole[..end]);
            check(std::slice::from_ref(&row));
        }
    }
}

/// A chain of structs of `Loop`: each is the `again` of the one before it, and the last one has `end`. A struct follows
/// the pointer to it.
fn chain(levels: usize) -> Vec<u8> {
    let again = "0000000001000100 0100000000000000 ".repeat(levels - 1);
    let end = "0000000001000100 0000000000000000 0000000000000000";
    bytes_of(&format!("00000000{:02x}000000 {again}{end}", 2 * levels + 1))
}

/// Checks each row with a chain as its input, and a text as its output.
fn check_chain(section: &str, levels: usize, text: &str) {
    for mut row in rows_of(&MESSAGES.section(section)) {
        row.set_input(&chain(levels));
        row.wanted.output = text.as_bytes().to_vec();
        check(&[row]);
    }
}

#[test]
fn a_chain_is_printed_as_far_as_levels_reach() {
    let text = format!("{}(end = ()){}\n", "(again = ".repeat(63), ")".repeat(63));
    check_chain("a chain of 64 levels", 64, &text);
}

#[test]
fn a_chain_past_the_levels_is_refused() {
    check_chain("a chain of 65 levels", 65, "");
}

#[test]
fn tells_of_each_failed_read() {
    check_failures(&rows_of(&MESSAGES.section("failing devices")), Device::Input);
}

#[test]
fn tells_of_each_failed_write() {
    check_failures(&rows_of(&MESSAGES.section("failing devices")), Device::Output);
}

#[test]
fn failing_errors_change_no_status() {
    check_failures(&rows_of(&MESSAGES.section("failing errors")), Device::Errors);
}

/// The error that a schema breaks a rule.
fn schema_error(rule: u32, table: SchemaTable, field: u16) -> ErrorKind {
    ErrorKind::Schema {
        rule,
        table,
        entry: 0,
        field,
    }
}

/// Each error that printing has, another one of two digits, and two of schemas, of which the last has the largest number.
#[test]
fn each_refusal_is_told() {
    for (kind, number) in [
        (ErrorKind::OutOfMemory, 1),
        (ErrorKind::Truncated, 2),
        (ErrorKind::TooManySegments, 3),
        (ErrorKind::BadPointer, 4),
        (ErrorKind::WrongPointerKind, 5),
        (ErrorKind::WrongElementSize, 6),
        (ErrorKind::TextNotTerminated, 7),
        (ErrorKind::TooDeep, 8),
        (ErrorKind::CapabilityPointer, 9),
        (ErrorKind::SizePastFormat, 10),
        (ErrorKind::TooLarge, 11),
        (ErrorKind::ReadFailed, 12),
        (ErrorKind::WriteFailed, 13),
        (ErrorKind::FieldNotFound, 20),
        (schema_error(12, SchemaTable::Node, 65_535), 52),
        (schema_error(u32::MAX - 40, SchemaTable::Enum, 0), u32::MAX),
    ] {
        let mut errors = MemorySink::new(Global, 4096, None);
        report(kind, &mut errors);
        assert_eq!(errors.as_slice(), format!("refused: {number}\n").as_bytes(), "{number}");
    }
}

#[test]
fn other_words_tell_the_usage_and_read_nothing() {
    check(&rows_of(&MESSAGES.section("other words")));
}
