//! `capnp_set` over requests in memory.

use super::devices::{Outcome, FAST};
use super::rows::{bytes_in, check_rows, rows_of, Row};
use crate::capnp_show_engine::with_set::show_with_set;
use crate::capnp_wire::memory::{MemorySink, MemorySource};
use crate::rattle_std::alloc::Global;
use crate::rows::{row_file, RowFile};

const ROWS: RowFile = row_file!("set.rows");

/// The request, and the rows of a section that read it.
fn request_and_rows(section: &str) -> (Vec<u8>, Vec<Row>) {
    let request = bytes_in(&ROWS.section("request"));
    let mut rows = rows_of(&ROWS.section(section));
    rows.iter_mut().for_each(|row| row.set_input(&request));
    (request, rows)
}

/// What is printed of the message under a set.
fn print_under(set: &[u8]) -> String {
    let message = bytes_in(&ROWS.section("message"));
    let mut set = MemorySource::new(set, 4096, None);
    let mut source = MemorySource::new(&message, 4096, None);
    let mut printed = MemorySink::new(Global, 4096, None);
    show_with_set(Global, &mut set, "Probe", &mut source, &mut printed, false).expect("the message can be printed");
    String::from_utf8_lossy(printed.as_slice()).into_owned()
}

#[test]
fn a_message_is_shown_under_the_set_of_a_request() {
    let (_, rows) = request_and_rows("a conversion");
    for row in rows {
        let seen = row.run(FAST);
        let wanted = Outcome {
            output: seen.output.clone(),
            ..row.wanted.clone()
        };
        row.assert_outcome(FAST, &seen, &wanted);
        // 1.5 is 0x3fc00000
        assert_eq!(print_under(&seen.output), "(level = 1069547520, name = \"deep\")\n");
    }
}

#[test]
fn other_words_and_what_is_no_request_write_nothing() {
    let (_, rows) = request_and_rows("a strict conversion");
    for row in rows {
        row.check();
    }
    check_rows(&ROWS.section("other words"));
}

#[test]
fn each_beginning_of_a_request_is_refused() {
    let (request, rows) = request_and_rows("a beginning");
    for mut row in rows {
        for end in 0..request.len() {
            row.set_input(&request[..end]);
            row.check_over(FAST, &row.wanted);
        }
    }
}

/// A request with the bits of a mask changed in each byte of a word.
fn with_broken_word(request: &[u8], word: usize, mask: u8) -> Vec<u8> {
    let mut broken = request.to_vec();
    broken[8 * word..8 * word + 8].iter_mut().for_each(|byte| *byte ^= mask);
    broken
}

#[test]
fn a_request_with_a_broken_word_is_converted_or_refused() {
    let (request, mut rows) = request_and_rows("a conversion");
    for row in &mut rows {
        for word in 1..request.len() / 8 {
            for mask in [0xff, 0x55, 0x01] {
                row.set_input(&with_broken_word(&request, word, mask));
                let seen = row.run(FAST);
                let is_converted = seen.status == 0 && !seen.output.is_empty();
                let is_refused = seen.status == 1 && seen.output.is_empty() && seen.errors.starts_with(b"refused: ");
                assert!(
                    is_converted || is_refused,
                    "word {word}, mask {mask:#x}: status {}",
                    seen.status
                );
            }
        }
    }
}
