//! Packed messages, beside the rows of the encoding page and what the public tool packs (`capnp convert binary:packed`).

use riftcalico::memory::Global;
use riftcalico::serialize_packed::{pack, read_message, unpack};

const BOOK: &[u8] = include_bytes!("../../examples/addressbook.bin");
const PACKED_BOOK: &[u8] = include_bytes!("packed/addressbook.packed");

/// Bytes of all kinds of words in a row, and runs of 300 words of zeros and of full words.
const RUNS: &[u8] = include_bytes!("packed/runs.bin");
const PACKED_RUNS: &[u8] = include_bytes!("packed/runs.packed");

fn packed(bytes: &[u8]) -> Vec<u8> {
    Vec::from(pack(Global, bytes).expect("there is memory"))
}

fn unpacked(bytes: &[u8]) -> Vec<u8> {
    Vec::from(unpack(Global, bytes).expect("there is memory"))
}

#[test]
fn rows_of_the_encoding_page() {
    let rows: [(&[u8], &[u8]); 3] = [
        (
            &[8, 0, 0, 0, 3, 0, 2, 0, 0x19, 0, 0, 0, 0xaa, 1, 0, 0],
            &[0x51, 8, 3, 2, 0x31, 0x19, 0xaa, 1],
        ),
        (&[0; 32], &[0, 3]),
        (
            &[0x8a; 32],
            &[
                0xff, 0x8a, 0x8a, 0x8a, 0x8a, 0x8a, 0x8a, 0x8a, 0x8a, 3, 0x8a, 0x8a, 0x8a, 0x8a, 0x8a, 0x8a, 0x8a, 0x8a,
                0x8a, 0x8a, 0x8a, 0x8a, 0x8a, 0x8a, 0x8a, 0x8a, 0x8a, 0x8a, 0x8a, 0x8a, 0x8a, 0x8a, 0x8a, 0x8a,
            ],
        ),
    ];
    for (bytes, form) in rows {
        assert_eq!(packed(bytes), form);
        assert_eq!(unpacked(form), bytes);
    }
}

#[test]
fn messages_are_packed_as_by_the_public_tool() {
    for (bytes, form) in [(BOOK, PACKED_BOOK), (RUNS, PACKED_RUNS)] {
        assert!(packed(bytes) == form && unpacked(form) == bytes);
        let message = read_message(Global, form).expect("the message is whole");
        assert!(Vec::from(message) == bytes);
    }
}

#[test]
fn what_follows_a_message_is_not_looked_at() {
    for behind in [&[0x10, 1, 0, 1][..], &[0xff, 1, 2], PACKED_RUNS] {
        let input = [PACKED_BOOK, behind].concat();
        let message = read_message(Global, &input).expect("the message is whole");
        assert_eq!(Vec::from(message), BOOK);
    }
}

#[test]
fn each_beginning_of_a_packed_message_is_cut_short() {
    for length in 0..PACKED_BOOK.len() {
        let refusal = read_message(Global, &PACKED_BOOK[..length])
            .expect_err("the message is cut");
        assert_eq!(refusal.number(), 2);
        assert!(BOOK.starts_with(&unpacked(&PACKED_BOOK[..length])));
    }
}

/// A stream that begins with these numbers of 32 bits, packed.
fn table(numbers: &[u32]) -> Vec<u8> {
    let mut bytes: Vec<u8> = numbers.iter().flat_map(|number| number.to_le_bytes()).collect();
    bytes.resize(bytes.len().next_multiple_of(8), 0);
    packed(&bytes)
}

#[test]
fn each_refusal_has_its_cause() {
    let rows: [(&[u32], u32); 6] = [
        (&[], 2),
        (&[512, 0], 3),
        (&[511, 0], 2),
        (&[0, (1 << 27) - 1], 2),
        (&[0, 1 << 27], 11),
        (&[1, u32::MAX, u32::MAX], 11),
    ];
    for (numbers, number) in rows {
        let refusal = read_message(Global, &table(numbers))
            .expect_err("no message is there");
        assert_eq!(refusal.number(), number, "{numbers:?}");
    }
}

#[test]
fn any_words_come_back() {
    let mut state = 1u64;
    let mut next = move || {
        state = state.wrapping_mul(6_364_136_223_846_793_005).wrapping_add(1_442_695_040_888_963_407);
        state >> 33
    };
    for _ in 0..500 {
        let mut bytes = Vec::new();
        for _ in 0..next() % 40 {
            let zeros = next() % 4;
            let repeats = if next() % 8 == 0 { next() % 300 } else { 1 };
            for _ in 0..repeats {
                bytes.extend((0..8).map(|_| if next() % 4 < zeros { 0 } else { next() as u8 }));
            }
        }
        let form = packed(&bytes);
        assert_eq!(unpacked(&form), bytes);
        assert!(form.len() * 8 <= bytes.len() * 10);
    }
}
