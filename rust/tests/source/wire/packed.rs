//! Packed messages: rows of the encoding page and what the public tool packs.

use crate::capnp_device::error::ErrorKind::{TooLarge, Truncated};
use crate::capnp_packed::pack::pack;
use crate::capnp_packed::received::read_message;
use crate::capnp_packed::unpack::unpack;
use crate::fixtures::bytes::{answer, bytes_of};
use crate::rattle_std::alloc::Global;
use crate::rows::{assert_bytes, row_file, Reading, RowFile};

static ROWS: RowFile = row_file!("packed.rows");

#[test]
fn words_are_packed_and_come_back() {
    for row in ROWS.section("packed").table() {
        let _reading = Reading(row.place);
        let [words, form] = row.columns().map(bytes_of);
        assert_bytes(row.place, &pack(Global, &words).expect("there is memory"), &form);
        assert_bytes(row.place, &unpack(Global, &form).expect("it is packed"), &words);
    }
}

/// What follows a message is not looked at, a piece that is cut among it.
#[test]
fn a_packed_message_is_received() {
    let packed = bytes_of("10 01 51 08 03 02 ff 01");
    let message = read_message(Global, &packed).expect("it is a message");
    assert_eq!(message.as_slice(), bytes_of("0000000001000000 0800000003000200"));
    assert_eq!(answer(read_message(Global, &packed[..3])), Err(Truncated));
    assert_eq!(answer(read_message(Global, &[0x80, 8])), Err(TooLarge));
}
