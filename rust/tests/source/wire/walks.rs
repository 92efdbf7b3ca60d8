//! Callers of the readers, which walk along paths of pointers and through a list.

use super::reads::messages_answer;
use crate::capnp_wire::error::ErrorKind::{TooDeep, Truncated, WrongPointerKind};
use crate::capnp_wire_callers::path::{get_by_path, get_text_by_path, read_by_path};
use crate::fixtures::bytes::{answer, bytes_in, root_of};
use crate::rattle_std::alloc::Global;
use crate::rows::{row_file, RowFile};

static ROWS: RowFile = row_file!("walks.rows");

#[test]
fn a_path_leads_to_a_number() {
    let message = bytes_in(&ROWS.section("parts"));
    let root = root_of(&message).expect("it is a message");
    let rows: [(&[u16], u32, _); 11] = [
        (&[], 0, Ok(5)),
        (&[], 1, Ok(0)),
        (&[0], 0, Ok(0)),
        (&[0, 0, 7], 0, Ok(0)),
        (&[1], 0, Ok(9)),
        (&[3, 3, 1], 0, Ok(9)),
        (&[9], 0, Ok(0)),
        (&[2], 0, Err(WrongPointerKind)),
        (&[2, 0], 0, Err(WrongPointerKind)),
        (&[3; 63], 0, Ok(5)),
        (&[3; 64], 0, Err(TooDeep)),
    ];
    for (path, offset, wanted) in rows {
        let from_root = get_by_path(root, path, offset);
        let from_bytes = read_by_path(Global, &message, path, offset);
        assert_eq!(answer(from_root), wanted, "{offset} at {path:?}");
        assert_eq!(answer(from_bytes), wanted, "{offset} at {path:?}, from the bytes");
    }
    assert_eq!(answer(read_by_path(Global, &[0; 4], &[], 0)), Err(Truncated));
}

#[test]
fn a_path_leads_to_a_text() {
    let message = bytes_in(&ROWS.section("parts"));
    let root = root_of(&message).expect("it is a message");
    let rows: [(&[u16], _); 5] = [
        (&[2], Ok("hi")),
        (&[0, 4], Ok("")),
        (&[], Err(WrongPointerKind)),
        (&[2, 2], Err(WrongPointerKind)),
        (&[3; 65], Err(TooDeep)),
    ];
    for (path, wanted) in rows {
        let text = answer(get_text_by_path(root, path));
        assert_eq!(text, wanted.map(str::as_bytes), "at {path:?}");
    }
}

#[test]
fn a_list_is_summed() {
    messages_answer(&ROWS.section("sums"));
}
