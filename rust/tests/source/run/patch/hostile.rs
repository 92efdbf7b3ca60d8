//! Messages that can't be read: patches of them fail, and what a path doesn't touch is not looked at.

use super::get::paths_hold;
use crate::capnp_call::calls::{Call, Op, Step};
use crate::capnp_patch::engine::run_bytes;
use crate::capnp_schema::builtin::new_set;
use crate::rattle_std::alloc::Global;
use crate::rows::{assert_text, row_file, Line, RowFile};
use crate::run::answers::refusal;
use crate::run::messages::Head;

static ROWS: RowFile = row_file!("hostile.rows");

#[test]
fn patches_of_hostile_messages_are_refused() {
    let schemas = new_set(Global).expect("there is memory");
    let call = |last| Call {
        path: &[],
        last,
        op: Op::Get,
    };
    let calls = [call(Step::Named("nothing")), call(Step::Field(0))];
    for line in ROWS.section("patches_of_hostile_messages_are_refused").lines() {
        let (head, wanted) = line.sides();
        let head = Head::read(&schemas, Line { text: head, ..line });
        let message = head.message().expect("a row names a message");
        for calls in [&calls[..], &[]] {
            let seen = match run_bytes(Global, message, head.schema, calls) {
                Ok(_) => "made".to_owned(),
                Err(error) => refusal(&error.kind),
            };
            assert_text(line.place, &seen, wanted);
        }
    }
}

#[test]
fn only_what_a_path_touches_is_read() {
    let schemas = new_set(Global).expect("there is memory");
    paths_hold(&schemas, &ROWS.section("only_what_a_path_touches_is_read"));
}
