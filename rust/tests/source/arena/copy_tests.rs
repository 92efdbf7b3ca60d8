//! Copies of whole messages, written again, and messages whose copies are refused.

use super::calls::follow_call;
use super::new_message;
use crate::rows::{row_file, RowFile};

const WHOLE: RowFile = row_file!("whole.rows");

/// Each message is copied in each way, over a null and over a text.
#[test]
fn copies_are_written() {
    let ways = WHOLE.section("ways").table();
    let sections = ["messages", "more messages"].map(|name| WHOLE.section(name).table());
    for row in sections.iter().flatten() {
        let mut copied = new_message();
        let (message, copy) = match row.all() {
            [_, message] => (message, message),
            [_, message, copy] => (message, copy),
            other => panic!("{}: {} columns", row.place, other.len()),
        };
        for way in &ways {
            let [call, then] = way.columns();
            let place = format!("{} by {}", row.place, way.place);
            let call = call.replace("MESSAGE", message);
            let then = if then == "COPY" { copy } else { then };
            follow_call(&mut copied, &place, [&call, "ok", then]);
        }
    }
}

/// A copy is refused, and the message is as it was.
#[test]
fn refused_copies_leave_the_message() {
    for row in WHOLE.section("messages that are refused").table() {
        let [message, kind] = row.columns();
        let mut copied = new_message();
        let refused = format!("error {kind}");
        for [call, answer] in [
            ["set_text before", "ok"],
            [&format!("copy_from {message}"), &refused],
            [&format!("set_root {message}"), &refused],
        ] {
            follow_call(&mut copied, &row.place, [call, answer, "before"]);
        }
    }
}
