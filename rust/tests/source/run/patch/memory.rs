//! Patches and reads that run out of memory: each request of each call is refused in turn.
//!
//! Either the run fails as a whole, or one of its calls does: then the report says so, and the other calls are made.
//! The calls that make the report, write the message or show a value fail.

use super::cases::{lines_of, Case};
use super::get::path_in;
use crate::capnp_call::calls::any_refused;
use crate::capnp_call::message::Run;
use crate::capnp_patch::get::get_line;
use crate::capnp_patch::lines::get_lines;
use crate::capnp_schema::builtin::new_set;
use crate::capnp_wire::error::{ErrorKind, Result};
use crate::fixtures::bytes::answer;
use crate::rattle_std::alloc::Global;
use crate::rattle_std::string::String as LayerString;
use crate::refusing::refuse_each;
use crate::rows::{assert_text, row_file, Place, Reading, RowFile};
use crate::run::calls::calls_of;
use crate::run::messages::Head;

static ROWS: RowFile = row_file!("memory.rows");

/// Asserts what a run leaves of which a call ran out of memory, or none did.
fn is_left(case: &Case<'_>, run: &Run, is_refused: bool) {
    let report = if is_refused {
        &case.report_without_memory
    } else {
        &case.report
    };
    report.is(&lines_of(&case.words(), &run.replies));
    assert_eq!(any_refused(&run.replies), is_refused, "{}", case.place);
    let bytes = run.message.write_message().expect("there is memory");
    case.left.is(&bytes);
}

/// Refuses each request of a run in turn.
fn refuse_run(case: &Case<'_>, start: Option<&[u8]>) {
    let calls = calls_of(&case.calls);
    let (mut refused_runs, mut refused_calls) = (0, 0);
    refuse_each(
        || (),
        |()| case.run(start, &calls),
        |(), run, is_refused| match answer(run) {
            Ok(run) => {
                is_left(case, &run, is_refused);
                refused_calls += u32::from(is_refused);
            }
            Err(kind) => {
                assert!(is_refused && kind == ErrorKind::OutOfMemory, "{}: {kind:?}", case.place);
                refused_runs += 1;
            }
        },
    );
    assert!(
        refused_runs > 0 && refused_calls > 0,
        "{}: {refused_runs} runs, {refused_calls} calls",
        case.place
    );
}

/// Refuses each request of a call in turn: the call fails with `OutOfMemory`. `see` gets what it returns if none is
/// refused.
fn refuse<T>(place: Place, call: impl Fn() -> Result<T>, see: impl Fn(T)) {
    let requests = refuse_each(
        || (),
        |()| call(),
        |(), returned, is_refused| match answer(returned) {
            Ok(made) if !is_refused => see(made),
            Ok(_) => panic!("{place}: it was made without memory"),
            Err(kind) => assert!(is_refused && kind == ErrorKind::OutOfMemory, "{place}: {kind:?}"),
        },
    );
    assert_ne!(requests, 0, "{place}: no request");
}

/// Refuses each request of the calls that report a run and write its message.
fn refuse_reporting(case: &Case<'_>, run: &Run) {
    let words = case.words();
    let report = || get_lines(Global, &words, &run.replies);
    refuse(case.place, report, |lines| case.report.is(&lines));
    let write = || run.message.write_message();
    refuse(case.place, write, |bytes| case.left.is(&bytes));
    is_left(case, run, false);
}

#[test]
fn what_is_written_without_memory() {
    let schemas = new_set(Global).expect("there is memory");
    for block in ROWS.section("what_is_written_without_memory").blocks() {
        let case = Case::read(&schemas, &block);
        for start in &case.starts {
            refuse_run(&case, *start);
            let run = case.run(*start, &calls_of(&case.calls));
            refuse_reporting(&case, &run.expect("there is memory"));
        }
    }
    for block in ROWS.section("the text at a path").blocks() {
        let head = Head::read(&schemas, block.lines[0]);
        let message = head.message().expect("a block names a message");
        for line in &block.lines[1..] {
            let _reading = Reading(line.place);
            let (get, text) = line.sides();
            let path = path_in(get);
            let show = || get_line(Global, head.schema, &path, message, false);
            let see = |seen: LayerString| assert_text(line.place, &seen, &format!("{text}\n"));
            refuse(line.place, show, see);
        }
    }
}
