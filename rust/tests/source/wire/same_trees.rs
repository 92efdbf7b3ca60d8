//! Whether two messages hold the same tree.

use crate::fixtures::bytes::{bytes_of, root_of};
use crate::rows::{row_file, Reading, RowFile};

static ROWS: RowFile = row_file!("same_trees.rows");

/// Asserts of the two messages of each row whether one holds the tree of the other, and the other way round.
#[track_caller]
fn are_same(section: &str, wanted: bool) {
    for row in ROWS.section(section).table() {
        let _reading = Reading(row.place);
        let [one, another] = row.columns().map(bytes_of);
        let [one, another] = [&one, &another].map(|bytes| root_of(bytes).expect("it is a message"));
        let both = [one.has_same_tree(&another), another.has_same_tree(&one)];
        assert_eq!(both, [wanted; 2], "{}, and the other way round", row.place);
    }
}

#[test]
fn where_things_lie_makes_no_difference() {
    are_same("alike", true);
}

#[test]
fn what_is_there_makes_one() {
    are_same("unlike", false);
}
