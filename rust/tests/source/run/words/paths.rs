//! Words that are paths, and words that are none.

use super::words_in;
use crate::capnp_words::path::{parse_path, Path, Read};
use crate::rattle_std::alloc::Global;
use crate::rows::{assert_text, row_file, RowFile, Section};

static ROWS: RowFile = row_file!("paths.rows");

fn text_of(read: Read<Path>) -> String {
    match read {
        Ok(path) => format!("{:?}", path.steps),
        Err(place) => format!("at {place}"),
    }
}

fn paths_are_read(section: &Section) {
    for row in words_in(section) {
        let read = parse_path(Global, &row.word).expect("there is memory");
        assert_text(row.place, &text_of(read), row.wanted);
    }
}

#[test]
fn words_are_paths() {
    paths_are_read(&ROWS.section("words_are_paths"));
}

#[test]
fn other_words_are_told_with_a_place() {
    paths_are_read(&ROWS.section("other_words_are_told_with_a_place"));
}
