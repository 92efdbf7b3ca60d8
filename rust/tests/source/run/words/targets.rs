//! The types at the ends of paths, by the schemas of the built-in set.

use crate::capnp_schema::builtin::new_set;
use crate::capnp_words::path::parse_path;
use crate::capnp_words::target::target_type;
use crate::fixtures::words::first_word;
use crate::rattle_std::alloc::Global;
use crate::rows::{assert_text, row_file, Reading, RowFile};

static ROWS: RowFile = row_file!("targets.rows");

#[test]
fn paths_have_types() {
    let schemas = new_set(Global).expect("there is memory");
    for line in ROWS.section("paths_have_types").lines() {
        let _reading = Reading(line.place);
        let (target, wanted) = line.sides();
        let (name, word) = first_word(target);
        let schema = schemas.find_struct(name).expect("the set has the struct");
        let path = parse_path(Global, word).expect("there is memory");
        let path = path.expect("the word is a path");
        let seen = match target_type(schema, &path) {
            Some(found) => format!("{:?}", found.which()),
            None => "none".to_owned(),
        };
        assert_text(line.place, &seen, wanted);
    }
}
