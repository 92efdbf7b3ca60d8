//! Files of rows: what a test is given and what it expects, as texts that stand beside the test.
//!
//! A file has sections. A line `== name` begins one, and a test reads it by that name. In a section, a line that begins
//! with `#` is a comment, which says what the rows below it show.
//!
//! There are three forms:
//!
//! - Lines: each line that is neither blank nor a comment is a row.
//! - Tables: a line at the margin begins a row and is its first column; each line that is indented by four blanks is
//!   another column. A line that is indented by eight goes on with the column above it, after a blank.
//! - Blocks: lines without a blank line between them are a row. Comments are left out.
//!
//! A row knows its file and line, and a failure begins with them.

use std::fmt;

/// Where a row stands.
#[derive(Clone, Copy, PartialEq, Eq)]
pub struct Place {
    /// The source of the test, which has the file of rows beside it.
    source: &'static str,
    name: &'static str,
    line: usize,
}

impl fmt::Display for Place {
    fn fmt(&self, f: &mut fmt::Formatter<'_>) -> fmt::Result {
        let folder = self.source.rsplit_once('/').map_or("", |(folder, _)| folder);
        write!(f, "{folder}/{}:{}", self.name, self.line)
    }
}

impl fmt::Debug for Place {
    fn fmt(&self, f: &mut fmt::Formatter<'_>) -> fmt::Result {
        fmt::Display::fmt(self, f)
    }
}

/// Names the row on standard error if there is a panic while this lives: calls that read the row's words may panic
/// without knowing its place.
pub struct Reading(pub Place);

impl Drop for Reading {
    fn drop(&mut self) {
        if std::thread::panicking() {
            eprintln!("at {}", self.0);
        }
    }
}

/// A line of a file.
#[derive(Clone, Copy, Debug, PartialEq, Eq)]
pub struct Line {
    pub place: Place,
    pub text: &'static str,
}

impl Line {
    /// What stands before the line's arrow, ` -> `, and after it.
    pub fn sides(&self) -> (&'static str, &'static str) {
        let sides = self.text.split_once(" -> ");
        sides.unwrap_or_else(|| panic!("{}: no ` -> `", self.place))
    }
}

/// The lines, of which each that is indented by four blanks goes on with the one above, after a blank.
pub fn joined(lines: &[Line]) -> Vec<Line> {
    let mut rows: Vec<Line> = Vec::new();
    for line in lines {
        match (rows.last_mut(), line.text.strip_prefix("    ")) {
            // each is joined once, by one test, so that what is leaked is little
            (Some(row), Some(more)) => row.text = format!("{} {more}", row.text).leak(),
            _ => rows.push(*line),
        }
    }
    rows
}

/// A row of a table.
#[derive(Clone, Debug, PartialEq, Eq)]
pub struct Row {
    pub place: Place,
    columns: Vec<String>,
}

impl Row {
    /// The columns, of which there have to be so many.
    pub fn columns<const N: usize>(&self) -> [&str; N] {
        let columns: Vec<&str> = self.columns.iter().map(String::as_str).collect();
        let count = columns.len();
        columns
            .try_into()
            .unwrap_or_else(|_| panic!("{}: {count} columns, and not {N}", self.place))
    }

    /// All columns.
    pub fn all(&self) -> &[String] {
        &self.columns
    }
}

/// A row of several lines.
#[derive(Clone, Debug, PartialEq, Eq)]
pub struct Block {
    pub place: Place,
    pub lines: Vec<Line>,
}

/// A section of a file.
#[derive(Clone, Debug)]
pub struct Section {
    lines: Vec<Line>,
}

impl Section {
    fn is_comment(line: &Line) -> bool {
        line.text.starts_with('#')
    }

    /// The rows of one line each.
    pub fn lines(&self) -> Vec<Line> {
        let is_row = |line: &&Line| !line.text.trim().is_empty() && !Section::is_comment(line);
        self.lines.iter().filter(is_row).copied().collect()
    }

    /// The rows of a table.
    pub fn table(&self) -> Vec<Row> {
        let mut rows: Vec<Row> = Vec::new();
        for line in self.lines() {
            let further = line.text.strip_prefix("        ");
            let next = line.text.strip_prefix("    ");
            match (rows.last_mut(), further, next) {
                (Some(row), Some(text), _) => {
                    let column = row.columns.last_mut().expect("each row has a column");
                    column.push(' ');
                    column.push_str(text);
                }
                (Some(row), None, Some(text)) => row.columns.push(text.to_string()),
                (_, _, None) => rows.push(Row {
                    place: line.place,
                    columns: vec![line.text.to_string()],
                }),
                (None, _, Some(_)) => panic!("{}: a column without a row", line.place),
            }
        }
        rows
    }

    /// The rows of several lines each.
    pub fn blocks(&self) -> Vec<Block> {
        let mut blocks: Vec<Block> = Vec::new();
        let mut is_open = false;
        for line in self.lines.iter().filter(|line| !Section::is_comment(line)) {
            if line.text.is_empty() {
                is_open = false;
            } else if is_open {
                blocks.last_mut().expect("a block is open").lines.push(*line);
            } else {
                is_open = true;
                blocks.push(Block {
                    place: line.place,
                    lines: vec![*line],
                });
            }
        }
        blocks
    }
}

/// A file of rows.
#[derive(Clone, Copy)]
pub struct RowFile {
    source: &'static str,
    name: &'static str,
    text: &'static str,
}

impl RowFile {
    /// A file beside a source, with its text. `row_file!` calls this.
    pub const fn new(source: &'static str, name: &'static str, text: &'static str) -> RowFile {
        RowFile { source, name, text }
    }

    /// The section of a name, which the file must have once.
    pub fn section(&self, name: &str) -> Section {
        let mut found: Option<Vec<Line>> = None;
        let mut is_inside = false;
        for (index, text) in self.text.lines().enumerate() {
            let place = Place {
                source: self.source,
                name: self.name,
                line: index + 1,
            };
            if let Some(head) = text.strip_prefix("== ") {
                is_inside = head == name;
                assert!(!is_inside || found.is_none(), "{place}: `== {name}` stands twice");
                if is_inside {
                    found = Some(Vec::new());
                }
            } else if is_inside {
                let lines = found.as_mut().expect("the section has begun");
                lines.push(Line { place, text });
            }
        }
        let lines = found.unwrap_or_else(|| panic!("{}: no section `== {name}`", self.name));
        assert!(
            lines.iter().any(|line| !line.text.trim().is_empty()),
            "{}: the section `== {name}` is empty",
            self.name
        );
        Section { lines }
    }
}

/// The file of rows with this name, beside the source that calls.
macro_rules! row_file {
    ($name:literal) => {
        $crate::rows::RowFile::new(file!(), $name, include_str!($name))
    };
}
pub(crate) use row_file;

/// Asserts that two texts are the same, and names the row where they are not.
#[track_caller]
pub fn assert_text(place: Place, seen: &str, wanted: &str) {
    assert!(seen == wanted, "{place}:\n   seen: {seen}\n wanted: {wanted}");
}

/// Asserts that bytes are the same, and shows them as hexadecimal words where they are not.
#[track_caller]
pub fn assert_bytes(place: Place, seen: &[u8], wanted: &[u8]) {
    assert!(
        seen == wanted,
        "{place}:\n   seen: {}\n wanted: {}",
        hex(seen),
        hex(wanted)
    );
}

/// Bytes as hexadecimal words of eight bytes.
pub fn hex(bytes: &[u8]) -> String {
    let word = |word: &[u8]| word.iter().map(|byte| format!("{byte:02x}")).collect::<String>();
    bytes.chunks(8).map(word).collect::<Vec<_>>().join(" ")
}

/// Each section of each file of rows is read by a test beside it.
#[test]
fn each_section_is_read() {
    let root = concat!(env!("CARGO_MANIFEST_DIR"), "/rust/tests/source");
    let mut folders = vec![std::path::PathBuf::from(root)];
    let mut count = 0;
    while let Some(folder) = folders.pop() {
        let entries = std::fs::read_dir(&folder).expect("the folder can be read");
        let paths: Vec<_> = entries.flatten().map(|entry| entry.path()).collect();
        let has_ending = |path: &std::path::Path, ending| path.extension().is_some_and(|it| it == ending);
        let read = |path: &std::path::Path| std::fs::read_to_string(path).expect("it is a text");
        let sources: String = paths
            .iter()
            .filter(|path| has_ending(path, "rs"))
            .map(|path| read(path))
            .collect();
        for path in paths.iter().filter(|path| has_ending(path, "rows")) {
            for name in read(path).lines().filter_map(|line| line.strip_prefix("== ")) {
                count += 1;
                assert!(
                    sources.contains(&format!("\"{name}\"")),
                    "{}: no test reads `== {name}`",
                    path.display()
                );
            }
        }
        folders.extend(paths.into_iter().filter(|path| path.is_dir()));
    }
    assert!(count > 0, "there are files of rows");
}
