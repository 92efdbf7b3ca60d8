//! Rows of programs: what is typed, and what comes of it.
//!
//! A row is a block of lines, each of which begins with a mark and a blank:
//!
//! - `$` the command line, as it is typed in a shell (`words`). A line that ends in a backslash goes on in the next one.
//!   If a block has several command lines, each of them is a row with the other lines.
//! - `<` bytes of standard input in hexadecimal words, or `<<` a line of its text. The lines of a text have line ends
//!   between them, and none at the end. A row without either gets a message that the program must not read.
//! - `file NAME:` bytes of a file, or `file NAME <<` a line of its text, likewise.
//! - `>` bytes that the program writes to standard output, or `|` a line that it writes there.
//! - `!` a line that it writes to standard error.
//! - `=` its exit status, if that is not 0.
//!
//! The line `{usage}`, in either output, stands for the usage of the command's verb, or of the program without a verb.

use super::devices::{Device, Devices, File, Files, Outcome, FAST, SLOW};
use super::words::split_words;
use crate::fixtures::bytes::bytes_of;
use crate::rattle_std::alloc::Global;
use crate::rattle_std::string::String as Word;
use crate::rows::{row_file, Block, Line, Place, RowFile, Section};
use crate::{capnp_set_engine, capnp_show_engine, riftcalico_engine};

/// How each program is called.
const USAGES: RowFile = row_file!("usage.rows");

/// The message that a program must not read.
const UNREAD: [u8; 16] = [0, 0, 0, 0, 1, 0, 0, 0, 0, 0, 0, 0, 0, 0, 0, 0];

/// A command with its input and files, and the outcome that it has to have.
pub struct Row {
    pub place: Place,
    pub command: String,
    /// The program and its arguments.
    pub words: Vec<String>,
    /// Standard input, or none if the program must not read it.
    pub input: Option<Vec<u8>>,
    pub files: Vec<File>,
    pub wanted: Outcome,
}

impl Row {
    /// A command that has no files, and that reads and writes nothing.
    pub fn new(place: Place, command: String, words: Vec<String>) -> Row {
        let wanted = Outcome {
            is_unread: true,
            ..Outcome::default()
        };
        Row {
            place,
            command,
            words,
            input: None,
            files: Vec::new(),
            wanted,
        }
    }

    /// Reads a line that is no command line.
    fn read_line(&mut self, line: &Line) {
        let place = line.place;
        let (mark, rest) = line.text.split_once(' ').unwrap_or((line.text, ""));
        match mark {
            "<" | "<<" => {
                let piece = piece_of(rest, mark == "<<", self.input.is_none(), place);
                self.input.get_or_insert_default().extend(piece);
                self.wanted.is_unread = false;
            }
            "file" => self.read_file(rest, place),
            ">" => self.wanted.output.extend(bytes_at(rest, place)),
            "|" => self.wanted.output.extend(self.line(rest).bytes()),
            "!" => self.wanted.errors.extend(self.line(rest).bytes()),
            "=" => match rest.parse() {
                Ok(status) => self.wanted.status = status,
                Err(_) => panic!("{place}: {rest:?} is no status"),
            },
            _ => panic!("{place}: {mark:?} is no mark"),
        }
    }

    /// Reads the first or a further line of a file.
    fn read_file(&mut self, text: &str, place: Place) {
        let (name, rest) = text.split_once(' ').unwrap_or((text, ""));
        let (name, content, is_text) = match (name.strip_suffix(':'), rest.strip_prefix("<<")) {
            (Some(name), _) => (name, rest, false),
            (None, Some(text)) => (name, text.strip_prefix(' ').unwrap_or(text), true),
            (None, None) => panic!("{place}: the file has no content"),
        };
        let known = self.files.iter_mut().find(|(known, _)| known == name);
        let piece = piece_of(content, is_text, known.is_none(), place);
        match known {
            Some((_, bytes)) => bytes.extend(piece),
            None => self.files.push((name.to_string(), piece)),
        }
    }

    /// A line of an output, with its end.
    fn line(&self, text: &str) -> String {
        match text {
            "{usage}" => usage_of(&self.words) + "\n",
            _ => format!("{text}\n"),
        }
    }

    /// Sets standard input, which the program has to read.
    pub fn set_input(&mut self, input: &[u8]) {
        self.input = Some(input.to_vec());
        self.wanted.is_unread = false;
    }

    /// Adds a file, unless the row has one of this name.
    pub fn add_file(&mut self, name: &str, bytes: &[u8]) {
        if !self.files.iter().any(|(known, _)| known == name) {
            self.files.push((name.to_string(), bytes.to_vec()));
        }
    }

    /// The words after the program's name, as the programs take them.
    pub fn arguments(&self) -> Vec<Word> {
        self.words[1..].iter().map(|word| Word::from(word.clone())).collect()
    }

    /// The bytes of standard input.
    pub fn input(&self) -> &[u8] {
        self.input.as_deref().unwrap_or(&UNREAD)
    }

    /// Runs the program over other files than the row's.
    pub fn run_over(&self, files: &mut Files<'_>, devices: Devices) -> Outcome {
        let words = self.arguments();
        let program = self.words[0].as_str();
        Outcome::of(self.input(), devices, |source, output, errors| match program {
            "riftcalico" => riftcalico_engine::command::command_over(files, Global, &words, source, output, errors),
            "capnp_show" => capnp_show_engine::command::command_over(files, Global, &words, source, output, errors),
            "capnp_set" => capnp_set_engine::command::command(Global, &words, source, output, errors),
            _ => panic!("{}: {program:?} is no program", self.place),
        })
    }

    /// Runs the program over the row's files.
    pub fn run(&self, devices: Devices) -> Outcome {
        self.run_over(&mut Files::new(&self.files, devices), devices)
    }

    /// Asserts that a run over some devices had the wanted outcome.
    pub fn assert_outcome(&self, devices: Devices, seen: &Outcome, wanted: &Outcome) {
        let (place, command) = (self.place, &self.command);
        assert!(
            seen == wanted,
            "{place}: {command}\n over {devices}\n{}",
            seen.beside(wanted)
        );
    }

    /// Runs the program over some devices, and asserts the outcome.
    pub fn check_over(&self, devices: Devices, wanted: &Outcome) {
        self.assert_outcome(devices, &self.run(devices), wanted);
    }

    /// Runs the program over slow and over fast devices, and asserts the outcome that the row says.
    pub fn check(&self) {
        self.check_over(SLOW, &self.wanted);
        self.check_over(FAST, &self.wanted);
    }

    /// Lets each of so many calls of a slow device fail in turn, and asserts the outcome.
    pub fn check_failures(&self, device: Device, calls: usize, wanted: impl Fn(usize) -> Outcome) {
        for call in 0..calls {
            self.check_over(SLOW.failing(device, call), &wanted(call));
        }
    }
}

/// The bytes of hexadecimal words, or of a line of a text, before which there is a line end unless it is the first.
fn piece_of(content: &str, is_text: bool, is_first: bool, place: Place) -> Vec<u8> {
    match (is_text, is_first) {
        (false, _) => bytes_at(content, place),
        (true, true) => content.as_bytes().to_vec(),
        (true, false) => format!("\n{content}").into_bytes(),
    }
}

/// The bytes of hexadecimal words.
fn bytes_at(text: &str, place: Place) -> Vec<u8> {
    let is_word = |word: &str| word.len().is_multiple_of(2) && word.bytes().all(|digit| digit.is_ascii_hexdigit());
    assert!(
        text.split(' ').all(is_word),
        "{place}: {text:?} are no hexadecimal words"
    );
    bytes_of(text)
}

/// The bytes of a section of hexadecimal words.
pub fn bytes_in(section: &Section) -> Vec<u8> {
    let lines = section.lines();
    lines.iter().flat_map(|line| bytes_at(line.text, line.place)).collect()
}

/// How the verb of a command is called, or the program if it has no such verb.
fn usage_of(words: &[String]) -> String {
    let lines = USAGES.section(&words[0]).lines();
    let verb = words.get(1).map(String::as_str);
    for line in &lines {
        let call = line.text.trim_start_matches("usage:").trim_start();
        if call.split(' ').nth(1) == verb {
            return format!("usage: {call}");
        }
    }
    lines.iter().map(|line| line.text).collect::<Vec<_>>().join("\n")
}

/// The rows of a block.
fn rows_of_block(block: &Block) -> Vec<Row> {
    let mut rows = Vec::new();
    let mut others = Vec::new();
    let mut lines = block.lines.iter();
    while let Some(line) = lines.next() {
        let Some(text) = line.text.strip_prefix("$ ") else {
            others.push(line);
            continue;
        };
        let mut command = text.to_string();
        while let Some(before) = command.strip_suffix('\\') {
            let next = lines.next().map(|next| next.text.trim_start());
            let next = next.unwrap_or_else(|| panic!("{}: the command line ends too early", line.place));
            command = format!("{before}{next}");
        }
        let words = split_words(&command).filter(|words| !words.is_empty());
        let words = words.unwrap_or_else(|| panic!("{}: {command} is no command line", line.place));
        rows.push(Row::new(line.place, command, words));
    }
    assert!(!rows.is_empty(), "{}: there is no command line", block.place);
    for row in &mut rows {
        others.iter().for_each(|line| row.read_line(line));
    }
    rows
}

/// The rows of a section.
pub fn rows_of(section: &Section) -> Vec<Row> {
    let rows: Vec<Row> = section.blocks().iter().flat_map(rows_of_block).collect();
    assert!(!rows.is_empty(), "the section has no row");
    rows
}

/// Checks each row of a section.
pub fn check_rows(section: &Section) {
    check_rows_with(section, &[]);
}

/// Checks each row of a section. It has these files, unless it says what a file of the name has.
pub fn check_rows_with(section: &Section, files: &[(&str, &[u8])]) {
    for mut row in rows_of(section) {
        for (name, bytes) in files {
            row.add_file(name, bytes);
        }
        row.check();
    }
}
