//! Inputs of the programs: words, files and standard input, by a seed.

use super::common::bases::{Examples, Set, SETS};
use super::common::bounds::is_within;
use super::common::damage::damaged;
use super::common::random::Random;
use super::common::words;
use std::ffi::OsString;

/// The programs, by number.
pub const PROGRAMS: [&str; 3] = ["capnp_show", "capnp_set", "riftcalico"];

/// How many steps a message or set may take to be walked. Others would be printed as gigabytes.
const STEPS: usize = 20_000;

/// What a program is run on.
pub struct Input {
    pub seed: u64,
    /// The place of its name in `PROGRAMS`.
    pub program: usize,
    pub words: Vec<OsString>,
    /// By their names in the folder of the run.
    pub files: Vec<(&'static str, Vec<u8>)>,
    pub stdin: Vec<u8>,
}

impl std::fmt::Debug for Input {
    fn fmt(&self, f: &mut std::fmt::Formatter<'_>) -> std::fmt::Result {
        let hex = |bytes: &[u8]| bytes.iter().map(|byte| format!("{byte:02x}")).collect::<String>();
        write!(
            f,
            "seed {}: {} {:?}\n  stdin {}",
            self.seed,
            PROGRAMS[self.program],
            self.words,
            hex(&self.stdin)
        )?;
        self.files
            .iter()
            .try_for_each(|(name, bytes)| write!(f, "\n  {name} {}", hex(bytes)))
    }
}

/// The input of a seed.
pub fn made(examples: &Examples, seed: u64) -> Input {
    let mut random = Random::new(1, seed);
    loop {
        let mut parts = Parts {
            random: &mut random,
            examples,
            words: Vec::new(),
            files: Vec::new(),
        };
        let (program, stdin) = match parts.random.below(20) {
            0..=6 => (0, parts.show()),
            7..=10 => (1, parts.convert()),
            _ => (2, parts.query()),
        };
        let Parts { words, files, .. } = parts;
        let words = changed_words(&mut random, words);
        let input = Input {
            seed,
            program,
            words,
            files,
            stdin,
        };
        if is_light(&input) {
            return input;
        }
    }
}

/// Whether an input is read and answered without gigabytes between.
fn is_light(input: &Input) -> bool {
    let is_message_light = |(name, bytes): &(&str, Vec<u8>)| *name == "calls" || is_within(bytes, STEPS);
    let is_heavy_file = |(_, bytes): &(&str, Vec<u8>)| String::from_utf8_lossy(bytes).lines().any(words::is_heavy);
    let is_heavy_word = input.words.iter().any(|word| words::is_heavy(&word.to_string_lossy()));
    let are_files_light = input
        .files
        .iter()
        .all(|file| is_message_light(file) && !is_heavy_file(file));
    are_files_light && !is_heavy_word && is_within(&input.stdin, STEPS)
}

/// The parts of an input that is being made.
struct Parts<'a> {
    random: &'a mut Random,
    examples: &'a Examples,
    words: Vec<String>,
    files: Vec<(&'static str, Vec<u8>)>,
}

impl Parts<'_> {
    fn word(&mut self, word: &str) {
        self.words.push(word.to_string());
    }

    /// Bytes with changes, or, once in so many times, as they stand.
    fn bytes(&mut self, bytes: &[u8], times: usize) -> Vec<u8> {
        if self.random.once_in(times) {
            bytes.to_vec()
        } else {
            damaged(self.random, bytes)
        }
    }

    /// The words that name a struct, and the set file where there is one. Answers the place of the struct's message,
    /// and whether the set is as it stands.
    fn root(&mut self) -> (usize, String) {
        let place = self.random.below(self.examples.bases.len());
        let base = &self.examples.bases[place];
        let mut name = base.name.to_string();
        if self.random.once_in(8) {
            name = self.random.one_of(&self.examples.names(base.set)).to_string();
        }
        if SETS[base.set] != Set::BuiltIn {
            let bytes = self.bytes(&self.examples.set_messages[base.set], 2);
            self.files.push(("set", bytes));
            self.word("--set");
            let file = if self.random.once_in(40) { "none" } else { "set" };
            self.word(file);
        }
        (place, name)
    }

    /// A message, mostly changed.
    fn message(&mut self, place: usize, times: usize) -> Vec<u8> {
        let examples = self.examples;
        self.bytes(&examples.bases[place].bytes, times)
    }

    /// An input of `capnp_show`.
    fn show(&mut self) -> Vec<u8> {
        let (place, name) = self.root();
        self.word(&name);
        if self.random.once_in(3) {
            self.word("--indent");
        }
        self.message(place, 12)
    }

    /// An input of `capnp_set`.
    fn convert(&mut self) -> Vec<u8> {
        if self.random.once_in(3) {
            self.word("--strict");
        }
        let examples = self.examples;
        let place = self.random.below(examples.requests.len());
        self.bytes(&examples.requests[place], 40)
    }

    /// An input of `riftcalico`.
    fn query(&mut self) -> Vec<u8> {
        let verb = *self
            .random
            .one_of(&["get", "get", "patch", "patch", "patch", "new", "structs", "diff"]);
        self.word(verb);
        let (place, name) = self.root();
        match verb {
            "get" => self.get(place, &name),
            "structs" if self.random.once_in(2) => {}
            "structs" => self.word(&name),
            "diff" => self.diff(place, &name),
            _ => self.calls(place, &name),
        }
        self.message(place, 3)
    }

    /// The words behind those of the struct, of a `get`.
    fn get(&mut self, place: usize, name: &str) {
        self.word(name);
        let examples = self.examples;
        let set = &examples.sets[examples.bases[place].set];
        let schema = set.find_struct(name).unwrap_or(set.struct_schema(0));
        for _ in 0..1 + self.random.below(3) {
            let mut path = words::path(self.random, schema);
            if self.random.once_in(6) {
                path.push_str(".#");
            }
            self.word(&path);
        }
        for option in ["--indent", "--raw"] {
            if self.random.once_in(3) {
                self.word(option);
            }
        }
    }

    /// The words behind those of the set, of a `diff`, and its two messages.
    fn diff(&mut self, place: usize, name: &str) {
        self.word(name);
        for file in ["old", "new"] {
            let bytes = self.message(place, 3);
            self.files.push((file, bytes));
            self.word(file);
        }
    }

    /// The words behind those of the set, of a `patch` or a `new`.
    fn calls(&mut self, place: usize, name: &str) {
        let examples = self.examples;
        let set = &examples.sets[examples.bases[place].set];
        let schema = set.find_struct(name).unwrap_or(set.struct_schema(0));
        let count = self.random.below(7);
        let calls: Vec<String> = (0..count).map(|_| words::call(self.random, name, schema)).collect();
        let is_file = self.random.once_in(4);
        if is_file {
            let text = self.lines(name, &calls);
            self.files.push(("calls", text));
            self.word("--calls");
            self.word("calls");
        }
        if self.random.once_in(2) {
            self.word("--keep-going");
        }
        self.word(name);
        if !is_file {
            self.words.extend(calls);
        }
    }

    /// The file of calls: the lines of the example for an address book, and else these. Some are damaged.
    fn lines(&mut self, name: &str, calls: &[String]) -> Vec<u8> {
        let example = String::from_utf8_lossy(&self.examples.calls);
        let is_example = name == "AddressBook" && self.random.once_in(2);
        let lines: Vec<&str> = match is_example {
            true => example.lines().collect(),
            false => calls.iter().map(String::as_str).collect(),
        };
        let text = changed_lines(self.random, &lines).into_bytes();
        if self.random.once_in(4) {
            damaged(self.random, &text)
        } else {
            text
        }
    }
}

/// Lines in another order, or with some of them changed, doubled or taken away.
fn changed_lines(random: &mut Random, lines: &[&str]) -> String {
    let mut changed: Vec<String> = Vec::new();
    for line in lines {
        match random.below(16) {
            0 => {}
            1 => changed.push(words::changed(random, line)),
            2 => changed.extend([line.to_string(), line.to_string()]),
            3 => changed.insert(random.below(changed.len() + 1), line.to_string()),
            _ => changed.push(line.to_string()),
        }
    }
    changed.join("\n")
}

/// Words as a program is given them: once in a while one is doubled, taken away, moved, changed or no text at all.
fn changed_words(random: &mut Random, mut words: Vec<String>) -> Vec<OsString> {
    if random.once_in(12) && !words.is_empty() {
        let place = random.below(words.len());
        let other = random.below(words.len());
        match random.below(5) {
            0 => words.swap(place, other),
            1 => words.insert(place, words[other].clone()),
            2 => {
                words.remove(place);
            }
            3 => words.insert(
                place,
                random
                    .one_of(&["--indent", "--set", "--help", "", "--", "-"])
                    .to_string(),
            ),
            _ => words[place] = words::changed(random, &words[place]),
        }
    }
    let is_no_text = random.once_in(200);
    let mut given: Vec<OsString> = words
        .into_iter()
        .map(|word| OsString::from(word.replace('\0', "0")))
        .collect();
    if is_no_text {
        given.push(no_text());
    }
    given
}

/// A word that is no UTF-8, where the system has such.
#[cfg(unix)]
fn no_text() -> OsString {
    std::os::unix::ffi::OsStringExt::from_vec(vec![0xff])
}

#[cfg(not(unix))]
fn no_text() -> OsString {
    OsString::from("\u{fffd}")
}
