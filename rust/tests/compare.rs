//! The cargo-built programs beside the proved ones: alike in status, output and error, on inputs that are made of the
//! examples by seeded changes.
//!
//! The proved programs stand where the prover puts them, `crates/NAME/out/NAME`. Where one isn't there, or is older
//! than its sources, standard error says so, and nothing is compared of it. With `RIFTCALICO_COMPARE=all` in the
//! environment, as the gate has it after the proofs, that is a failure.
#![forbid(unsafe_code)]

mod common;

#[path = "compare/inputs.rs"]
mod inputs;
#[path = "compare/programs.rs"]
mod programs;

use common::bases::{read, Examples};
use common::threads::on_all_processors;
use inputs::{Input, PROGRAMS};
use programs::{Ended, Scratch};
use std::io::Write;
use std::path::{Path, PathBuf};
use std::time::SystemTime;

/// How many inputs are made, over all three programs.
const INPUTS: u64 = 20_000;

/// The program that cargo built.
fn built(program: usize) -> PathBuf {
    let paths = [
        env!("CARGO_BIN_EXE_capnp_show"),
        env!("CARGO_BIN_EXE_capnp_set"),
        env!("CARGO_BIN_EXE_riftcalico"),
    ];
    PathBuf::from(paths[program])
}

/// The program that the prover built, or why there is none to compare with.
fn proved(program: usize) -> Result<PathBuf, &'static str> {
    let name = PROGRAMS[program];
    let path = Path::new(env!("CARGO_MANIFEST_DIR"))
        .join("crates")
        .join(name)
        .join("out")
        .join(name);
    let Ok(built) = path.metadata().and_then(|file| file.modified()) else {
        return Err("there is no proved program");
    };
    if sources(name).iter().any(|folder| is_newer(folder, built)) {
        return Err("the proved program is older than its sources");
    }
    Ok(path)
}

/// The folders of the sources of a program, and of all crates that it stands on, by `crates.txt`.
fn sources(name: &str) -> Vec<PathBuf> {
    let root = Path::new(env!("CARGO_MANIFEST_DIR"));
    let list = String::from_utf8(read("crates.txt")).expect("the list of crates is a text");
    let mut found: Vec<&str> = Vec::new();
    let mut waiting = vec![name];
    while let Some(one) = waiting.pop() {
        let named = |line: &'_ str| line.split_once(':').is_some_and(|(head, _)| head == one);
        let Some(line) = list.lines().find(|line| named(line)).filter(|_| !found.contains(&one)) else {
            continue;
        };
        found.push(one);
        waiting.extend(line.split_once(':').map_or("", |(_, below)| below).split_whitespace());
    }
    let folders = found.iter().map(|one| root.join("crates").join(one).join("src"));
    folders.filter(|folder| folder.is_dir()).collect()
}

/// Whether anything in a folder is newer than a time.
fn is_newer(path: &Path, time: SystemTime) -> bool {
    let changed = path
        .metadata()
        .and_then(|file| file.modified())
        .expect("the sources can be read");
    let mut inner = std::fs::read_dir(path).into_iter().flatten().flatten();
    changed > time || inner.any(|entry| is_newer(&entry.path(), time))
}

/// What came of an input.
#[derive(Debug, PartialEq, Eq)]
enum Compared {
    Alike { status: Option<i32> },
    BothTooSlow,
    Different(String),
}

/// Runs two programs on an input, and compares how they end.
fn compare(scratch: &Scratch, one: &Path, another: &Path, input: &Input) -> Compared {
    scratch.prepare(input);
    let first = scratch.run(one, input);
    let second = scratch.run(another, input);
    match (&first, &second) {
        (Ended::TooSlow, Ended::TooSlow) => Compared::BothTooSlow,
        _ if first == second => Compared::Alike { status: first.status() },
        _ => Compared::Different(format!(
            "{input:?}\n{}: {first:?}\n{}: {second:?}",
            one.display(),
            another.display()
        )),
    }
}

/// Writes a line on standard error, also where the output of tests that pass is kept back.
fn say(line: &str) {
    writeln!(std::io::stderr(), "{line}").expect("standard error is open");
}

/// How many inputs ended alike, by status, of a program; and where they didn't.
#[derive(Default)]
struct Tally {
    statuses: [u64; 4],
    too_slow: u64,
    different: Vec<String>,
}

impl Tally {
    fn add(&mut self, compared: Compared) {
        match compared {
            Compared::Alike { status } => {
                let place = status.and_then(|status| usize::try_from(status).ok()).unwrap_or(3);
                self.statuses[place.min(3)] += 1;
            }
            Compared::BothTooSlow => self.too_slow += 1,
            Compared::Different(what) => self.different.push(what),
        }
    }

    fn tell(&self, name: &str) {
        let [zero, one, two, other] = self.statuses;
        let statuses = format!("{zero} with status 0, {one} with 1, {two} with 2, {other} otherwise");
        say(&format!(
            "{name}: alike on {statuses}; both too slow on {}",
            self.too_slow
        ));
    }
}

/// Compares all inputs of the programs that stand twice, and answers a tally of each program.
fn compare_all(pairs: &[Option<(PathBuf, PathBuf)>; 3], count: u64) -> [Tally; 3] {
    let examples = Examples::read();
    let compared = on_all_processors(count, |seed| {
        let input = inputs::made(&examples, seed);
        let (one, another) = pairs[input.program].as_ref()?;
        let scratch = Scratch::new(seed);
        let came = compare(&scratch, one, another, &input);
        scratch.end();
        Some((input.program, came))
    });
    let mut tallies: [Tally; 3] = Default::default();
    for (program, came) in compared.into_iter().flatten() {
        tallies[program].add(came);
    }
    tallies
}

#[test]
fn both_builds_end_alike() {
    let proved = [0, 1, 2].map(proved);
    let pair = |program: usize| proved[program].clone().ok().map(|proved| (proved, built(program)));
    let count = if proved.iter().any(Result::is_ok) { INPUTS } else { 0 };
    let tallies = compare_all(&[0, 1, 2].map(pair), count);
    let mut different = Vec::new();
    for (program, tally) in tallies.iter().enumerate() {
        match proved[program] {
            Ok(_) => tally.tell(PROGRAMS[program]),
            Err(why) => {
                let must_stand = std::env::var("RIFTCALICO_COMPARE").is_ok_and(|wanted| wanted == "all");
                assert!(!must_stand, "{}: {why}", PROGRAMS[program]);
                say(&format!("{}: {why}, so nothing is compared", PROGRAMS[program]));
            }
        }
        assert_eq!(tally.statuses[3], 0, "docs/PROGRAM.md has no other status");
        different.extend(&tally.different);
    }
    let first: Vec<String> = different.iter().take(5).map(|what| what.to_string()).collect();
    assert!(
        different.is_empty(),
        "{} inputs end differently:\n{}",
        different.len(),
        first.join("\n\n")
    );
}

/// Another program in place of each is found out, so alike means something.
#[test]
fn other_programs_are_found_out() {
    let pairs = [0, 1, 2].map(|program| Some((built(program), built((program + 1) % 3))));
    for tally in compare_all(&pairs, 300) {
        let alike: u64 = tally.statuses.iter().sum();
        assert!(
            !tally.different.is_empty() && tally.different.len() as u64 > alike,
            "{alike} inputs end alike"
        );
    }
}

/// A program ends alike with itself, so differences are the programs'.
#[test]
fn a_program_ends_alike_with_itself() {
    let pairs = [0, 1, 2].map(|program| Some((built(program), built(program))));
    for tally in compare_all(&pairs, 300) {
        assert!(tally.statuses[0] > 0 && tally.statuses[1] > 0, "{:?}", tally.statuses);
        assert!(tally.different.is_empty(), "{}", tally.different.join("\n\n"));
    }
}
