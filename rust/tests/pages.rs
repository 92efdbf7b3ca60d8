//! The samples of the pages: each command in a block that begins with three backticks and `console` is run, and prints what
//! the page shows below it.
//!
//! A command stands behind `$ `, and goes on in the next line where it ends with a backslash or a bar. The commands of a page
//! are run one after another by a shell, in a folder that has the repository's `examples`. What they print is standard output
//! and standard error together.
#![forbid(unsafe_code)]

use std::env;
use std::ffi::OsString;
use std::fs;
use std::path::{Path, PathBuf};
use std::process::{Command, Stdio};

/// A command of a page, its line there, and what it prints by the page.
struct Sample {
    line: usize,
    command: String,
    printed: String,
}

/// The commands of a page, in order.
fn samples(page: &str) -> Vec<Sample> {
    let mut found: Vec<Sample> = Vec::new();
    let mut is_inside = false;
    for (index, line) in page.lines().enumerate() {
        if line.starts_with("```") {
            is_inside = !is_inside && line == "```console";
        } else if !is_inside {
            continue;
        } else if let Some(command) = line.strip_prefix("$ ") {
            found.push(Sample {
                line: index + 1,
                command: command.to_owned(),
                printed: String::new(),
            });
        } else {
            let sample = found.last_mut().expect("a block begins with a command");
            if sample.command.ends_with(['\\', '|']) {
                sample.command = format!("{}\n{line}", sample.command);
            } else {
                sample.printed = format!("{}{line}\n", sample.printed);
            }
        }
    }
    found
}

/// A new folder for the commands of a page, with the examples in it.
fn folder(name: &str) -> PathBuf {
    let folder = Path::new(env!("CARGO_TARGET_TMPDIR")).join("pages").join(name);
    let examples = Path::new(env!("CARGO_MANIFEST_DIR")).join("examples");
    let _ = fs::remove_dir_all(&folder);
    fs::create_dir_all(&folder).expect("the folder is made");
    // a link would be refused by the prover's gate, which looks at all files of a checkout
    copy_folder(&examples, &folder.join("examples"));
    folder
}

/// Copies a folder with all that is in it.
fn copy_folder(from: &Path, to: &Path) {
    fs::create_dir_all(to).expect("the folder is made");
    for entry in fs::read_dir(from).expect("the folder can be read").flatten() {
        let (path, target) = (entry.path(), to.join(entry.file_name()));
        if path.is_dir() {
            copy_folder(&path, &target);
        } else {
            fs::copy(&path, &target).expect("the file is copied");
        }
    }
}

/// Where a shell looks for commands: first where cargo puts the programs.
fn search_path() -> OsString {
    let programs = Path::new(env!("CARGO_BIN_EXE_riftcalico"))
        .parent()
        .expect("a program stands in a folder");
    let others = env::var_os("PATH").unwrap_or_default();
    let folders = std::iter::once(programs.to_owned()).chain(env::split_paths(&others));
    env::join_paths(folders).expect("no folder has a colon in its name")
}

/// Runs the commands of a page, at least so many.
fn run(page: &str, at_least: usize) {
    let text = fs::read_to_string(Path::new(env!("CARGO_MANIFEST_DIR")).join(page)).expect("the page is there");
    let folder = folder(&page.replace('/', "_"));
    let samples = samples(&text);
    assert!(samples.len() >= at_least, "{page} has {} commands", samples.len());
    let mut wrong = String::new();
    for sample in samples {
        let ended = Command::new("sh")
            .arg("-c")
            .arg(format!("exec 2>&1\n{}", sample.command))
            .current_dir(&folder)
            .env("PATH", search_path())
            .stdin(Stdio::null())
            .output()
            .expect("the shell starts");
        let printed = String::from_utf8_lossy(&ended.stdout);
        if printed != sample.printed {
            wrong += &format!(
                "{page}:{}: {}\nprinted:\n{printed}the page has:\n{}\n",
                sample.line, sample.command, sample.printed
            );
        }
    }
    assert!(wrong.is_empty(), "{wrong}");
}

#[test]
fn the_front_page_shows_what_is_printed() {
    run("README.md", 6);
}

#[test]
fn the_manual_shows_what_is_printed() {
    run("docs/PROGRAM.md", 40);
}

#[test]
fn the_page_of_the_examples_shows_what_is_printed() {
    run("examples/README.md", 1);
}

/// What a shell prints of a command in the folder of the examples, if it ends well.
fn printed(command: &str) -> Option<Vec<u8>> {
    let ended = Command::new("sh")
        .arg("-c")
        .arg(command)
        .current_dir(Path::new(env!("CARGO_MANIFEST_DIR")).join("examples"))
        .env("PATH", search_path())
        .stdin(Stdio::null())
        .output()
        .expect("the shell starts");
    ended.status.success().then_some(ended.stdout)
}

#[test]
fn the_requests_are_those_of_their_schemas() {
    if printed("command -v capnp").is_none() {
        eprintln!("the tool `capnp` is not there, so no request is compared");
        return;
    }
    for schema in ["sets/addressbook", "sets/account_1", "sets/account_3", "json"] {
        let (folder, name) = schema.split_once('/').unwrap_or((".", schema));
        let made = format!("cd {folder} && capnp compile -o- {name}.capnp | riftcalico schemas");
        let set = printed(&made).expect("a set is made");
        assert!(!set.is_empty(), "{made}");
        let kept = format!("riftcalico schemas < {name}.request");
        assert!(printed(&kept) == Some(set), "{kept}");
    }
}
