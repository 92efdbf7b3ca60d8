//! The repository's crates, and the files that are made of them.

use super::{checks, handles, Place, Translation};
use std::collections::BTreeSet;
use std::fs;
use std::io::{Error, Result};
use std::path::{Path, PathBuf};

/// A crate of the repository.
#[derive(Clone, Debug, PartialEq, Eq)]
pub struct Crate {
    pub name: String,
    /// The crates that it names; these may name others.
    pub below: Vec<String>,
    /// Whether it is a static library for programs in C.
    pub is_static: bool,
    /// Whether it has a `main`.
    pub is_program: bool,
}

/// The crates, as `crates.txt` lists them.
pub struct Workspace {
    pub root: PathBuf,
    pub crates: Vec<Crate>,
}

/// The programs that the cargo crate has too.
pub const PROGRAMS: [&str; 3] = ["capnp_show", "capnp_set", "riftcalico"];

/// The crate whose items the cargo crate's face hands on, from the crates below.
const FACE: &str = "capnp";

/// What the compiler says of the translated modules and is right so, each with its reason.
const MODULE_ALLOWS: &str = "\
#[allow(dead_code, reason = \"each crate has calls that the others, or the face, don't make\")]
#[allow(unused_imports, reason = \"what only a contract named is still imported\")]
#[allow(unused_variables, reason = \"laws have bodies without code\")]
#[allow(unused_labels, reason = \"a proof names a loop by its label\")]
#[allow(unused_attributes, reason = \"sections are added to documentation wherever a call requires something\")]
#[allow(clippy::all, reason = \"the text is that of the proved source, and another form may have no proof\")]
#[allow(missing_docs, reason = \"what the face does not hand on is documented where its name does not say it\")]
";

impl Workspace {
    /// Reads `crates.txt` at the root of the repository.
    pub fn read(root: &Path) -> Result<Workspace> {
        let path = root.join("crates.txt");
        let mut crates: Vec<Crate> = Vec::new();
        for (number, line) in fs::read_to_string(&path)?.lines().enumerate() {
            if line.trim().is_empty() || line.starts_with('#') {
                continue;
            }
            let one = crate_of(root, line).filter(|one| !crates.iter().any(|other| other.name == one.name));
            crates.push(one.ok_or_else(|| told(&path, &[format!("{}: {line}", number + 1)]))?);
        }
        Ok(Workspace {
            root: root.to_path_buf(),
            crates,
        })
    }

    /// The names of all crates.
    pub fn names(&self) -> Vec<String> {
        self.crates.iter().map(|one| one.name.clone()).collect()
    }

    /// The crates of these names, and all that they stand on, in the order of the list.
    pub fn with_all_below<'a>(&'a self, names: impl IntoIterator<Item = &'a str>) -> Vec<&'a Crate> {
        let mut wanted: BTreeSet<&str> = BTreeSet::new();
        let mut waiting: Vec<&str> = names.into_iter().collect();
        while let Some(name) = waiting.pop() {
            if wanted.insert(name) {
                let found = self.crates.iter().find(|one| one.name == name);
                waiting.extend(found.iter().flat_map(|one| one.below.iter().map(String::as_str)));
            }
        }
        self.crates
            .iter()
            .filter(|one| wanted.contains(one.name.as_str()))
            .collect()
    }

    /// The programs, and all crates that these and the face stand on, in the order of the list.
    pub fn production(&self) -> Vec<&Crate> {
        // the face of the cargo crate itself is written in Rust
        let mut crates = self.with_all_below(PROGRAMS.into_iter().chain([FACE]));
        crates.retain(|one| one.name != FACE);
        crates
    }

    /// The libraries that neither the programs nor the face stand on, proved callers and laws, which tests call.
    pub fn tests(&self) -> Vec<&Crate> {
        let production = self.production();
        let is_test = |one: &&Crate| !one.is_static && !one.is_program && !production.contains(one);
        self.crates.iter().filter(is_test).collect()
    }

    /// The files of a crate, by their paths below its `src`.
    pub fn files(&self, name: &str) -> Result<Vec<PathBuf>> {
        let source = self.root.join("crates").join(name).join("src");
        let mut files = Vec::new();
        let mut folders = vec![source.clone()];
        while let Some(folder) = folders.pop() {
            for entry in fs::read_dir(&folder)? {
                let path = entry?.path();
                if path.is_dir() {
                    folders.push(path);
                } else if path.extension().is_some_and(|ending| ending == "rt") {
                    files.push(path.strip_prefix(&source).map_err(Error::other)?.to_path_buf());
                }
            }
        }
        files.sort();
        Ok(files)
    }

    /// Where a file of a crate stands.
    pub fn path(&self, name: &str, file: &Path) -> PathBuf {
        self.root.join("crates").join(name).join("src").join(file)
    }

    /// Translates the files of a crate into a folder. What no rule knows is told with its file, line and words.
    pub fn write(&self, one: &Crate, folder: &Path) -> Result<()> {
        let libraries = self.names();
        let files = self.files(&one.name)?;
        let named = checks::files_of(&one.name).chain(handles::files_of(&one.name));
        if let Some(missing) = named
            .into_iter()
            .find(|file| !files.iter().any(|one| one == Path::new(file)))
        {
            return Err(Error::other(format!(
                "{}: no file {missing}, which has a check",
                one.name
            )));
        }
        for file in files {
            let path = self.path(&one.name, &file);
            let text = fs::read_to_string(&path)?;
            let place = Place {
                library: &one.name,
                file: &file.to_string_lossy(),
                libraries: &libraries,
            };
            let translation = Translation::new(&place, &text).map_err(|lines| told(&path, &lines))?;
            if !translation.missing().is_empty() {
                return Err(told(&path, translation.missing()));
            }
            let target = folder.join(&one.name).join(file.with_extension("rs"));
            fs::create_dir_all(target.parent().unwrap_or(folder))?;
            write_changed(&target, &translation.rust())?;
        }
        Ok(())
    }

    /// A line that makes a crate in a folder a module.
    pub fn module(&self, one: &Crate, folder: &Path) -> String {
        let main = if one.is_program { "main.rs" } else { "lib.rs" };
        let path = folder.join(&one.name).join(main);
        format!("{MODULE_ALLOWS}#[path = {path:?}]\nmod {};\n\n", one.name)
    }
}

/// Writes a file, where it isn't there with this text already.
pub fn write_changed(path: &Path, text: &str) -> Result<()> {
    if fs::read_to_string(path).is_ok_and(|old| old == text) {
        return Ok(());
    }
    fs::write(path, text)
}

/// Crates that are not of the repository; what is used of them a rule writes out.
const OUTSIDE: [&str; 1] = ["thiserror"];

/// The crate of a line of `crates.txt`; none where a word of it is not known.
fn crate_of(root: &Path, line: &str) -> Option<Crate> {
    let (head, below) = line.split_once(':')?;
    let head: Vec<&str> = head.split_whitespace().collect();
    let (name, is_static) = match head[..] {
        [name] => (name, false),
        [name, "staticlib"] => (name, true),
        _ => return None,
    };
    let is_there = |name: &str| root.join("crates").join(name).is_dir();
    let below: Vec<&str> = below
        .split_whitespace()
        .filter(|name| !OUTSIDE.contains(name))
        .collect();
    if !is_there(name) || !below.iter().all(|name| is_there(name)) {
        return None;
    }
    Some(Crate {
        name: name.to_string(),
        below: below.iter().map(|name| name.to_string()).collect(),
        is_static,
        is_program: root.join("crates").join(name).join("src/main.rt").is_file(),
    })
}

/// The parts of a file that no rule knows, as one error.
fn told(path: &Path, lines: &[String]) -> Error {
    let lines: Vec<String> = lines.iter().map(|line| format!("{}:{line}", path.display())).collect();
    Error::other(lines.join("\n"))
}
