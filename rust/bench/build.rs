//! Translates the timed crates and those below them to Rust, as the root's build script does, and gives each timed call
//! its form for programs in C.

#[allow(
    dead_code,
    reason = "the root's build script and the tests of the translation use more of it"
)]
#[path = "../translate/mod.rs"]
mod translate;

use std::env;
use std::fs;
use std::io::{Error, Result};
use std::path::{Path, PathBuf};
use translate::workspace::{write_changed, Crate, Workspace};

/// What makes a timed call one for programs in C, in the proved libraries.
const EXPORTED: &str = "#[unsafe(no_mangle)]";

/// What stands behind that: the call's name is between the two.
const HEAD: &str = "\npub extern \"C\" fn ";
const PARAMETERS: [&str; 2] = [
    "(alloc: Global, message: &[u8], rounds: u64) -> u64 {",
    "(alloc: Global, _message: &[u8], rounds: u64) -> u64 {",
];

fn main() -> Result<()> {
    let here = PathBuf::from(env::var("CARGO_MANIFEST_DIR").map_err(Error::other)?);
    let out = PathBuf::from(env::var("OUT_DIR").map_err(Error::other)?);
    let root = here.join("../..");
    for path in ["crates.txt", "crates", "rust/translate", "rust/bench/build.rs"] {
        println!("cargo::rerun-if-changed={}", root.join(path).display());
    }
    let workspace = Workspace::read(&root)?;
    let mut libraries = String::new();
    for one in timed_and_below(&workspace) {
        workspace.write(one, &out)?;
        if one.is_static {
            write_calls(&workspace, one, &out)?;
        }
        libraries.push_str(&workspace.module(one, &out));
    }
    write_changed(&out.join("libraries.rs"), &libraries)
}

/// The static libraries and the crates that these stand on, in the order of the list.
fn timed_and_below(workspace: &Workspace) -> Vec<&Crate> {
    let timed = workspace.crates.iter().filter(|one| one.is_static);
    workspace.with_all_below(timed.map(|one| one.name.as_str()))
}

/// Makes plain functions of a static library's calls, and adds their forms for C at the end of each file.
fn write_calls(workspace: &Workspace, one: &Crate, folder: &Path) -> Result<()> {
    for file in workspace.files(&one.name)? {
        let path = folder.join(&one.name).join(file.with_extension("rs"));
        let text = fs::read_to_string(&path)?;
        let rust = with_calls(&text).map_err(|what| Error::other(format!("{}: {what}", path.display())))?;
        write_changed(&path, &rust)?;
    }
    Ok(())
}

/// A file with its calls in both forms. Refused where a call is not as `bench/ours.h` declares it.
fn with_calls(text: &str) -> std::result::Result<String, String> {
    let mut parts = text.split(EXPORTED);
    let mut rust = parts.next().unwrap_or_default().to_string();
    let mut calls = String::new();
    for part in parts {
        let line: String = part.lines().take(2).collect();
        let call = part
            .strip_prefix(HEAD)
            .ok_or_else(|| format!("no function for C: {line}"))?;
        let (name, _) = call.split_once('(').ok_or_else(|| format!("no function: {line}"))?;
        if !PARAMETERS
            .iter()
            .any(|parameters| call[name.len()..].starts_with(parameters))
        {
            return Err(format!("a call that C can't make: {line}"));
        }
        // the line of the attribute stays, so that each line keeps its number
        rust.push_str(&format!("\nfn {call}"));
        calls.push_str(&format!("call_for_c!({name}, rust_{name});\n"));
    }
    Ok(rust + &calls)
}
