//! Translates the proved crates to Rust, into cargo's output folder: `rust/README.md` has the rules.

#[allow(dead_code, reason = "the tests of the translation use more of it")]
#[path = "translate/mod.rs"]
mod translate;

use std::env;
use std::path::{Path, PathBuf};
use std::process::ExitCode;
use translate::workspace::{write_changed, Workspace};

fn main() -> ExitCode {
    match run() {
        Ok(()) => ExitCode::SUCCESS,
        Err(error) => {
            eprintln!("{error}");
            ExitCode::FAILURE
        }
    }
}

fn run() -> std::io::Result<()> {
    let root = PathBuf::from(env::var("CARGO_MANIFEST_DIR").map_err(std::io::Error::other)?);
    let out = PathBuf::from(env::var("OUT_DIR").map_err(std::io::Error::other)?);
    for path in ["crates.txt", "rust/build.rs", "rust/translate"] {
        println!("cargo::rerun-if-changed={path}");
    }
    let workspace = Workspace::read(&root)?;
    let production = workspace.production();
    let tests = workspace.tests();
    let mut libraries = String::new();
    let mut test_modules = String::new();
    for one in production.iter().chain(&tests) {
        println!("cargo::rerun-if-changed=crates/{}/src", one.name);
        workspace.write(one, &out)?;
    }
    for one in &production {
        libraries.push_str(&workspace.module(one, &out));
    }
    for one in &tests {
        test_modules.push_str(&workspace.module(one, &out));
    }
    write(&out, "libraries.rs", &libraries)?;
    write(&out, "tests.rs", &test_modules)
}

fn write(folder: &Path, name: &str, text: &str) -> std::io::Result<()> {
    write_changed(&folder.join(name), text)
}
