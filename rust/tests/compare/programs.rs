//! Runs of programs, in a folder of their own and with a limit of time.

use super::inputs::Input;
use std::fs::{self, File};
use std::path::{Path, PathBuf};
use std::process::{Child, Command, ExitStatus};
use std::thread;
use std::time::{Duration, Instant};

/// How long a program may run.
const LIMIT: Duration = Duration::from_secs(20);

/// How a program ended, and what it wrote.
#[derive(PartialEq, Eq)]
pub enum Ended {
    Whole {
        status: ExitStatus,
        output: Vec<u8>,
        errors: Vec<u8>,
    },
    TooSlow,
}

impl Ended {
    /// The exit status, where there is one.
    pub fn status(&self) -> Option<i32> {
        match self {
            Ended::Whole { status, .. } => status.code(),
            Ended::TooSlow => None,
        }
    }
}

impl std::fmt::Debug for Ended {
    fn fmt(&self, f: &mut std::fmt::Formatter<'_>) -> std::fmt::Result {
        match self {
            Ended::TooSlow => write!(f, "too slow"),
            Ended::Whole { status, output, errors } => {
                let text = |bytes: &[u8]| bytes.escape_ascii().to_string();
                write!(
                    f,
                    "{status}\n  output \"{}\"\n  error \"{}\"",
                    text(output),
                    text(errors)
                )
            }
        }
    }
}

/// The folder in which an input's files stand and its programs run.
pub struct Scratch(PathBuf);

impl Scratch {
    /// A folder for an input, by its seed. Several tests run at a time, so the thread is in its name.
    pub fn new(seed: u64) -> Scratch {
        let thread = format!("{:?}", thread::current().id());
        let number: String = thread.chars().filter(char::is_ascii_digit).collect();
        let folder = Path::new(env!("CARGO_TARGET_TMPDIR")).join(format!("compare-{seed}-{number}"));
        fs::create_dir_all(&folder).expect("cargo's folder can be written");
        Scratch(folder)
    }

    /// Writes the input's files.
    pub fn prepare(&self, input: &Input) {
        for (name, bytes) in &input.files {
            fs::write(self.0.join(name), bytes).expect("cargo's folder can be written");
        }
        fs::write(self.0.join("stdin"), &input.stdin).expect("cargo's folder can be written");
    }

    /// Runs a program on the input.
    pub fn run(&self, program: &Path, input: &Input) -> Ended {
        let create = |name| File::create(self.0.join(name)).expect("cargo's folder can be written");
        let mut command = Command::new(program);
        command.args(&input.words).current_dir(&self.0);
        command.stdin(File::open(self.0.join("stdin")).expect("the file was written"));
        command.stdout(create("stdout")).stderr(create("stderr"));
        let mut child = command
            .spawn()
            .unwrap_or_else(|error| panic!("{}: {error}", program.display()));
        let Some(status) = wait(&mut child) else {
            return Ended::TooSlow;
        };
        let written = |name| fs::read(self.0.join(name)).expect("the file was created");
        Ended::Whole {
            status,
            output: written("stdout"),
            errors: written("stderr"),
        }
    }

    /// Takes the folder away.
    pub fn end(self) {
        fs::remove_dir_all(&self.0).expect("the folder is ours");
    }
}

/// Waits for a program's end, and ends it where its time is over.
fn wait(child: &mut Child) -> Option<ExitStatus> {
    let started = Instant::now();
    let mut pause = Duration::from_micros(100);
    loop {
        if let Some(status) = child.try_wait().expect("the child is ours") {
            return Some(status);
        }
        if started.elapsed() > LIMIT {
            // it may have ended just now, which is too late as well
            let _ = child.kill();
            child.wait().expect("the child is ours");
            return None;
        }
        thread::sleep(pause);
        pause = (pause * 3 / 2).min(Duration::from_millis(20));
    }
}
