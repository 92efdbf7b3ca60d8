//! What a program has of the system.

use super::alloc::Global;
use super::fs::OpenFile;
use std::fs::File;
use std::io::{self, Read, Write};
use std::process;

/// What a program is given when it starts.
pub struct HostRuntime;

/// Files by their paths.
pub trait Files {
    /// An open file.
    type File: Read + Write + OpenFile;

    /// Opens the file at a path for reading.
    fn open(&self, path: &str) -> io::Result<Self::File>;

    /// Makes a file at a path where there is none, and opens it.
    fn create_new(&self, path: &str) -> io::Result<Self::File>;
}

impl Files for HostRuntime {
    type File = File;

    fn open(&self, path: &str) -> io::Result<File> {
        File::open(path)
    }

    fn create_new(&self, path: &str) -> io::Result<File> {
        File::create_new(path)
    }
}

impl HostRuntime {
    /// The program's allocator.
    pub fn alloc(&self) -> Global {
        Global
    }

    /// Standard input, without a buffer.
    pub fn stdin(&self) -> Stream {
        Stream::of(io::stdin())
    }

    /// Standard output, without a buffer: what can't be written is told by the write.
    pub fn stdout(&self) -> Stream {
        Stream::of(io::stdout())
    }

    /// Standard error.
    pub fn stderr(&self) -> Stream {
        Stream::of(io::stderr())
    }
}

/// A standard stream of the program, read or written without a buffer between.
pub struct Stream(Option<File>);

#[cfg(unix)]
impl Stream {
    fn of(stream: impl std::os::fd::AsFd) -> Stream {
        Stream(stream.as_fd().try_clone_to_owned().ok().map(File::from))
    }
}

#[cfg(windows)]
impl Stream {
    fn of(stream: impl std::os::windows::io::AsHandle) -> Stream {
        Stream(stream.as_handle().try_clone_to_owned().ok().map(File::from))
    }
}

/// What stands where a stream could not be had.
fn closed() -> io::Error {
    io::Error::from(io::ErrorKind::NotConnected)
}

impl Read for Stream {
    fn read(&mut self, buffer: &mut [u8]) -> io::Result<usize> {
        self.0.as_mut().ok_or_else(closed)?.read(buffer)
    }
}

impl Write for Stream {
    fn write(&mut self, bytes: &[u8]) -> io::Result<usize> {
        self.0.as_mut().ok_or_else(closed)?.write(bytes).inspect_err(end_unread)
    }

    fn flush(&mut self) -> io::Result<()> {
        self.0.as_mut().ok_or_else(closed)?.flush().inspect_err(end_unread)
    }
}

/// The status of a program that wrote to a pipe that nobody reads, as a shell tells it: 128 and the signal's number.
const UNREAD: i32 = 141;

/// Ends the program where nobody reads what it writes. Rust ignores the signal that would end it without a word.
fn end_unread(error: &io::Error) {
    if error.kind() == io::ErrorKind::BrokenPipe {
        process::exit(UNREAD);
    }
}
