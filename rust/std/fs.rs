//! Files by their paths.

use super::rt::Files;
use std::fs::{Metadata, Permissions};
use std::io;

/// What an open file is asked for.
pub trait OpenFile {
    /// Waits until its bytes are on the disk.
    fn sync_all(&self) -> io::Result<()>;

    /// Sets who may read, write and run it.
    fn set_permissions(&self, permissions: Permissions) -> io::Result<()>;
}

impl OpenFile for std::fs::File {
    fn sync_all(&self) -> io::Result<()> {
        std::fs::File::sync_all(self)
    }

    fn set_permissions(&self, permissions: Permissions) -> io::Result<()> {
        std::fs::File::set_permissions(self, permissions)
    }
}

/// What makes files.
pub enum File {}

impl File {
    /// Makes a file at a path where there is none, and opens it.
    pub fn create_new<F: Files>(files: &F, path: &str) -> io::Result<F::File> {
        files.create_new(path)
    }
}

/// Opens the file at a path for reading.
pub fn open<F: Files>(files: &F, path: &str) -> io::Result<F::File> {
    files.open(path)
}

/// What is known of the file at a path.
pub fn metadata<F: Files>(_files: &F, path: &str) -> io::Result<Metadata> {
    std::fs::metadata(path)
}

/// Writes a file at a path.
pub fn write<F: Files>(_files: &F, path: &str, bytes: &[u8]) -> io::Result<()> {
    std::fs::write(path, bytes)
}

/// Puts the file at a path in the place of that at another.
pub fn rename<F: Files>(_files: &F, from: &str, to: &str) -> io::Result<()> {
    std::fs::rename(from, to)
}

/// Removes the file at a path.
pub fn remove_file<F: Files>(_files: &F, path: &str) -> io::Result<()> {
    std::fs::remove_file(path)
}
