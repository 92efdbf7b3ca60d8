//! Input and output as Rust's, with a buffer whose memory can be refused.

pub use std::io::*;

use super::alloc::Global;
use super::vec::Vec;
use std::io;

/// A reader with a buffer before it, as Rust's, but for memory that may be refused.
pub struct BufReader<R> {
    inner: R,
    buffer: Vec<u8>,
    at: usize,
    end: usize,
}

impl<R: io::Read> BufReader<R> {
    /// A reader with room for so many bytes.
    pub fn with_capacity(alloc: Global, capacity: usize, inner: R) -> io::Result<Self> {
        let buffer = Vec::from_elem(alloc, 0, capacity).map_err(|_| io::Error::from(io::ErrorKind::OutOfMemory))?;
        Ok(BufReader {
            inner,
            buffer,
            at: 0,
            end: 0,
        })
    }
}

impl<R: io::Read> io::Read for BufReader<R> {
    fn read(&mut self, out: &mut [u8]) -> io::Result<usize> {
        if self.at == self.end {
            if out.len() >= self.buffer.len() {
                return self.inner.read(out);
            }
            self.end = self.inner.read(&mut self.buffer)?;
            self.at = 0;
        }
        let count = out.len().min(self.end - self.at);
        out[..count].copy_from_slice(&self.buffer[self.at..self.at + count]);
        self.at += count;
        Ok(count)
    }
}
