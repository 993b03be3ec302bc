//! Devices that give little at a time, have little room, and fail.

use std::fmt;
use std::io::{self, Cursor, Read, Write};

/// Gives its bytes some at a time, and then ends or fails.
pub struct Source {
    pub bytes: Cursor<Vec<u8>>,
    pub chunk: usize,
    pub fails: bool,
}

impl Read for Source {
    fn read(&mut self, room: &mut [u8]) -> io::Result<usize> {
        let most = self.chunk.min(room.len());
        match self.bytes.read(&mut room[..most])? {
            0 if self.fails => Err(io::Error::new(io::ErrorKind::Other, "device broken")),
            count => Ok(count),
        }
    }
}

/// Takes as many bytes as it has room for, and then fails. As a writer of text it takes whole pieces alone.
pub struct Sink {
    pub room: usize,
    pub written: Vec<u8>,
}

impl Sink {
    fn left(&self) -> usize {
        self.room - self.written.len()
    }
}

impl Write for Sink {
    fn write(&mut self, piece: &[u8]) -> io::Result<usize> {
        if self.left() == 0 && !piece.is_empty() {
            return Err(io::Error::new(io::ErrorKind::Other, "device full"));
        }
        let count = piece.len().min(self.left());
        self.written.extend_from_slice(&piece[..count]);
        Ok(count)
    }

    fn flush(&mut self) -> io::Result<()> {
        Ok(())
    }
}

impl fmt::Write for Sink {
    fn write_str(&mut self, piece: &str) -> fmt::Result {
        if piece.len() > self.left() {
            return Err(fmt::Error);
        }
        self.written.extend_from_slice(piece.as_bytes());
        Ok(())
    }
}
