//! Files that are opened and read whole.

use crate::failure::Failure;
use std::fs::File;
use std::io::{self, ErrorKind, Read};

/// The most bytes of a benchmark text.
const MAX_TEXT: usize = 16_777_216;
/// The most bytes of a text that is checked.
const MAX_CERTIFICATE: usize = 1_000_000_000;
/// How many bytes are read at a time.
const PIECE: usize = 16_384;

/// Opens a file.
pub fn open(name: &str) -> Result<File, Failure> {
    File::open(name).map_err(|_| Failure::Open)
}

/// Opens a benchmark text; the name `stdin` is standard input.
pub fn open_text(name: &str) -> Result<Box<dyn Read>, Failure> {
    if name == "stdin" {
        return Ok(Box::new(io::stdin()));
    }
    Ok(Box::new(open(name)?))
}

/// Reads a benchmark text.
pub fn read_text(source: impl Read) -> Result<Vec<u8>, Failure> {
    read_all(source, MAX_TEXT)
}

/// Reads the text that is to be checked.
pub fn read_certificate(source: impl Read) -> Result<Vec<u8>, Failure> {
    read_all(source, MAX_CERTIFICATE)
}

/// Reads a source to its end, at most as many bytes as the limit.
fn read_all(mut source: impl Read, limit: usize) -> Result<Vec<u8>, Failure> {
    let mut text = Vec::new();
    let mut piece = [0; PIECE];
    loop {
        let count = match source.read(&mut piece) {
            Ok(0) => return Ok(text),
            Ok(count) => count,
            Err(error) if error.kind() == ErrorKind::Interrupted => continue,
            Err(_) => return Err(Failure::Device),
        };
        text.try_reserve(count).map_err(|_| Failure::Memory)?;
        text.extend_from_slice(&piece[..count]);
        if text.len() > limit {
            return Err(Failure::TooLong);
        }
    }
}
