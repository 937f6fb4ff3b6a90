//! Files and standard input.

use crate::answer::{shown, Failure};
use std::{
    ffi::OsStr,
    fs::File,
    io::{self, Read},
};

/// The file with this name; `-` is standard input.
pub fn open(name: &OsStr) -> Result<Box<dyn Read>, Failure> {
    if name == "-" {
        return Ok(Box::new(io::stdin().lock()));
    }
    match File::open(name) {
        Ok(file) => Ok(Box::new(file)),
        Err(error) => Err(Failure::file(name, error)),
    }
}

/// All bytes of a file that has so many at most.
pub fn all(name: &OsStr, most: usize) -> Result<Vec<u8>, Failure> {
    let bytes = front(name, open(name)?, most.saturating_add(1))?;
    let name = shown(name);
    match bytes.len() > most {
        true => Err(Failure::TooLong { name, most }),
        false => Ok(bytes),
    }
}

/// The largest packet.
const PACKET: usize = 262_144;

/// So much of a file as a packet can have, and a byte more, enough for the library to refuse it.
pub fn packet(name: &OsStr) -> Result<Vec<u8>, Failure> {
    front(name, open(name)?, PACKET.saturating_add(1))
}

/// The first bytes of a file, so many at most.
pub fn front(name: &OsStr, file: impl Read, most: usize) -> Result<Vec<u8>, Failure> {
    let mut bytes = Vec::new();
    match file.take(most as u64).read_to_end(&mut bytes) {
        Ok(_) => Ok(bytes),
        Err(error) => Err(Failure::file(name, error)),
    }
}
