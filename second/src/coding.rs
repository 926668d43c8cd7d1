//! Codes printed for reading: that of a file, and those of keys and messages of
//! many lengths.

use crate::code;
use crate::refusal::ACCEPTED;
use std::ffi::OsStr;

/// Key lengths on both sides of a block, and of two.
const KEYS: [usize; 7] = [0, 1, 63, 64, 65, 128, 200];

/// Message lengths on both sides of where the padding needs a block more.
const MESSAGES: [usize; 11] = [0, 1, 55, 56, 63, 64, 65, 119, 120, 200, 4096];

/// The code of one file's bytes under another's, with an LF; a message where a
/// file cannot be read.
pub fn of_files(key: &OsStr, file: &OsStr) -> Result<String, String> {
    let read = |path: &OsStr| {
        std::fs::read(path).map_err(|error| format!("{}: {error}", path.to_string_lossy()))
    };
    Ok(hex_of(&read(key)?, &read(file)?) + "\n")
}

/// Lines of key length, message length and code, with a blank between. Byte i of
/// a key is (7i + its length) mod 256, of a message (13i + its length) mod 256.
pub fn of_lengths() -> String {
    let made = |length: usize, factor: usize| -> Vec<u8> {
        (0..length).map(|i| (i * factor + length) as u8).collect()
    };
    let mut printed = String::new();
    for key in KEYS {
        for message in MESSAGES {
            let code = hex_of(&made(key, 7), &made(message, 13));
            printed.push_str(&format!("{key} {message} {code}\n"));
        }
    }
    printed
}

fn hex_of(key: &[u8], message: &[u8]) -> String {
    let coded = code::code_of(key, message);
    assert_eq!(coded.number, ACCEPTED, "no memory holds what is refused");
    let digits = coded.code.iter().map(|byte| format!("{byte:02x}"));
    digits.collect()
}
