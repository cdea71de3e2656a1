//! What is stored for a program of `crates/`: its input and its output, line by line.

// Each program that takes this file in uses only a part of it.
#![allow(dead_code)]

use std::path::PathBuf;

/// The lines of `stdin` or `stdout`.
pub fn lines(program: &str, name: &str) -> Vec<String> {
    let root = PathBuf::from(env!("CARGO_MANIFEST_DIR")).join("../..");
    let path = root.join("crates").join(program).join(name);
    let text = std::fs::read_to_string(&path).unwrap_or_else(|error| panic!("{}: {error}", path.display()));
    text.lines().map(String::from).collect()
}

pub fn bytes_of(digits: &str) -> Vec<u8> {
    assert_eq!(digits.len() % 2, 0);
    (0..digits.len() / 2)
        .map(|k| u8::from_str_radix(&digits[2 * k..2 * k + 2], 16).unwrap())
        .collect()
}

pub fn words_of(digits: &str) -> Vec<u32> {
    let bytes = bytes_of(digits);
    assert_eq!(bytes.len() % 4, 0);
    let fours = bytes.chunks(4).map(|four| four.try_into().expect("four bytes"));
    fours.map(u32::from_be_bytes).collect()
}

pub fn word_of(digits: &str) -> u32 {
    let words = words_of(digits);
    assert_eq!(words.len(), 1);
    words[0]
}

/// Says which line it was if any check fails while its call is replayed.
pub struct Line<'a>(pub usize, pub &'a str);

impl Drop for Line<'_> {
    fn drop(&mut self) {
        if std::thread::panicking() {
            eprintln!("line {}: {}", self.0, self.1);
        }
    }
}
