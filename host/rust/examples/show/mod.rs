//! What the examples share beside the song: the bundle's bytes, numbers with commas, the progress line.
#![allow(dead_code)] // Each example uses some of it.
use std::io::{stderr, IsTerminal};

/// The repository's bundle.
pub fn bundle_bytes() -> Result<Vec<u8>, String> {
    const PATH: &str = concat!(env!("CARGO_MANIFEST_DIR"), "/../../data/bundle.bin");
    std::fs::read(PATH).map_err(|error| format!("{PATH}: {error}"))
}

/// A number with a comma after each three digits from the right.
pub fn grouped(number: usize) -> String {
    let digits = number.to_string();
    let mut text = String::new();
    for (place, digit) in digits.chars().enumerate() {
        if place > 0 && (digits.len() - place) % 3 == 0 {
            text.push(',');
        }
        text.push(digit);
    }
    text
}

/// Shows how far long work is, on standard error if that is a terminal: a line that the next one takes the place of.
pub fn progress(text: &str) {
    if stderr().is_terminal() {
        eprint!("\r{text:70}");
    }
}

/// Takes the progress line away.
pub fn progress_done() {
    progress("");
    if stderr().is_terminal() {
        eprint!("\r");
    }
}
