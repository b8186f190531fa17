//! Splits a line into words, and parses numbers, indexes, generations and pointers.

use crate::pointer::{Generation, Inx, P0, pointer};

/// The maximum length of a line in bytes.
pub const MAX_LINE_LENGTH: usize = 200;

/// Returns the words of a line, which are separated by spaces. A carriage return at its end is ignored.
pub fn words_of(line: &[u8]) -> Vec<&[u8]> {
    let line = line.strip_suffix(b"\r").unwrap_or(line);
    line.split(|byte| *byte == b' ')
        .filter(|word| !word.is_empty())
        .collect()
}

/// Parses a number of up to ten decimal digits that fits in 32 bits.
pub fn number(word: &[u8]) -> Option<u32> {
    if word.len() > 10 || !word.iter().all(u8::is_ascii_digit) {
        return None;
    }
    std::str::from_utf8(word).ok()?.parse().ok()
}

/// Parses an index.
pub fn index(word: &[u8]) -> Option<Inx> {
    Inx::new(number(word)?)
}

/// Parses a generation.
pub fn generation(word: &[u8]) -> Option<Generation> {
    Generation::new(number(word)?)
}

/// Parses a pointer: an index, a dot and a generation.
pub fn pointer_word(word: &[u8]) -> Option<P0> {
    let dot = word.iter().position(|byte| *byte == b'.')?;
    Some(pointer(index(&word[..dot])?, generation(&word[dot + 1..])?))
}
