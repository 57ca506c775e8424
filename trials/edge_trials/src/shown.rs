//! How calls and bytes are written in the table.

use acq_io::Failed;
use rows::push_text;

/// The number of the call that fails, from 0, or `-` where none does.
pub(crate) fn call_in(word: &str) -> Option<u32> {
    if word == "-" {
        Some(u32::MAX)
    } else {
        word.parse().ok()
    }
}

/// Adds a word, and the bytes behind it as a text, or `nothing`.
pub(crate) fn push_named(text: &mut String, word: &str, bytes: &[u8]) -> Option<()> {
    text.push_str(word).ok()?;
    if bytes.is_empty() {
        return text.push_str(" nothing").ok();
    }
    text.push(' ').ok()?;
    push_text(text, std::str::from_utf8(bytes).ok()?)
}

/// Adds what comes of reading a byte: the byte, `end` or `failed`.
pub(crate) fn push_byte(text: &mut String, got: Result<Option<u8>, Failed>) -> Option<()> {
    match got {
        Ok(Some(b'\n')) => text.push_str("\\n").ok(),
        Ok(Some(byte)) => text.push(char::from(byte)).ok(),
        Ok(None) => text.push_str("end").ok(),
        Err(Failed) => text.push_str("failed").ok(),
    }
}
