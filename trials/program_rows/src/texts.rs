//! Texts as the table writes them, and texts as a report shows them.

use std::alloc::{AllocError, Global};

/// A text that the table gives a name.
#[derive(Drop)]
struct Named {
    name: String,
    bytes: Vec<u8>,
}

/// Texts by name.
#[derive(Drop)]
pub(crate) struct Texts {
    list: Vec<Named>,
}

impl Texts {
    pub(crate) fn new(alloc: Global) -> Texts {
        Texts {
            list: Vec::new(alloc),
        }
    }

    /// The text of this name.
    fn find(&self, name: &str) -> Option<&[u8]> {
        for text in &self.list {
            if text.name.as_str() == name {
                return Some(text.bytes.as_slice());
            }
        }
        None
    }

    /// Adds a text. False where there is one of this name, or what it stands for isn't told.
    pub(crate) fn name(
        &mut self,
        alloc: Global,
        name: &str,
        written: &str,
    ) -> Result<bool, AllocError> {
        let is_new = self.find(name).is_none();
        let mut bytes = Vec::new(alloc);
        let is_read = add_written(self, written, &mut bytes)?;
        self.put(String::from_str(alloc, name)?, bytes)?;
        Ok(is_new && is_read)
    }

    fn put(&mut self, name: String, bytes: Vec<u8>) -> Result<(), AllocError> {
        self.list.push(Named { name, bytes })?;
        Ok(())
    }

    /// Adds a piece at the end of the last text. False where there is none, or what the piece
    /// stands for isn't told.
    pub(crate) fn lengthen(&mut self, alloc: Global, written: &str) -> Result<bool, AllocError> {
        let mut bytes = Vec::new(alloc);
        let is_read = add_written(self, written, &mut bytes)?;
        let Some(last) = self.list.last_mut() else {
            return Ok(false);
        };
        last.bytes.extend_from_slice(&bytes)?;
        Ok(is_read)
    }
}

/// Letters behind a backslash, and the bytes that they stand for.
const LETTERS: [(char, u8); 4] = [('n', b'\n'), ('r', b'\r'), ('t', b'\t'), ('s', b' ')];

/// Adds what a text stands for. False where something behind a backslash stands for nothing.
pub(crate) fn add_written(
    texts: &Texts,
    written: &str,
    bytes: &mut Vec<u8>,
) -> Result<bool, AllocError> {
    let mut is_first = true;
    for part in written.split('\\') {
        if is_first {
            bytes.extend_from_slice(part.as_bytes())?;
        } else if !add_escaped(texts, part, bytes)? {
            return Ok(false);
        }
        is_first = false;
    }
    Ok(true)
}

/// Adds what stands behind a backslash, up to the next one.
fn add_escaped(texts: &Texts, part: &str, bytes: &mut Vec<u8>) -> Result<bool, AllocError> {
    for (letter, byte) in LETTERS {
        if let Some(rest) = part.strip_prefix(letter) {
            bytes.push(byte)?;
            bytes.extend_from_slice(rest.as_bytes())?;
            return Ok(true);
        }
    }
    if let Some(rest) = part.strip_prefix('(') {
        return add_named(texts, rest, bytes);
    }
    if let Some(rest) = part.strip_prefix('*') {
        return add_again(rest, bytes);
    }
    match part.strip_prefix('x') {
        Some(rest) => add_byte(rest, bytes),
        None => Ok(false),
    }
}

/// `NAME)`: the text of this name.
fn add_named(texts: &Texts, part: &str, bytes: &mut Vec<u8>) -> Result<bool, AllocError> {
    let Some((name, rest)) = part.split_once(')') else {
        return Ok(false);
    };
    let Some(text) = texts.find(name) else {
        return Ok(false);
    };
    bytes.extend_from_slice(text)?;
    bytes.extend_from_slice(rest.as_bytes())?;
    Ok(true)
}

/// `N;`: the last byte so often that it stands there N times.
fn add_again(part: &str, bytes: &mut Vec<u8>) -> Result<bool, AllocError> {
    let Some((count, rest)) = part.split_once(';') else {
        return Ok(false);
    };
    let Ok(count) = count.parse::<u32>() else {
        return Ok(false);
    };
    let Some(last) = bytes.last() else {
        return Ok(false);
    };
    let last = *last;
    for _ in 1..count {
        bytes.push(last)?;
    }
    bytes.extend_from_slice(rest.as_bytes())?;
    Ok(true)
}

/// `HH`: the byte that two hexadecimal digits write.
fn add_byte(part: &str, bytes: &mut Vec<u8>) -> Result<bool, AllocError> {
    let Some((digits, rest)) = part.split_at_checked(2) else {
        return Ok(false);
    };
    let Ok(byte) = u8::from_str_radix(digits, 16) else {
        return Ok(false);
    };
    bytes.push(byte)?;
    bytes.extend_from_slice(rest.as_bytes())?;
    Ok(true)
}

/// Bytes on one line, in the table's own writing.
pub(crate) fn shown(alloc: Global, bytes: &[u8]) -> Result<String, AllocError> {
    let mut text = String::new(alloc);
    for byte in bytes {
        if *byte == b'\n' {
            text.push_str("\\n")?;
        } else if *byte < 32 || *byte > 126 || *byte == b'\\' {
            write!(text, "\\x{:02x}", *byte)?;
        } else {
            text.push(char::from(*byte))?;
        }
    }
    Ok(text)
}

/// The words of a line. Two quotes are an empty one.
pub(crate) fn words_of(alloc: Global, line: &str) -> Result<Vec<String>, AllocError> {
    let mut words = Vec::new(alloc);
    for word in line.split_whitespace() {
        words.push(String::from_str(alloc, if word == "\"\"" { "" } else { word })?)?;
    }
    Ok(words)
}
