use std::alloc::Global;

/// Adds `HH TEXT` without the blank: the byte of two hexadecimal digits, and the text.
fn push_escaped(bytes: &mut Vec<u8>, part: &str) -> Option<()> {
    let (digits, rest) = part.split_at_checked(2)?;
    bytes.push(u8::from_str_radix(digits, 16).ok()?).ok()?;
    bytes.extend_from_slice(rest.as_bytes()).ok()
}

/// The bytes of a text, in which `\HH` is the byte of two hexadecimal digits. Blanks part the bytes
/// and are none.
pub fn bytes_in(alloc: Global, text: &str) -> Option<Vec<u8>> {
    let mut bytes = Vec::new(alloc);
    for word in text.split_whitespace() {
        for (at, part) in word.split('\\').enumerate() {
            if at == 0 {
                bytes.extend_from_slice(part.as_bytes()).ok()?;
            } else {
                push_escaped(&mut bytes, part)?;
            }
        }
    }
    Some(bytes)
}

/// Adds bytes in the same form, without blanks.
pub fn push_bytes(text: &mut String, bytes: &[u8]) -> Option<()> {
    for byte in bytes {
        if *byte > 32 && *byte < 127 && *byte != 92 {
            text.push(char::from(*byte)).ok()?;
        } else {
            write!(text, "\\{byte:02x}").ok()?;
        }
    }
    Some(())
}
