use std::alloc::Global;

/// Adds what stands behind a backslash: the character that its first letter stands for, and the
/// rest.
fn push_escaped(text: &mut String, part: &str) -> Option<()> {
    let (letter, rest) = part.split_at_checked(1)?;
    let character = match letter {
        "n" => '\n',
        "r" => '\r',
        "t" => '\t',
        "s" => ' ',
        _ => return None,
    };
    text.push(character).ok()?;
    text.push_str(rest).ok()
}

/// A text in which `\n`, `\r`, `\t` and `\s` stand for a newline, a carriage return, a tab and a
/// blank.
pub fn text_in(alloc: Global, written: &str) -> Option<String> {
    let mut text = String::new(alloc);
    for (at, part) in written.split('\\').enumerate() {
        if at == 0 {
            text.push_str(part).ok()?;
        } else {
            push_escaped(&mut text, part)?;
        }
    }
    Some(text)
}

/// Adds a text in the same form, with blanks as they stand.
pub fn push_text(line: &mut String, text: &str) -> Option<()> {
    for character in text.chars() {
        let pushed = match character {
            '\n' => line.push_str("\\n"),
            '\r' => line.push_str("\\r"),
            '\t' => line.push_str("\\t"),
            _ => line.push(character),
        };
        pushed.ok()?;
    }
    Some(())
}
