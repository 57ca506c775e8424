use std::alloc::{AllocError, Global};

/// Adds a piece, in which each `~` is this number.
fn push_numbered(text: &mut String, piece: &str, number: u32) -> Result<(), AllocError> {
    for (at, part) in piece.split('~').enumerate() {
        if at > 0 {
            write!(text, "{number}")?;
        }
        text.push_str(part)?;
    }
    Ok(())
}

/// Adds `COUNT TEXT» REST`, or what isn't of that form as it stands.
fn push_repeated(text: &mut String, part: &str) -> Result<(), AllocError> {
    let Some((repeated, rest)) = part.split_once('»') else {
        return text.push_str(part);
    };
    let (count, piece) = repeated.split_once(' ').unwrap_or(("", repeated));
    let Ok(count) = count.parse::<u32>() else {
        return text.push_str(part);
    };
    let is_plain = !piece.contains('~');
    for number in 0..count {
        if is_plain {
            text.push_str(piece)?;
        } else {
            push_numbered(text, piece, number)?;
        }
    }
    text.push_str(rest)
}

/// A text in which each `«COUNT TEXT»` is written out.
pub(crate) fn expanded(alloc: Global, text: &str) -> Result<String, AllocError> {
    let mut whole = String::new(alloc);
    for (at, part) in text.split('«').enumerate() {
        if at == 0 {
            whole.push_str(part)?;
        } else {
            push_repeated(&mut whole, part)?;
        }
    }
    Ok(whole)
}

/// The lines of a text joined by `; `, or `nothing`.
pub(crate) fn one_line(alloc: Global, text: &str) -> Result<String, AllocError> {
    if text.is_empty() {
        return String::from_str(alloc, "nothing");
    }
    let mut joined = String::new(alloc);
    for (at, line) in text.lines().enumerate() {
        if at > 0 {
            joined.push_str("; ")?;
        }
        joined.push_str(line)?;
    }
    Ok(joined)
}
