use std::str::{FromStr, SplitWhitespace};

/// The next word as a number. None where it is none, or where there is no word.
pub fn number<T: FromStr>(words: &mut SplitWhitespace<'_>) -> Option<T>
where
    T::Err: Drop,
{
    words.next()?.parse().ok()
}

/// Whether no word is left.
pub fn end(words: &mut SplitWhitespace<'_>) -> Option<()> {
    match words.next() {
        Some(_) => None,
        None => Some(()),
    }
}
