use crate::questions::is_within;
use assign::Partial;
use language::Language;

/// The question that gives the first variables these values, from 1, in their order; `_` gives
/// none.
pub fn question_in(lang: &Language, text: &str) -> Option<Partial> {
    let mut q = Partial::blank(lang.n());
    let mut v = 0;
    for word in text.split_whitespace() {
        if v >= lang.n() {
            return None;
        }
        if word != "_" {
            let value = word.parse::<u8>().ok()?.checked_sub(1)?;
            if !is_within(lang, v, value) {
                return None;
            }
            q.set(v, value);
        }
        v += 1;
    }
    Some(q)
}

/// Adds a blank and the value of each variable, in the same form.
pub fn push_question(text: &mut String, q: &Partial) -> Option<()> {
    for v in 0..q.len() {
        match q.get(v) {
            Some(value) => write!(text, " {}", u32::from(value) + 1).ok()?,
            None => text.push_str(" _").ok()?,
        }
    }
    Some(())
}
