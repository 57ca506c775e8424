//! Questions as they are written in the table.

use assign::Partial;

/// The question with one more value.
fn given(mut question: Partial, variable: u8, value: u8) -> Partial {
    question.set(variable, value);
    question
}

/// Gives the value of a pair `VARIABLE=VALUE`.
fn with_pair(question: Partial, word: &str) -> Option<Partial> {
    let (variable, value) = word.split_once('=')?;
    let variable = variable.parse::<u8>().ok()?;
    let value = value.parse::<u8>().ok()?;
    if variable < 128 && value < 64 {
        Some(given(question, variable, value))
    } else {
        None
    }
}

/// Pairs of a variable's number and its value's place, from 0.
pub(crate) fn question_in(text: &str) -> Option<Partial> {
    let mut words = text.split_whitespace();
    let mut question = with_pair(Partial::blank(128), words.next()?)?;
    for word in words {
        question = with_pair(question, word)?;
    }
    Some(question)
}
