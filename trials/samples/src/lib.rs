//! Small languages, questions and numbers that trials share.
//!
//! A language is read from the text of a vocabulary that is written here, so nothing has to be
//! shown of its parts. A caller may rely on this: a question is one of the language, what
//! `is_candidate` takes is a candidate of it, and a number lies below its limit.

mod languages;
mod numbers;
mod questions;
mod written;

pub use languages::{Relation, language, language_within, places, some_ranges};
pub use numbers::Numbers;
pub use questions::{assigned, is_candidate, is_within, question};
pub use written::{push_question, question_in};
