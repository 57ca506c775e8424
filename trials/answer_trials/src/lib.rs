//! Trials of the next question and of what follows one answer. `stdin` is their table.
//!
//! Before a question: what is still possible, searches, and the next question. The candidates stand
//! in plain lists (`possible`), and `outcomes` goes over all prefixes and all families of sets of
//! values. Random searches (`searches`) and next questions (`questions`) are held against it.
//! `propagating` is what a search does between two values.
//!
//! After an answer: halvings beside the plain recursion, relations on a scope that are told apart,
//! walks through the parts of an example, and sessions beside the plain fold of their answers, on
//! small languages. `plain` is a language as lists, `fold` is the fold of the answers, written as
//! plainly as it is said, and `playing` gives random answers, those of a network and untrue ones,
//! to a session and to the fold. After each answer both have the same kind, network, kept
//! candidates and open question, and the same questions may be put.
//!
//! Neither leans on the definitions of the proofs.

mod fold;
mod halving;
mod outcomes;
mod plain;
mod playing;
mod possible;
mod propagating;
mod questions;
mod searches;
mod sets;
mod tally;
mod telling;
mod vocabularies;
mod walking;

use language::Language;
use rows::Calls;
use std::alloc::Global;
use voc_read::read_vocabulary;

/// The calls over a language.
fn answer_over(alloc: Global, lang: &Language, call: &str, arguments: &str) -> Option<String> {
    match call {
        "strikes" => possible::strikes(alloc, lang, arguments),
        "random-strikes" => possible::random(alloc, lang, arguments),
        "search" => searches::search_row(alloc, lang, arguments),
        "first" => questions::first(alloc, lang, arguments),
        "propagates" => propagating::propagates(alloc, lang, arguments),
        "meets" => propagating::meets(alloc, lang, arguments),
        "marks" => questions::marks(alloc, lang),
        "tells" => telling::tells(alloc, lang, arguments),
        "walks" => walking::walks(alloc, lang, arguments),
        _ => None,
    }
}

pub struct Trials;

impl Calls for Trials {
    fn answer(&self, alloc: Global, over: &str, call: &str, arguments: &str) -> Option<String> {
        match call {
            "random-searches" => searches::random(alloc, arguments, false),
            "wide-searches" => searches::random(alloc, arguments, true),
            "random-questions" => questions::random(alloc, arguments),
            "halves" => halving::halves(alloc, arguments),
            "finds" => halving::finds(alloc, arguments),
            "finds-each" => halving::finds_each(alloc, arguments),
            "sessions" => playing::sessions(alloc, arguments),
            _ => {
                let lang = read_vocabulary(alloc, over.as_bytes()).ok()?;
                answer_over(alloc, &lang, call, arguments)
            }
        }
    }
}
