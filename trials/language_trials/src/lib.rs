//! Trials of sets of variables and of assignments, of relations as tables, of vocabularies, of the
//! languages that are made of them, and of networks: what they come to, and why they are refused,
//! was worked out by hand. Formulas are held beside their worth in 128 bits. `stdin` is their
//! table.

mod formulas;
mod frames;
mod languages;
mod networks;
mod pairs;
mod reckoned;
mod tables;
mod variables;
mod vocabularies;

use language::Language;
use rows::Calls;
use std::alloc::Global;
use voc_read::read_vocabulary;

/// The calls over a language.
fn answer_over(alloc: Global, lang: &Language, call: &str, arguments: &str) -> Option<String> {
    match call {
        "question" => languages::question(alloc, lang, arguments),
        "place" => languages::place(alloc, lang, arguments),
        "candidate" => languages::candidate(alloc, lang, arguments),
        "scope" => languages::scope(alloc, lang, arguments),
        "scopes" => languages::scopes(alloc, lang),
        "ranges" => languages::ranges(alloc, lang),
        "scope-of" => languages::scope_of(alloc, lang, arguments),
        "learned" => networks::learned(alloc, lang, arguments),
        "accepts" => networks::accepts(alloc, lang, arguments),
        "items" => networks::items(alloc, lang, arguments),
        "network" => networks::read(alloc, lang, arguments),
        _ => None,
    }
}

/// The calls about vocabularies, languages and networks.
fn answer_learned(alloc: Global, over: &str, call: &str, arguments: &str) -> Option<String> {
    match call {
        "frame" => frames::frame(alloc, arguments),
        "reads" => vocabularies::told(alloc, arguments.as_bytes()),
        "bytes" => vocabularies::of_bytes(alloc, arguments),
        "fronts" => vocabularies::fronts(alloc, arguments),
        "triples" => vocabularies::of_triples(alloc, arguments),
        "shows" => vocabularies::shows(alloc, arguments),
        _ => {
            let lang = read_vocabulary(alloc, over.as_bytes()).ok()?;
            answer_over(alloc, &lang, call, arguments)
        }
    }
}

pub struct Trials;

impl Calls for Trials {
    fn answer(&self, alloc: Global, over: &str, call: &str, arguments: &str) -> Option<String> {
        match call {
            "halves" => variables::halves(alloc, arguments),
            "first" => variables::first(alloc, arguments),
            "sets" => variables::sets(alloc, arguments),
            "assigned" => variables::assigned(alloc, arguments),
            "restricted" => variables::restricted(alloc, over, arguments),
            "cleared" => variables::cleared(alloc, over, arguments),
            "cut" => variables::cut(alloc, over, arguments),
            "equals" => variables::compared(alloc, over, arguments),
            "recorded" => variables::recorded(alloc, over, arguments),
            "size" => tables::size(alloc, arguments),
            "tuples" => tables::tuples(alloc, arguments),
            "constants" => tables::constants(alloc, arguments),
            "masks" => pairs::masks(alloc, arguments),
            "close" => pairs::closed(alloc, arguments),
            "all-but" => pairs::all_but(alloc, arguments),
            "below" => pairs::below(alloc, arguments),
            "formula" => formulas::formula(alloc, arguments),
            "truth" => formulas::truth(alloc, arguments),
            "random" => reckoned::random(alloc, arguments),
            _ => answer_learned(alloc, over, call, arguments),
        }
    }
}
