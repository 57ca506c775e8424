//! Trials of what lies around a session: sources and sinks, lines as they are typed, teachers,
//! which are lines, networks and generated targets; and what is done with a network that was
//! learned: its clauses, models that are read back as solutions, and what remains of it. `stdin` is
//! their table.

mod faulty;
mod known;
mod models;
mod plain;
mod random;
mod shapes;
mod shown;
mod streams;
mod targets;
mod teachers;

use language::Language;
use rows::Calls;
use std::alloc::Global;
use voc_read::read_vocabulary;

/// The calls over a language.
fn answer_over(alloc: Global, lang: &Language, call: &str, arguments: &str) -> Option<String> {
    match call {
        "lines" => teachers::lines(alloc, lang, arguments),
        "network" => teachers::network(alloc, lang, arguments),
        "cnf" => known::cnf(alloc, lang, arguments),
        "model" => known::model(alloc, lang, arguments),
        "reduce" => known::reduced(alloc, lang, arguments),
        _ => None,
    }
}

pub struct Trials;

impl Calls for Trials {
    fn answer(&self, alloc: Global, over: &str, call: &str, arguments: &str) -> Option<String> {
        match call {
            "line" => streams::line(alloc, arguments),
            "line-failing" => streams::failing_line(alloc, arguments),
            "whole" => streams::whole(alloc, arguments),
            "sinks" => streams::sinks(alloc, arguments),
            "reader" => faulty::reader(alloc, arguments),
            "errors" => faulty::errors(alloc, arguments),
            "writer" => faulty::writer(alloc, arguments),
            "targets" => targets::targets(alloc, arguments),
            "too-large" => known::too_large(alloc),
            "random-models" => models::models(alloc, arguments),
            "random-reductions" => random::reductions(alloc, arguments),
            _ => {
                let lang = read_vocabulary(alloc, over.as_bytes()).ok()?;
                answer_over(alloc, &lang, call, arguments)
            }
        }
    }
}
