//! Texts that are vocabularies, and texts that aren't, with what is told of each.

use language::{Candidate, Language, ScopeId};
use rel_table::Table;
use std::alloc::Global;
use voc_read::{read_vocabulary, voc_text};

/// What reading answers: the text of the refusal, or `taken`.
pub(crate) fn told(alloc: Global, vocabulary: &[u8]) -> Option<String> {
    match read_vocabulary(alloc, vocabulary) {
        Ok(_language) => String::from_str(alloc, "taken").ok(),
        Err(fault) => voc_text(alloc, fault).ok(),
    }
}

/// Bytes, each as a number: what reading them answers.
pub(crate) fn of_bytes(alloc: Global, arguments: &str) -> Option<String> {
    let mut bytes = Vec::new(alloc);
    for word in arguments.split_whitespace() {
        bytes.push(word.parse().ok()?).ok()?;
    }
    told(alloc, &bytes)
}

/// A text: how many of its fronts, from the empty one up to all of it but the last byte, are no
/// JSON.
pub(crate) fn fronts(alloc: Global, arguments: &str) -> Option<String> {
    let whole = arguments.as_bytes();
    let mut count = 0usize;
    for end in 0..whole.len() {
        if told(alloc, &whole[..end])?.as_str() == "not json" {
            count = count.saturating_add(1);
        }
    }
    let of = whole.len();
    format!(in alloc; "{count} of {of} not json").ok()
}

/// The first so many lists of three of 38 variables, in lexicographic order. There are 8,436.
fn triples(alloc: Global, count: u32) -> Option<String> {
    let mut triples = String::new(alloc);
    let mut left = count;
    for a in 0..38u8 {
        for b in a + 1..38 {
            for c in b + 1..38 {
                if left > 0 {
                    let comma = if left == count { "" } else { "," };
                    write!(triples, r#"{comma}["v{a}","v{b}","v{c}"]"#).ok()?;
                    left -= 1;
                }
            }
        }
    }
    Some(triples)
}

/// The vocabulary of 38 variables and a relation of three places on so many scopes: what reading it
/// answers.
pub(crate) fn of_triples(alloc: Global, arguments: &str) -> Option<String> {
    let scopes = triples(alloc, arguments.parse().ok()?)?;
    let mut names = String::from_str(alloc, "\"v0\"").ok()?;
    for v in 1..38 {
        write!(names, ",\"v{v}\"").ok()?;
    }
    let relation = r#"{"name":"r","arity":3,"tuples":[]}"#;
    let text = format!(in alloc;
        r#"{{"variables":[{names}],"domain":[1,2],"relations":[{relation}],"scopes":[{scopes}]}}"#
    ).ok()?;
    told(alloc, text.as_bytes())
}

/// Adds the truth of each tuple of a relation, in table order.
fn push_truth(text: &mut String, table: &Table) -> Option<()> {
    for place in 0..table.size() {
        text.push(if table.at(place) { '1' } else { '0' }).ok()?;
    }
    Some(())
}

/// Adds a candidate and the truth of each of its tuples.
fn push_candidate(
    alloc: Global,
    text: &mut String,
    language: &Language,
    c: Candidate,
) -> Option<()> {
    let name = language.candidate_text(alloc, c).ok()?;
    write!(text, ", {name} ").ok()?;
    push_truth(text, language.table_on(c.scope, c.rel))
}

/// Adds the candidates on a scope.
fn push_scope(alloc: Global, text: &mut String, language: &Language, scope: ScopeId) -> Option<()> {
    for rel in 0..language.relations_on(scope) {
        push_candidate(alloc, text, language, Candidate { scope, rel })?;
    }
    Some(())
}

/// How many variables and values there are, and the candidates with their truth.
fn shown(alloc: Global, language: &Language) -> Option<String> {
    let (n, d) = (language.n(), language.d());
    let mut text = format!(in alloc; "{n} variables, {d} values").ok()?;
    for scope in 0..language.scopes() {
        push_scope(alloc, &mut text, language, scope as ScopeId)?;
    }
    Some(text)
}

/// A vocabulary: what its language has.
pub(crate) fn shows(alloc: Global, arguments: &str) -> Option<String> {
    let language = read_vocabulary(alloc, arguments.as_bytes()).ok()?;
    shown(alloc, &language)
}
