//! Candidates, scopes and questions of a language.

use assign::{Partial, VarSet};
use language::{Language, ScopeId};
use rows::number;
use samples::assigned;
use std::alloc::Global;
use std::str::SplitWhitespace;

/// Pairs `VARIABLE=VALUE`, variables by their numbers, and values from 1: the question that gives
/// them.
pub(crate) fn question_in(
    alloc: Global,
    lang: &Language,
    words: &mut SplitWhitespace<'_>,
) -> Option<Partial> {
    let mut variables = Vec::new(alloc);
    let mut values = Vec::new(alloc);
    for word in words {
        let (variable, value) = word.split_once('=')?;
        variables.push(variable.parse().ok()?).ok()?;
        values.push(value.parse::<u8>().ok()?.checked_sub(1)?).ok()?;
    }
    Some(assigned(lang, &variables, &values))
}

/// A number, and what is asked: the question's text.
pub(crate) fn question(alloc: Global, lang: &Language, arguments: &str) -> Option<String> {
    let mut words = arguments.split_whitespace();
    let count = number(&mut words)?;
    let q = question_in(alloc, lang, &mut words)?;
    lang.question_text(alloc, count, &q).ok()
}

/// A scope, and what is asked: the place of its tuple.
pub(crate) fn place(alloc: Global, lang: &Language, arguments: &str) -> Option<String> {
    let mut words = arguments.split_whitespace();
    let scope = number::<ScopeId>(&mut words)?;
    let q = question_in(alloc, lang, &mut words)?;
    if u32::from(scope) >= lang.scopes() {
        return None;
    }
    match lang.place_on(scope, &q) {
        Some(place) => format!(in alloc; "{place}").ok(),
        None => String::from_str(alloc, "none").ok(),
    }
}

/// A number, and what is asked: the candidate of the number, its scope and relation, and whether it
/// is violated.
pub(crate) fn candidate(alloc: Global, lang: &Language, arguments: &str) -> Option<String> {
    let mut words = arguments.split_whitespace();
    let at = number(&mut words)?;
    let q = question_in(alloc, lang, &mut words)?;
    if at >= lang.candidates() {
        return String::from_str(alloc, "none").ok();
    }
    let c = lang.candidate(at);
    if lang.number_of(c) != at {
        return None;
    }
    let text = lang.candidate_text(alloc, c).ok()?;
    let (scope, rel) = (c.scope, c.rel);
    let violated = if lang.candidate_violated(c, &q) {
        "violated"
    } else {
        "not violated"
    };
    format!(in alloc; "{text}, {rel} on {scope}, {violated}").ok()
}

/// The number of a scope: its variables.
pub(crate) fn scope(alloc: Global, lang: &Language, arguments: &str) -> Option<String> {
    let scope = arguments.parse::<ScopeId>().ok()?;
    if u32::from(scope) >= lang.scopes() {
        return String::from_str(alloc, "none").ok();
    }
    let mut text = String::from_str(alloc, "variables").ok()?;
    for v in lang.scope(scope) {
        write!(text, " {v}").ok()?;
    }
    Some(text)
}

/// The set of these variables.
fn set_in(arguments: &str) -> Option<VarSet> {
    let mut set = VarSet::empty();
    for word in arguments.split_whitespace() {
        let v = word.parse::<u8>().ok()?;
        if v >= 128 {
            return None;
        }
        set = set.with(v);
    }
    Some(set)
}

/// Variables: the scope that has just these.
pub(crate) fn scope_of(alloc: Global, lang: &Language, arguments: &str) -> Option<String> {
    let set = set_in(arguments)?;
    match lang.scope_of(set) {
        Some(scope) if lang.scope_set(scope) == set => format!(in alloc; "{scope}").ok(),
        Some(_) => None,
        None => String::from_str(alloc, "none").ok(),
    }
}

/// How many scopes there are.
pub(crate) fn scopes(alloc: Global, lang: &Language) -> Option<String> {
    format!(in alloc; "{}", lang.scopes()).ok()
}

/// The first and the last value of each variable, by their numbers.
pub(crate) fn ranges(alloc: Global, lang: &Language) -> Option<String> {
    let mut text = String::from_str(alloc, "ranges").ok()?;
    for v in 0..lang.n() {
        let (first, last) = lang.range(v);
        write!(text, " {first}-{last}").ok()?;
    }
    Some(text)
}
