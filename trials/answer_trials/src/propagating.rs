//! What conditions leave of the values, and whether values meet the one that has to fail.

use crate::searches::{candidate_in, candidates_in, is_network};
use language::{Candidate, Language};
use propagators::{Alive, Constraints, Domains, propagate};
use samples::question_in;
use std::alloc::Global;

/// A candidate, or nothing where none is written.
fn against_in(lang: &Language, word: &str) -> Option<Option<Candidate>> {
    if word.is_empty() {
        return Some(None);
    }
    let c = candidate_in(word)?;
    if is_network(lang, &[c]) {
        Some(Some(c))
    } else {
        None
    }
}

/// Adds the values of a variable that are left, each behind a blank.
fn push_values(text: &mut String, doms: &Domains, v: u8) -> Option<()> {
    for x in 0..64 {
        if doms.has(v, x) {
            write!(text, " {}", u32::from(x) + 1).ok()?;
        }
    }
    Some(())
}

/// `HOLDING not AGAINST`: the values that are left to each variable, or that one has none.
pub(crate) fn propagates(alloc: Global, lang: &Language, arguments: &str) -> Option<String> {
    let (list, against) = arguments.split_once("not")?;
    let list = candidates_in(alloc, list)?;
    if !is_network(lang, &list) {
        return None;
    }
    let cons = Constraints {
        lang,
        list: &list,
        against: against_in(lang, against.trim())?,
    };
    let mut doms = Domains::full(lang);
    let mut text = String::new(alloc);
    match propagate(&cons, &mut doms) {
        Alive::No => text.push_str("none").ok()?,
        Alive::Yes => {
            for v in 0..lang.n() {
                text.push_str(if v == 0 { "left" } else { ";" }).ok()?;
                push_values(&mut text, &doms, v)?;
            }
        }
    }
    Some(text)
}

/// `AGAINST by VALUES`: whether the values meet the condition.
pub(crate) fn meets(alloc: Global, lang: &Language, arguments: &str) -> Option<String> {
    let (against, values) = arguments.split_once("by")?;
    let cons = Constraints {
        lang,
        list: &[],
        against: against_in(lang, against.trim())?,
    };
    let q = question_in(lang, values)?;
    let said = if cons.satisfies_against(&q) {
        "yes"
    } else {
        "no"
    };
    String::from_str(alloc, said).ok()
}
