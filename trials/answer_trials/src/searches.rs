//! Searches, and random ones beside the plain lists of all prefixes and of all families of sets of
//! values.

use crate::outcomes::{outcome_by_list, prefixes, some_language, some_wide_language};
use crate::tally::Tally;
use fd_solver::{Outcome, Work, search};
use language::{Candidate, Language};
use propagators::Constraints;
use rows::{end, number};
use samples::{Numbers, is_candidate, push_question};
use std::alloc::Global;

/// Whether these are candidates.
pub(crate) fn is_network(lang: &Language, list: &[Candidate]) -> bool {
    for c in list {
        if !is_candidate(lang, *c) {
            return false;
        }
    }
    true
}

/// Whether no two are the same.
fn are_apart(order: &[u8]) -> bool {
    let Some((first, others)) = order.split_first() else {
        return true;
    };
    !others.contains(first) && are_apart(others)
}

/// Whether each of n variables is listed once.
fn is_order(n: u8, order: &[u8]) -> bool {
    for v in order {
        if *v >= n {
            return false;
        }
    }
    order.len() == n as usize && are_apart(order)
}

/// What a search ends with. None where these are no constraints, no order or no budget.
fn outcome(work: &mut Work, cons: &Constraints, order: &[u8], budget: u32) -> Option<Outcome> {
    if !is_network(cons.lang, cons.list) || !is_order(cons.lang.n(), order) || budget == 0 {
        return None;
    }
    if let Some(c) = cons.against
        && !is_candidate(cons.lang, c)
    {
        return None;
    }
    Some(search(work, cons, order, budget))
}

/// Some candidate, where the language has the relation.
fn some_candidate(numbers: &mut Numbers, lang: &Language) -> Option<Candidate> {
    let c = Candidate {
        scope: u16::try_from(numbers.below(u64::from(lang.scopes()))).ok()?,
        rel: numbers.byte_below(4),
    };
    if is_candidate(lang, c) { Some(c) } else { None }
}

/// Some candidates.
fn some_network(alloc: Global, numbers: &mut Numbers, lang: &Language) -> Option<Vec<Candidate>> {
    let mut list = Vec::new(alloc);
    for _ in 0..numbers.below(6) {
        if let Some(c) = some_candidate(numbers, lang) {
            list.push(c).ok()?;
        }
    }
    Some(list)
}

/// Some order of n variables.
fn some_order(alloc: Global, numbers: &mut Numbers, n: u8) -> Option<Vec<u8>> {
    let mut order = Vec::new(alloc);
    for v in 0..n {
        let at = numbers.below(u64::from(v) + 1) as usize;
        if at <= order.len() {
            order.insert(at, v).ok()?;
        }
    }
    Some(order)
}

/// A search of some constraints, beside the plain list.
fn try_search(
    alloc: Global,
    numbers: &mut Numbers,
    work: &mut Work,
    lang: &Language,
    order: &[u8],
    all: &[Vec<u8>],
    tally: &mut Tally,
) -> Option<()> {
    let list = some_network(alloc, numbers, lang)?;
    let cons = Constraints {
        lang,
        list: &list,
        against: some_candidate(numbers, lang),
    };
    let budget = 1 + numbers.below(12) as u32;
    let found = outcome(work, &cons, order, budget);
    let listed = outcome_by_list(&cons, order, all, budget);
    tally.take(found.is_some() && found == listed);
    Some(())
}

/// Four searches.
fn try_searches(
    alloc: Global,
    numbers: &mut Numbers,
    lang: &Language,
    order: &[u8],
    all: &[Vec<u8>],
    tally: &mut Tally,
) -> Option<()> {
    let mut work = Work::new(alloc, lang).ok()?;
    for _ in 0..4 {
        try_search(alloc, numbers, &mut work, lang, order, all, tally)?;
    }
    Some(())
}

/// The same over a language.
fn round(
    alloc: Global,
    numbers: &mut Numbers,
    lang: Option<Language>,
    tally: &mut Tally,
) -> Option<()> {
    let lang = lang?;
    let all = prefixes(alloc, lang.n(), lang.d())?;
    let order = some_order(alloc, numbers, lang.n())?;
    try_searches(alloc, numbers, &lang, &order, &all, tally)
}

/// A first number, and how many languages: so many searches beside the plain list.
pub(crate) fn random(alloc: Global, arguments: &str, is_wide: bool) -> Option<String> {
    let mut words = arguments.split_whitespace();
    let mut numbers = Numbers::new(number(&mut words)?);
    let count = number::<u32>(&mut words)?;
    end(&mut words)?;
    let mut tally = Tally::new();
    for _ in 0..count {
        let lang = if is_wide {
            some_wide_language(alloc, &mut numbers)
        } else {
            some_language(alloc, &mut numbers)
        };
        round(alloc, &mut numbers, lang, &mut tally)?;
    }
    tally.text(alloc)
}

/// The candidate `SCOPE.RELATION`, both by their numbers.
pub(crate) fn candidate_in(word: &str) -> Option<Candidate> {
    let (scope, rel) = word.split_once('.')?;
    Some(Candidate {
        scope: scope.parse().ok()?,
        rel: rel.parse().ok()?,
    })
}

pub(crate) fn candidates_in(alloc: Global, text: &str) -> Option<Vec<Candidate>> {
    let mut list = Vec::new(alloc);
    for word in text.split_whitespace() {
        list.push(candidate_in(word)?).ok()?;
    }
    Some(list)
}

fn order_in(alloc: Global, text: &str) -> Option<Vec<u8>> {
    let mut order = Vec::new(alloc);
    for word in text.split_whitespace() {
        order.push(word.parse().ok()?).ok()?;
    }
    Some(order)
}

fn outcome_text(alloc: Global, outcome: &Outcome) -> Option<String> {
    match outcome {
        Outcome::Found(e) => {
            let mut text = String::from_str(alloc, "found").ok()?;
            push_question(&mut text, e)?;
            Some(text)
        }
        Outcome::Absent => String::from_str(alloc, "absent").ok(),
        Outcome::Spent => String::from_str(alloc, "spent").ok(),
    }
}

/// What a search ends with.
fn searched(
    alloc: Global,
    lang: &Language,
    list: &[Candidate],
    against: Option<Candidate>,
    order: &[u8],
    budget: u32,
) -> Option<String> {
    let mut work = Work::new(alloc, lang).ok()?;
    let cons = Constraints {
        lang,
        list,
        against,
    };
    outcome_text(alloc, &outcome(&mut work, &cons, order, budget)?)
}

/// `HOLDING not AGAINST order VARIABLES budget BUDGET`: what the search ends with.
pub(crate) fn search_row(alloc: Global, lang: &Language, arguments: &str) -> Option<String> {
    let (list, rest) = arguments.split_once("not")?;
    let (against, rest) = rest.split_once("order")?;
    let (order, budget) = rest.split_once("budget")?;
    let budget = budget.trim().parse().ok()?;
    let against = match against.trim() {
        "" => None,
        word => Some(candidate_in(word)?),
    };
    let list = candidates_in(alloc, list)?;
    let order = order_in(alloc, order)?;
    searched(alloc, lang, &list, against, &order, budget)
}
