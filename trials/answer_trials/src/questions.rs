//! The next question, and random ones beside those of the plain lists of all prefixes and of all
//! families of sets of values.

use crate::outcomes::{outcome_by_list, prefixes, some_language};
use crate::tally::Tally;
use crate::walking::is_taken;
use assign::Partial;
use bias_store::Kept;
use fd_solver::{Outcome, Work};
use language::{Candidate, Language};
use network::Network;
use propagators::Constraints;
use query_gen::{Place, Query, Screen, next_query};
use rows::{end, number};
use samples::{Numbers, is_candidate, is_within, push_question};
use std::alloc::Global;

/// The variables of a scope, and then the others of n.
fn order_from(alloc: Global, scope: &[u8], n: u8) -> Option<Vec<u8>> {
    let mut order = scope.to_vec(alloc).ok()?;
    for v in 0..n {
        if !order.contains(&v) {
            order.push(v).ok()?;
        }
    }
    Some(order)
}

/// The outcome of a candidate by the plain list, where its scope comes first in the order.
fn outcome_of(
    alloc: Global,
    lang: &Language,
    learned: &[Candidate],
    c: Candidate,
    all: &[Vec<u8>],
    budget: u32,
) -> Option<Outcome> {
    if !is_candidate(lang, c) {
        return None;
    }
    let order = order_from(alloc, lang.scope(c.scope), lang.n())?;
    let cons = Constraints {
        lang,
        list: learned,
        against: Some(c),
    };
    outcome_by_list(&cons, &order, all, budget)
}

/// The outcomes of the possible candidates by the plain list, up to the first that is found.
fn outcomes_by_list(
    alloc: Global,
    lang: &Language,
    kept: &Kept,
    learned: &[Candidate],
    all: &[Vec<u8>],
    budget: u32,
) -> Option<Vec<(Candidate, Outcome)>> {
    let mut list = Vec::new(alloc);
    for scope in 0..lang.scopes() as u16 {
        for rel in 0..4 {
            let c = Candidate { scope, rel };
            if kept.is_kept(c) {
                let outcome = outcome_of(alloc, lang, learned, c, all, budget)?;
                let is_found = matches!(&outcome, Outcome::Found(_));
                list.push((c, outcome)).ok()?;
                if is_found {
                    return Some(list);
                }
            }
        }
    }
    Some(list)
}

/// The next question by these outcomes.
fn query_by_list(listed: &[(Candidate, Outcome)]) -> Query {
    let mut query = Query::AllImplied;
    for (_, outcome) in listed {
        match outcome {
            Outcome::Found(e) => return Query::Ask(*e),
            Outcome::Absent => {}
            Outcome::Spent => query = Query::Undecided,
        }
    }
    query
}

/// Whether the candidates are open whose search was spent by these outcomes, and no others.
fn is_open_as_listed(lang: &Language, screen: &Screen, listed: &[(Candidate, Outcome)]) -> bool {
    for scope in 0..lang.scopes() as u16 {
        for rel in 0..4 {
            let c = Candidate { scope, rel };
            let is_spent = listed.contains(&(c, Outcome::Spent));
            if is_candidate(lang, c) && screen.is_open(c) != is_spent {
                return false;
            }
        }
    }
    true
}

/// The next question, and whether it, and what is open where nothing is decided, are those of the
/// plain list.
fn compare(
    alloc: Global,
    work: &mut Work,
    screen: &mut Screen,
    lang: &Language,
    kept: &Kept,
    net: &Network,
    budget: u32,
    all: &[Vec<u8>],
) -> Option<(Query, bool)> {
    let query = next_query(work, screen, lang, kept, net, budget);
    let listed = outcomes_by_list(alloc, lang, kept, net.list(), all, budget)?;
    let is_decided = query != Query::Undecided;
    let is_same = query == query_by_list(&listed)
        && (is_decided || is_open_as_listed(lang, screen, &listed));
    Some((query, is_same))
}

/// Learns a candidate, where its scope has none yet. True marks stay true.
fn learn(
    screen: &Screen,
    lang: &Language,
    kept: &mut Kept,
    net: &mut Network,
    budget: u32,
    c: Candidate,
) {
    if is_candidate(lang, c) && !is_taken(net, c.scope) {
        net.learn(c);
        kept.drop_scope(c.scope);
    }
}

/// Takes all answers back.
fn take_back(
    screen: &mut Screen,
    lang: &Language,
    kept: &mut Kept,
    net: &mut Network,
    budget: u32,
) {
    screen.clear();
    kept.reset(lang);
    net.clear();
}

/// Strikes what some question violates, or learns some candidate, or takes all back, but for a
/// chance that nothing changes.
fn change(
    numbers: &mut Numbers,
    screen: &mut Screen,
    lang: &Language,
    kept: &mut Kept,
    net: &mut Network,
    budget: u32,
    query: Query,
) {
    let choice = numbers.below(20);
    if choice < 10 {
        if let Query::Ask(e) = query {
            let e = read(lang, &e);
            kept.strike(lang, &e);
        }
    } else if choice < 18 {
        let c = Candidate {
            scope: numbers.below(u64::from(lang.scopes())) as u16,
            rel: numbers.byte_below(4),
        };
        learn(screen, lang, kept, net, budget, c);
    } else if choice == 18 {
        take_back(screen, lang, kept, net, budget);
    }
}

/// The same values, as far as the language has them.
fn read(lang: &Language, e: &Partial) -> Partial {
    let mut question = Partial::blank(lang.n());
    for v in 0..lang.n() {
        if let Some(x) = e.get(v)
            && is_within(lang, v, x)
        {
            question.set(v, x);
        }
    }
    question
}

/// A few questions with one screen, and what changes between them.
fn turns(
    alloc: Global,
    numbers: &mut Numbers,
    screen: &mut Screen,
    lang: &Language,
    kept: &mut Kept,
    net: &mut Network,
    budget: u32,
    all: &[Vec<u8>],
    tally: &mut Tally,
) -> Option<()> {
    let mut work = Work::new(alloc, lang).ok()?;
    'turns: for _ in 0..6 {
        let (query, is_same) = compare(alloc, &mut work, screen, lang, kept, net, budget, all)?;
        tally.take(is_same);
        change(numbers, screen, lang, kept, net, budget, query);
    }
    Some(())
}

/// The same from all candidates on, with nothing learned or marked.
fn begun(
    alloc: Global,
    numbers: &mut Numbers,
    lang: &Language,
    kept: &mut Kept,
    budget: u32,
    all: &[Vec<u8>],
    tally: &mut Tally,
) -> Option<()> {
    let Ok(mut screen) = Screen::new(alloc, lang) else {
        return None;
    };
    let mut net = Network::new(alloc, lang).ok()?;
    take_back(&mut screen, lang, kept, &mut net, budget);
    turns(
        alloc,
        numbers,
        &mut screen,
        lang,
        kept,
        &mut net,
        budget,
        all,
        tally,
    )
}

/// The same over some language.
fn session(alloc: Global, numbers: &mut Numbers, tally: &mut Tally) -> Option<()> {
    let lang = some_language(alloc, numbers)?;
    let all = prefixes(alloc, lang.n(), lang.d())?;
    let budget = 1 + numbers.below(8) as u32;
    let Ok(mut kept) = Kept::of(alloc, &lang) else {
        return None;
    };
    begun(alloc, numbers, &lang, &mut kept, budget, &all, tally)
}

/// A first number, and how many languages: so many questions beside the plain list.
pub(crate) fn random(alloc: Global, arguments: &str) -> Option<String> {
    let mut words = arguments.split_whitespace();
    let mut numbers = Numbers::new(number(&mut words)?);
    let count = number::<u32>(&mut words)?;
    end(&mut words)?;
    let mut tally = Tally::new();
    for _ in 0..count {
        session(alloc, &mut numbers, &mut tally)?;
    }
    tally.text(alloc)
}

/// Adds the open ones of the first relations on a scope.
fn push_open(text: &mut String, screen: &Screen, scope: u16, relations: u8) -> Option<()> {
    for rel in 0..relations {
        if screen.is_open(Candidate { scope, rel }) {
            write!(text, ", {scope}.{rel} open").ok()?;
        }
    }
    Some(())
}

/// A question, and the candidates that are open, a scope past the last one included.
fn push_query(text: &mut String, lang: &Language, screen: &Screen, query: &Query) -> Option<()> {
    match query {
        Query::Ask(e) => {
            text.push_str("asks").ok()?;
            push_question(text, e)?;
        }
        Query::AllImplied => text.push_str("all implied").ok()?,
        Query::Undecided => text.push_str("undecided").ok()?,
    }
    for scope in 0..lang.scopes() as u16 {
        push_open(text, screen, scope, lang.relations_on(scope))?;
    }
    push_open(text, screen, lang.scopes() as u16, 1)
}

/// The first question over all candidates.
fn push_first(
    alloc: Global,
    text: &mut String,
    work: &mut Work,
    lang: &Language,
    kept: &Kept,
    budget: u32,
) -> Option<()> {
    let Ok(mut screen) = Screen::new(alloc, lang) else {
        return None;
    };
    let net = Network::new(alloc, lang).ok()?;
    let query = next_query(work, &mut screen, lang, kept, &net, budget);
    push_query(text, lang, &screen, &query)
}

/// A budget: the first question over all candidates.
pub(crate) fn first(alloc: Global, lang: &Language, arguments: &str) -> Option<String> {
    let budget = arguments.parse::<u32>().ok()?;
    if budget == 0 || budget > 1_000_000_000 {
        return None;
    }
    let mut work = Work::new(alloc, lang).ok()?;
    let Ok(kept) = Kept::of(alloc, lang) else {
        return None;
    };
    let mut text = String::new(alloc);
    push_first(alloc, &mut text, &mut work, lang, &kept, budget)?;
    Some(text)
}

/// How many marks a part of the candidates has.
pub(crate) fn marks(alloc: Global, lang: &Language) -> Option<String> {
    let place = Place::new(alloc, lang).ok()?;
    format!(in alloc; "{}", place.marks.len()).ok()
}
