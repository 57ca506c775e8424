//! What is still possible, beside a plain list.

use crate::tally::Tally;
use assign::Partial;
use bias_store::Kept;
use language::{Candidate, Language};
use rows::number;
use samples::{Numbers, question, question_in};
use std::alloc::Global;
use std::str::SplitWhitespace;

/// Strikes a question, and adds whether it strikes any, how many, and how many candidates are left.
fn push_strike(text: &mut String, lang: &Language, kept: &mut Kept, q: &Partial) -> Option<()> {
    let some = if kept.strikes_any(lang, q) {
        "some"
    } else {
        "none"
    };
    let struck = kept.strike(lang, q);
    write!(text, "\n{some}, {struck} struck, {} possible", kept.len()).ok()
}

/// Values of the variables: what they strike of all candidates, and then once more.
pub(crate) fn strikes(alloc: Global, lang: &Language, arguments: &str) -> Option<String> {
    let q = question_in(lang, arguments)?;
    let Ok(mut kept) = Kept::of(alloc, lang) else {
        return None;
    };
    let mut text = format!(in alloc; "{} possible", kept.len()).ok()?;
    push_strike(&mut text, lang, &mut kept, &q)?;
    push_strike(&mut text, lang, &mut kept, &q)?;
    Some(text)
}

/// A candidate of the plain list, of two variables with two values: the bits of `accepted` are one
/// for the tuples that it accepts of 22, 21, 12 and 11.
#[derive(Clone, Copy)]
struct Plain {
    scope: u16,
    rel: u8,
    first: u8,
    second: u8,
    accepted: u8,
}

impl Plain {
    fn is_violated(&self, q: &Partial) -> bool {
        let (Some(x), Some(y)) = (q.get(self.first), q.get(self.second)) else {
            return false;
        };
        let place = u32::from(x) * 2 + u32::from(y);
        place < 8 && (self.accepted >> place) & 1 == 0
    }
}

/// What each relation accepts, as the bits of `Plain`.
fn truths_in(alloc: Global, words: SplitWhitespace<'_>) -> Option<Vec<u8>> {
    let mut truths = Vec::new(alloc);
    for word in words {
        truths.push(u8::from_str_radix(word, 2).ok()?).ok()?;
    }
    Some(truths)
}

/// All candidates, by pairs of n variables in lexicographic order and then by relation.
fn all(alloc: Global, n: u8, truths: &[u8]) -> Option<Vec<Plain>> {
    let mut list = Vec::new(alloc);
    let mut scope = 0u16;
    for first in 0..n {
        for second in first + 1..n {
            push_scope(&mut list, scope, first, second, truths)?;
            scope = scope.wrapping_add(1);
        }
    }
    Some(list)
}

/// Adds the candidates on a pair.
fn push_scope(
    list: &mut Vec<Plain>,
    scope: u16,
    first: u8,
    second: u8,
    truths: &[u8],
) -> Option<()> {
    let mut rel = 0u8;
    for accepted in truths {
        list.push(Plain {
            scope,
            rel,
            first,
            second,
            accepted: *accepted,
        })
        .ok()?;
        rel = rel.wrapping_add(1);
    }
    Some(())
}

/// Whether the candidates on a scope are those of the list.
fn is_scope_listed(kept: &Kept, list: &[Plain], scope: u16) -> bool {
    for rel in 0..64 {
        let is_listed = list.iter().any(|c| c.scope == scope && c.rel == rel);
        if kept.is_kept(Candidate { scope, rel }) != is_listed {
            return false;
        }
    }
    true
}

/// The mask of the relations that are listed on a scope.
fn mask_of(list: &[Plain], scope: u16) -> u64 {
    let mut mask = 0;
    for c in list {
        if c.scope == scope && c.rel < 64 {
            mask |= 1u64 << c.rel;
        }
    }
    mask
}

/// Whether the store has the candidates of the list and no other, and none past the last scope.
fn is_listed(lang: &Language, kept: &Kept, list: &[Plain]) -> bool {
    for scope in 0..lang.scopes() as u16 {
        if !is_scope_listed(kept, list, scope) || kept.on_scope(scope) != mask_of(list, scope) {
            return false;
        }
    }
    let past = Candidate {
        scope: lang.scopes() as u16,
        rel: 0,
    };
    kept.len() as usize == list.len() && !kept.is_kept(past)
}

/// Strikes a question in both. Whether they then are the same.
fn strike(lang: &Language, kept: &mut Kept, list: &mut Vec<Plain>, q: &Partial) -> bool {
    let violated = list.iter().filter(|c| c.is_violated(q)).count();
    let strikes_any = kept.strikes_any(lang, q);
    let struck = kept.strike(lang, q) as usize;
    list.retain(|c| !c.is_violated(q));
    strikes_any == (violated != 0) && struck == violated && is_listed(lang, kept, list)
}

/// The mask of the relations that accept the tuple at a place, by what each accepts.
fn mask_at(truths: &[u8], place: u32) -> u64 {
    let mut mask = 0;
    for (rel, accepted) in truths.iter().enumerate() {
        if rel < 64 && place < 8 && (*accepted >> place) & 1 == 1 {
            mask |= 1u64 << rel;
        }
    }
    mask
}

/// Whether the store tells which relations on a scope accept what the question has there, of those
/// that are kept and of the others.
fn is_told_on(lang: &Language, kept: &Kept, truths: &[u8], q: &Partial, scope: u16) -> bool {
    match lang.place_on(scope, q) {
        None => true,
        Some(place) => kept.accepting(lang, scope, place) == mask_at(truths, place),
    }
}

/// The same on each scope.
fn is_told(lang: &Language, kept: &Kept, truths: &[u8], q: &Partial) -> bool {
    for scope in 0..lang.scopes() as u16 {
        if !is_told_on(lang, kept, truths, q, scope) {
            return false;
        }
    }
    true
}

/// Drops a scope in both. Whether they then are the same.
fn drop_scope(lang: &Language, kept: &mut Kept, list: &mut Vec<Plain>, scope: u16) -> bool {
    if u32::from(scope) >= lang.scopes() {
        return false;
    }
    kept.drop_scope(scope);
    list.retain(|c| c.scope != scope);
    is_listed(lang, kept, list)
}

/// Strikes of some questions and drops of some scopes, from all candidates on.
fn round(
    lang: &Language,
    kept: &mut Kept,
    list: &mut Vec<Plain>,
    truths: &[u8],
    numbers: &mut Numbers,
    tally: &mut Tally,
) {
    kept.reset(lang);
    tally.take(is_listed(lang, kept, list));
    let questions = 1u64 << lang.n().min(31);
    'steps: for _ in 0..8 {
        let asked = numbers.below(questions);
        let values = numbers.below(questions);
        let q = question(lang, u128::from(asked), u128::from(values));
        tally.take(strike(lang, kept, list, &q) && is_told(lang, kept, truths, &q));
        let scope = numbers.below(u64::from(lang.scopes())) as u16;
        tally.take(drop_scope(lang, kept, list, scope));
    }
}

/// So many rounds.
fn rounds(
    alloc: Global,
    lang: &Language,
    kept: &mut Kept,
    truths: &[u8],
    numbers: &mut Numbers,
    count: u32,
) -> Option<Tally> {
    let mut tally = Tally::new();
    for _ in 0..count {
        let mut list = all(alloc, lang.n(), truths)?;
        round(lang, kept, &mut list, truths, numbers, &mut tally);
    }
    Some(tally)
}

/// A first number, how many rounds, and what each relation accepts.
pub(crate) fn random(alloc: Global, lang: &Language, arguments: &str) -> Option<String> {
    let mut words = arguments.split_whitespace();
    let mut numbers = Numbers::new(number(&mut words)?);
    let count = number(&mut words)?;
    let truths = truths_in(alloc, words)?;
    let mut kept = Kept::of(alloc, lang).ok()?;
    rounds(alloc, lang, &mut kept, &truths, &mut numbers, count)?.text(alloc)
}
