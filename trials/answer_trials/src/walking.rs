//! Walks through the parts of an example.

use crate::sets::push_set;
use bias_store::Kept;
use language::{Candidate, Language};
use multi_tree::{Tree, TreeNext};
use network::Network;
use samples::{push_question, question_in};
use std::alloc::Global;

/// Whether something is learned on a scope.
pub(crate) fn is_taken(net: &Network, s: u16) -> bool {
    net.list().iter().any(|c| c.scope == s)
}

/// The first relation of a scope is learned.
fn learn(lang: &Language, net: &mut Network, scope: u16) {
    net.learn(Candidate { scope, rel: 0 });
}

/// The first relation is learned on each of these scopes.
fn learned(alloc: Global, lang: &Language, scopes: &str) -> Option<Network> {
    let Ok(mut net) = Network::new(alloc, lang) else {
        return None;
    };
    for word in scopes.split_whitespace() {
        let scope = word.parse::<u16>().ok()?;
        if u32::from(scope) >= lang.scopes()
            || lang.relations_on(scope) == 0
            || is_taken(&net, scope)
        {
            return None;
        }
        learn(lang, &mut net, scope);
    }
    Some(net)
}

/// All candidates but those on these scopes.
fn kept_without(alloc: Global, lang: &Language, scopes: &str) -> Option<Kept> {
    let Ok(mut kept) = Kept::of(alloc, lang) else {
        return None;
    };
    for word in scopes.split_whitespace() {
        let scope = word.parse::<u16>().ok()?;
        if u32::from(scope) >= lang.scopes() {
            return None;
        }
        kept.drop_scope(scope);
    }
    Some(kept)
}

/// Adds what a walk comes to next, and puts a set again, where that is said.
fn push_next(
    text: &mut String,
    lang: &Language,
    tree: &mut Tree,
    net: &Network,
    kept: &Kept,
    is_again: bool,
) -> Option<()> {
    write!(text, "\n{} learned, {} possible, ", net.len(), kept.len()).ok()?;
    match tree.next(lang, net, kept) {
        TreeNext::Ask(set) => {
            if is_again {
                tree.again();
            }
            text.push_str("asks").ok()?;
            push_set(text, set)
        }
        TreeNext::End => text.push_str("end").ok(),
        TreeNext::Capped => text.push_str("cut off").ok(),
    }
}

/// `SCOPES without OTHERS` or `SCOPES without OTHERS again`: what is learned, and on which scopes
/// nothing is possible.
fn push_step(
    alloc: Global,
    text: &mut String,
    lang: &Language,
    tree: &mut Tree,
    step: &str,
) -> Option<()> {
    let (scopes, others) = step.split_once("without")?;
    let (others, is_again) = match others.split_once("again") {
        Some((others, _)) => (others, true),
        None => (others, false),
    };
    let net = learned(alloc, lang, scopes)?;
    let kept = kept_without(alloc, lang, others)?;
    push_next(text, lang, tree, &net, &kept, is_again)
}

/// Takes one step after the other.
fn push_steps(
    alloc: Global,
    text: &mut String,
    lang: &Language,
    tree: &mut Tree,
    steps: &str,
) -> Option<()> {
    for step in steps.split(',') {
        push_step(alloc, text, lang, tree, step)?;
    }
    Some(())
}

/// `VALUES: STEP, STEP, ..`: the example, and what its walk comes to at each step.
pub(crate) fn walks(alloc: Global, lang: &Language, arguments: &str) -> Option<String> {
    let (example, steps) = arguments.split_once(':')?;
    let example = question_in(lang, example)?;
    let mut tree = Tree::make(alloc).ok()?;
    tree.start(lang, example);
    let mut text = String::from_str(alloc, "example").ok()?;
    push_question(&mut text, &tree.example())?;
    push_steps(alloc, &mut text, lang, &mut tree, steps)?;
    Some(text)
}
