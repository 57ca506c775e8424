//! Networks that are learned, and networks that are read.

use crate::languages::question_in;
use language::{Candidate, Language};
use network::{Network, net_text, network_text, read_network};
use samples::is_candidate;
use std::alloc::Global;

/// Whether something is learned on a scope.
fn is_taken(net: &Network, s: u16) -> bool {
    net.list().iter().any(|c| c.scope == s)
}

/// Learns a candidate on a scope that has none.
fn learn(lang: &Language, net: &mut Network, c: Candidate) {
    net.learn(c);
}

/// The candidate `SCOPE.RELATION`.
fn candidate_in(word: &str) -> Option<Candidate> {
    let (scope, rel) = word.split_once('.')?;
    Some(Candidate {
        scope: scope.parse().ok()?,
        rel: rel.parse().ok()?,
    })
}

/// Learns these candidates in this order, each on a scope that has none.
fn learn_all(lang: &Language, net: &mut Network, list: &str) -> Option<()> {
    for word in list.split_whitespace() {
        let c = candidate_in(word)?;
        if !is_candidate(lang, c) || is_taken(net, c.scope) {
            return None;
        }
        learn(lang, net, c);
    }
    Some(())
}

/// The network that learns candidates, and where others stand behind ` then`, forgets them all and
/// learns the others.
fn network_in(alloc: Global, lang: &Language, text: &str) -> Option<Network> {
    let mut net = Network::new(alloc, lang).ok()?;
    let Some((list, others)) = text.split_once(" then") else {
        learn_all(lang, &mut net, text)?;
        return Some(net);
    };
    learn_all(lang, &mut net, list)?;
    net.clear();
    learn_all(lang, &mut net, others)?;
    Some(net)
}

/// The text of a network, and how many candidates it has.
fn text_of(alloc: Global, lang: &Language, net: &Network) -> Option<String> {
    let text = network_text(alloc, lang, net).ok()?;
    let len = net.len();
    format!(in alloc; "{len} learned\n{text}").ok()
}

/// Candidates `SCOPE.RELATION`: the network that has learned them in this order.
pub(crate) fn learned(alloc: Global, lang: &Language, arguments: &str) -> Option<String> {
    let net = network_in(alloc, lang, arguments)?;
    text_of(alloc, lang, &net)
}

/// Candidates, and what is asked: whether the network accepts it.
pub(crate) fn accepts(alloc: Global, lang: &Language, arguments: &str) -> Option<String> {
    let (list, asked) = arguments.split_once(" at")?;
    let q = question_in(alloc, lang, &mut asked.split_whitespace())?;
    let net = network_in(alloc, lang, list)?;
    let said = if net.accepts(lang, &q) { "yes" } else { "no" };
    String::from_str(alloc, said).ok()
}

/// Adds each candidate of a network, by its number from 0.
fn push_items(text: &mut String, net: &Network) -> Option<()> {
    for i in 0..net.len() {
        let c = net.item(i);
        if net.list().get(i as usize) != Some(&c) {
            return None;
        }
        let (scope, rel) = (c.scope, c.rel);
        writeln!(text, "{scope}.{rel}").ok()?;
    }
    Some(())
}

/// Candidates: the network's candidates by their numbers.
pub(crate) fn items(alloc: Global, lang: &Language, arguments: &str) -> Option<String> {
    let net = network_in(alloc, lang, arguments)?;
    let mut text = String::new(alloc);
    push_items(&mut text, &net)?;
    Some(text)
}

/// A network in JSON: its text, or that of the refusal.
pub(crate) fn read(alloc: Global, lang: &Language, arguments: &str) -> Option<String> {
    match read_network(alloc, lang, arguments.as_bytes()) {
        Ok(net) => network_text(alloc, lang, &net).ok(),
        Err(fault) => net_text(alloc, fault).ok(),
    }
}
