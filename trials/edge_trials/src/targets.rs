//! Generated languages and networks, beside those of a plain loop.

use language::{Candidate, Language};
use rows::{Distinct, end, number};
use std::alloc::Global;
use target_oracle::generate;

/// One draw more of a plain generator.
fn drawn(x: &mut u64, below: u64) -> u64 {
    *x = x
        .wrapping_mul(6_364_136_223_846_793_005)
        .wrapping_add(1_442_695_040_888_963_407);
    (*x >> 32) % below
}

/// Whether relation r accepts two values: `le`, `ge`, `le&ge`, `ne`, `le&ne`, `ge&ne`, `le&ge&ne`.
fn is_accepted(r: u64, x: u64, y: u64) -> bool {
    match r {
        0 => x <= y,
        1 => x >= y,
        2 => x == y,
        3 => x != y,
        4 => x < y,
        5 => x > y,
        _ => false,
    }
}

/// The candidates of a number, by a plain loop.
fn plain_target(alloc: Global, number: u32) -> Option<Vec<Candidate>> {
    let mut x = u64::from(number);
    let mut hidden = [0u64; 10];
    for v in 0..10usize {
        hidden[v] = drawn(&mut x, 3);
    }
    let mut target = Vec::new(alloc);
    let mut scope = 0u16;
    for v in 0..10usize {
        for w in v + 1..10 {
            let rel = drawn(&mut x, 7) as u8;
            if is_accepted(u64::from(rel), hidden[v], hidden[w]) {
                target.push(Candidate { scope, rel }).ok()?;
            }
            scope = scope.saturating_add(1);
        }
    }
    Some(target)
}

/// What the targets of a row came to.
#[derive(Drop)]
struct Log {
    /// How many variables, values, scopes and candidates their languages have.
    counts: Distinct,
    targets: u32,
    items: usize,
    odd: u32,
    lines: String,
}

/// How many variables, values, scopes and candidates a language has.
fn counts_of(alloc: Global, lang: &Language) -> Option<String> {
    let (n, d) = (lang.n(), lang.d());
    let (scopes, candidates) = (lang.scopes(), lang.candidates());
    format!(in alloc; "{n} variables, {d} values, {scopes} scopes, {candidates} candidates").ok()
}

/// Generates the language and the network of a number.
fn try_number(alloc: Global, number: u32, log: &mut Log) -> Option<()> {
    let (lang, net) = generate(alloc, number).ok()?;
    log.counts.add(counts_of(alloc, &lang)?)?;
    take(alloc, number, net.list(), log)
}

/// Holds a network against that of the plain loop.
fn take(alloc: Global, number: u32, list: &[Candidate], log: &mut Log) -> Option<()> {
    log.targets = log.targets.saturating_add(1);
    log.items = log.items.saturating_add(list.len());
    let plain = plain_target(alloc, number)?;
    if list != plain.as_slice() {
        log.odd = log.odd.saturating_add(1);
        writeln!(log.lines, "number {number}").ok()?;
    }
    Some(())
}

/// What came of them.
fn text_of(alloc: Global, log: Log) -> Option<String> {
    let Log {
        counts,
        targets,
        items,
        odd,
        lines,
    } = log;
    let counts = counts.text(alloc)?;
    format!(in alloc; "{targets} targets of {counts}\n{items} items\n{odd} odd\n{lines}").ok()
}

/// The first and the last number: what their languages and networks are.
pub(crate) fn targets(alloc: Global, arguments: &str) -> Option<String> {
    let mut words = arguments.split_whitespace();
    let first = number::<u32>(&mut words)?;
    let last = number::<u32>(&mut words)?;
    end(&mut words)?;
    let mut log = Log {
        counts: Distinct::new(alloc),
        targets: 0,
        items: 0,
        odd: 0,
        lines: String::new(alloc),
    };
    for number in first..=last {
        try_number(alloc, number, &mut log)?;
    }
    text_of(alloc, log)
}
