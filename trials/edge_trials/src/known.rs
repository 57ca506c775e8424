//! Texts that were worked out by hand: of clauses, of models that a solver may print, and of what
//! remains of a network.

use fd_solver::Work;
use language::Language;
use net_cnf::{cnf_text, model_fault_text, read_model, solution_text, too_large_text};
use net_reduce::{ReduceFault, reduce, reduced_text, spent_text};
use network::{Network, read_network};
use rows::{push_text, text_in};
use std::alloc::Global;

/// A text on one line.
fn on_a_line(alloc: Global, text: &str) -> Option<String> {
    let mut line = String::new(alloc);
    push_text(&mut line, text)?;
    Some(line)
}

/// A network in JSON: its clauses.
pub(crate) fn cnf(alloc: Global, lang: &Language, arguments: &str) -> Option<String> {
    let net = read_network(alloc, lang, arguments.as_bytes()).ok()?;
    on_a_line(alloc, cnf_text(alloc, lang, &net).ok()?.as_str())
}

/// What is told of clauses that are too many.
pub(crate) fn too_large(alloc: Global) -> Option<String> {
    on_a_line(alloc, too_large_text(alloc).ok()?.as_str())
}

/// What is told of a model of a network.
fn told(alloc: Global, lang: &Language, net: &Network, model: &[u8]) -> Option<String> {
    match read_model(alloc, lang, net, model) {
        Ok(e) => solution_text(alloc, lang, &e).ok(),
        Err(fault) => model_fault_text(alloc, &fault).ok(),
    }
}

/// A network in JSON, and behind a blank the text of a model: what is told of it.
pub(crate) fn model(alloc: Global, lang: &Language, arguments: &str) -> Option<String> {
    let (network, written) = arguments.split_once(' ').unwrap_or((arguments, ""));
    let text = text_in(alloc, written)?;
    let net = read_network(alloc, lang, network.as_bytes()).ok()?;
    on_a_line(alloc, told(alloc, lang, &net, text.as_bytes())?.as_str())
}

/// What is told of a network that is reduced under a budget.
fn remains(alloc: Global, lang: &Language, net: &Network, budget: u32) -> Option<String> {
    let mut work = Work::new(alloc, lang).ok()?;
    match reduce(alloc, &mut work, lang, net, budget.clamp(1, 1_000_000_000)) {
        Ok(part) => reduced_text(alloc, lang, &part, net.len()).ok(),
        Err(ReduceFault::Spent(i)) => spent_text(alloc, i).ok(),
        Err(ReduceFault::Memory) => None,
    }
}

/// A budget from 1 to 1,000,000,000, and a network in JSON: what is told of what remains of it.
pub(crate) fn reduced(alloc: Global, lang: &Language, arguments: &str) -> Option<String> {
    let (budget, network) = arguments.split_once(' ')?;
    let budget = budget.parse::<u32>().ok()?;
    let net = read_network(alloc, lang, network.as_bytes()).ok()?;
    on_a_line(alloc, remains(alloc, lang, &net, budget)?.as_str())
}
