//! Sets of variables, and assignments.

use assign::{Partial, VarSet};
use rows::number;
use std::alloc::Global;

/// A variable's number.
fn variable_in(word: &str) -> Option<u8> {
    let v = word.parse().ok()?;
    if v < 128 { Some(v) } else { None }
}

/// The set of these variables, one after the other: `all`, a number to put in, or a number behind a
/// `-` to take out.
fn set_in(text: &str) -> Option<VarSet> {
    let mut set = VarSet::empty();
    for word in text.split_whitespace() {
        set = match word.strip_prefix('-') {
            Some(taken) => set.without(variable_in(taken)?),
            None if word == "all" => VarSet::all(128),
            None => set.with(variable_in(word)?),
        };
    }
    Some(set)
}

fn push_members(text: &mut String, title: &str, set: VarSet) -> Option<()> {
    text.push_str(title).ok()?;
    for v in 0..128 {
        if set.has(v) {
            write!(text, " {v}").ok()?;
        }
    }
    text.push('\n').ok()
}

fn push_halves(text: &mut String, set: VarSet) -> Option<()> {
    let half = set.first_half();
    push_members(text, "half", half)?;
    push_members(text, "rest", set.minus(half))?;
    match set.least() {
        Some(v) => write!(text, "least {v}").ok(),
        None => text.push_str("no least").ok(),
    }
}

/// The least half of a set, rounded up, what it leaves, and the least member.
pub(crate) fn halves(alloc: Global, arguments: &str) -> Option<String> {
    let set = set_in(arguments)?;
    let mut text = String::new(alloc);
    push_halves(&mut text, set)?;
    Some(text)
}

fn push_first(text: &mut String, set: VarSet) -> Option<()> {
    let count = set.len();
    writeln!(text, "{count} variables").ok()?;
    push_members(text, "half", set.first_half())
}

/// A number: how many variables are below it, and the least half of these.
pub(crate) fn first(alloc: Global, arguments: &str) -> Option<String> {
    let n = arguments.parse().ok()?;
    if n > 128 {
        return None;
    }
    let mut text = String::new(alloc);
    push_first(&mut text, VarSet::all(n))?;
    Some(text)
}

fn push_pair(text: &mut String, one: VarSet, other: VarSet) -> Option<()> {
    push_members(text, "union", one.union(other))?;
    push_members(text, "minus", one.minus(other))?;
    let within = if one.within(other) {
        "within"
    } else {
        "not within"
    };
    let equal = if one == other { "equal" } else { "not equal" };
    write!(text, "{within}, {equal}").ok()
}

/// Two sets: the members of one or both, those of the first that the second lacks, and how the
/// first stands to the second.
pub(crate) fn sets(alloc: Global, arguments: &str) -> Option<String> {
    let (one, other) = arguments.split_once(" and ")?;
    let one = set_in(one)?;
    let other = set_in(other)?;
    let mut text = String::new(alloc);
    push_pair(&mut text, one, other)?;
    Some(text)
}

/// How many variables there are, and pairs `VARIABLE=VALUE`.
fn assignment_in(text: &str) -> Option<Partial> {
    let mut words = text.split_whitespace();
    let n = number::<u8>(&mut words)?;
    if n < 1 || n > 128 {
        return None;
    }
    let mut e = Partial::blank(n);
    for word in words {
        let (v, value) = word.split_once('=')?;
        let v = variable_in(v)?;
        if v >= e.len() {
            return None;
        }
        e.set(v, value.parse().ok()?);
    }
    Some(e)
}

/// The values, also at numbers past the variables, the variables that have one, and whether each
/// has.
fn push_assignment(text: &mut String, e: &Partial) -> Option<()> {
    text.push_str("values").ok()?;
    for v in 0..=u8::MAX {
        if let Some(value) = e.get(v) {
            write!(text, " {v}={value}").ok()?;
        }
    }
    text.push('\n').ok()?;
    push_members(text, "variables", e.vars())?;
    text.push_str(if e.is_complete() { "complete" } else { "open" })
        .ok()
}

fn text_of(alloc: Global, e: &Partial) -> Option<String> {
    let mut text = String::new(alloc);
    push_assignment(&mut text, e)?;
    Some(text)
}

/// An assignment.
pub(crate) fn assigned(alloc: Global, arguments: &str) -> Option<String> {
    text_of(alloc, &assignment_in(arguments)?)
}

/// The same on a set alone.
pub(crate) fn restricted(alloc: Global, over: &str, arguments: &str) -> Option<String> {
    let set = set_in(arguments)?;
    text_of(alloc, &assignment_in(over)?.restrict(set))
}

/// The same where a variable's value is taken away.
pub(crate) fn cleared(alloc: Global, over: &str, arguments: &str) -> Option<String> {
    let v = variable_in(arguments)?;
    let mut e = assignment_in(over)?;
    if v >= e.len() {
        return None;
    }
    e.clear(v);
    text_of(alloc, &e)
}

/// The same of its first variables alone.
pub(crate) fn cut(alloc: Global, over: &str, arguments: &str) -> Option<String> {
    let n = arguments.parse().ok()?;
    let e = assignment_in(over)?;
    if n < 1 || n > e.len() {
        return None;
    }
    text_of(alloc, &e.cut_to(n))
}

fn said(is_same: bool) -> &'static str {
    if is_same { "the same" } else { "not the same" }
}

/// Whether another one is the same.
pub(crate) fn compared(alloc: Global, over: &str, arguments: &str) -> Option<String> {
    let e = assignment_in(over)?;
    let other = assignment_in(arguments)?;
    String::from_str(alloc, said(e.equals(&other))).ok()
}

/// How many options it has as an event holds it, and whether it is the same then, and when it is
/// cut to its variables again.
fn recorded_text(alloc: Global, e: &Partial) -> Option<String> {
    let event = e.widened();
    if e.len() > event.len() {
        return None;
    }
    let cut = event.cut_to(e.len());
    format!(in alloc;
        "{} options\n{}\n{} when it is cut",
        event.len(),
        said(event.equals(e)),
        said(cut.equals(e))
    )
    .ok()
}

/// An assignment on a set alone, as an event holds it.
pub(crate) fn recorded(alloc: Global, over: &str, arguments: &str) -> Option<String> {
    let set = set_in(arguments)?;
    recorded_text(alloc, &assignment_in(over)?.restrict(set))
}
