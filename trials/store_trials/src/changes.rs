//! Files that were cut, and files with a changed byte.

use crate::files::disk_with;
use crate::journals::{count_text, fault_text, read_of};
use crate::leaving::add_at;
use answer_journal::{Events, Opened, open};
use assign::{Event, Partial, Plan};
use rows::{Runs, bytes_in};
use std::alloc::Global;

/// Adds how a file opens that was cut to a length.
fn add_cut(alloc: Global, runs: &mut Runs, bytes: &[u8], size: usize) -> Option<()> {
    let said = read_of(alloc, bytes.get(..size)?)?;
    add_at(alloc, runs, size, said)
}

/// How a file opens that was cut to each length, from none up to all of it.
pub(crate) fn cuts(alloc: Global, over: &str) -> Option<String> {
    let bytes = bytes_in(alloc, over)?;
    let mut runs = Runs::new(alloc);
    for size in 0..=bytes.len() {
        add_cut(alloc, &mut runs, &bytes, size)?;
    }
    Some(runs.text())
}

/// Whether a question has the two values that stand from a byte on.
fn has_pairs(bytes: &[u8], at: usize, question: &Partial) -> bool {
    let Some([v, x, w, y]) = bytes.get(at..at.saturating_add(4)) else {
        return false;
    };
    question.vars().len() == 2 && question.get(*v) == Some(*x) && question.get(*w) == Some(*y)
}

/// Whether each event is the answer, to two variables, of the record whose gate stands at this
/// place.
fn are_at(bytes: &[u8], gate: usize, events: &Events) -> bool {
    for i in 0..events.len() {
        let Event::Answer { question, yes } = events.get(i) else {
            return false;
        };
        if bytes.get(gate.saturating_add(6)) != Some(&u8::from(yes))
            || !has_pairs(bytes, gate.saturating_add(8), &question)
        {
            return false;
        }
    }
    true
}

/// Whether what is read of a journal with at most one answer, to two variables, is what stands
/// there.
fn is_as_written(bytes: &[u8], opened: &Opened) -> bool {
    let Some(size) = bytes.get(13) else {
        return false;
    };
    let end = usize::from(*size).saturating_add(14);
    let plan = match opened.plan {
        Plan::Scopes => 1,
        Plan::Quacq => 2,
        Plan::Multi => 3,
    };
    bytes.get(14) == Some(&plan)
        && bytes.get(15..end) == Some(opened.voc.as_slice())
        && are_at(bytes, end, &opened.events)
}

/// How a file opens, of which what is read is held against its bytes.
fn read_changed(alloc: Global, bytes: &[u8]) -> Option<String> {
    let mut disk = disk_with(alloc, bytes)?;
    match open(alloc, &mut disk) {
        Ok(opened) => {
            if is_as_written(bytes, &opened) {
                count_text(alloc, &opened)
            } else {
                String::from_str(alloc, "something else").ok()
            }
        }
        Err(fault) => fault_text(alloc, fault),
    }
}

/// A file with a byte changed to this value.
fn add_change(
    alloc: Global,
    runs: &mut Runs,
    bytes: &mut [u8],
    place: usize,
    value: u8,
) -> Option<()> {
    *bytes.get_mut(place)? = value;
    let said = read_changed(alloc, bytes)?;
    runs.add(&format!(in alloc; "{place}={value}").ok()?, said)
}

/// The same for each value that the byte hasn't.
fn add_changes(alloc: Global, runs: &mut Runs, bytes: &mut [u8], place: usize) -> Option<()> {
    let old = *bytes.get(place)?;
    for value in 0..=255u8 {
        if value != old {
            add_change(alloc, runs, bytes, place, value)?;
        }
    }
    *bytes.get_mut(place)? = old;
    Some(())
}

/// The first and the last place: how a file opens with the byte at one of them changed.
pub(crate) fn changes(alloc: Global, over: &str, arguments: &str) -> Option<String> {
    let (first, last) = arguments.split_once(' ')?;
    let first = first.parse::<usize>().ok()?;
    let last = last.parse::<usize>().ok()?;
    let mut bytes = bytes_in(alloc, over)?;
    let mut runs = Runs::new(alloc);
    for place in first..=last {
        add_changes(alloc, &mut runs, &mut bytes, place)?;
    }
    Some(runs.text())
}
