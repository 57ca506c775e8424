//! Journals as they open.

use crate::files::{disk_with, plan_word};
use crate::steps::push_event;
use answer_journal::{JFault, Opened, open};
use assign::Event;
use disk_model::MemDisk;
use rows::{bytes_in, push_bytes};
use std::alloc::Global;

pub(crate) fn fault_text(alloc: Global, fault: JFault) -> Option<String> {
    format!(in alloc; "{fault}").ok()
}

/// How many events a journal has, and whether it is raised.
pub(crate) fn count_text(alloc: Global, opened: &Opened) -> Option<String> {
    let raised = if opened.journal.is_raised() {
        "raised, "
    } else {
        ""
    };
    format!(in alloc; "{raised}{} events", opened.events.len()).ok()
}

/// How a file opens: how many events it has, or why it is refused.
pub(crate) fn read_from(alloc: Global, disk: &mut MemDisk) -> Option<String> {
    match open(alloc, disk) {
        Ok(opened) => count_text(alloc, &opened),
        Err(fault) => fault_text(alloc, fault),
    }
}

pub(crate) fn read_of(alloc: Global, bytes: &[u8]) -> Option<String> {
    read_from(alloc, &mut disk_with(alloc, bytes)?)
}

/// All that a journal says.
fn whole_text(alloc: Global, opened: &Opened) -> Option<String> {
    let records = opened.journal.records();
    let plan = plan_word(opened.plan);
    let mut text = format!(in alloc; "{records} records\n{plan}\n").ok()?;
    push_bytes(&mut text, &opened.voc)?;
    if opened.journal.is_raised() {
        text.push_str("\nraised").ok()?;
    }
    for i in 0..opened.events.len() {
        push_event(&mut text, "\n", &opened.events.get(i))?;
    }
    Some(text)
}

/// Bytes: what a file says that has them behind those of `over`.
pub(crate) fn opens(alloc: Global, over: &str, arguments: &str) -> Option<String> {
    let mut bytes = bytes_in(alloc, over)?;
    bytes.extend_from_slice(&bytes_in(alloc, arguments)?).ok()?;
    let mut disk = disk_with(alloc, &bytes)?;
    match open(alloc, &mut disk) {
        Ok(opened) => whole_text(alloc, &opened),
        Err(fault) => fault_text(alloc, fault),
    }
}

/// A file with a record so many times behind its front, and a closed gate.
fn with_record(alloc: Global, front: &[u8], record: &[u8], times: u8) -> Option<Vec<u8>> {
    let mut bytes = front.to_vec(alloc).ok()?;
    for _ in 0..times {
        bytes.extend_from_slice(record).ok()?;
    }
    bytes.push(0).ok()?;
    Some(bytes)
}

/// Adds the last answer of a journal once more.
fn repeat_last(alloc: Global, disk: &mut MemDisk) -> Option<()> {
    let mut opened = match open(alloc, disk) {
        Ok(opened) => opened,
        Err(_) => return None,
    };
    let last = opened.events.len().checked_sub(1)?;
    let Event::Answer { question, yes } = opened.events.get(last) else {
        return None;
    };
    let event = Event::Answer { question, yes };
    opened.journal.append(disk, &event).ok()
}

/// Holds a file against these bytes, and says how it opens.
fn read_beside(alloc: Global, disk: &mut MemDisk, wanted: &[u8]) -> Option<String> {
    if disk.content() == wanted {
        read_from(alloc, disk)
    } else {
        String::from_str(alloc, "other bytes").ok()
    }
}

/// Adds the answer of a record once more, and says how the file then opens.
fn repeated(alloc: Global, front: &[u8], record: &[u8]) -> Option<String> {
    let mut disk = disk_with(alloc, &with_record(alloc, front, record, 1)?)?;
    repeat_last(alloc, &mut disk)?;
    read_beside(alloc, &mut disk, &with_record(alloc, front, record, 2)?)
}

/// A record of an answer: a file that has it gets the answer again, and has to have the same bytes
/// twice.
pub(crate) fn again(alloc: Global, over: &str, arguments: &str) -> Option<String> {
    repeated(alloc, &bytes_in(alloc, over)?, &bytes_in(alloc, arguments)?)
}
