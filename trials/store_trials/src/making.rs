//! Journals that are made and added to: their bytes, calls that fail in turn, and crashes.

use crate::files::{disk_with, plan_in};
use crate::journals::{fault_text, read_from};
use crate::leaving::{Told, left};
use crate::questions::question_in;
use answer_journal::{JFault, Journal, create};
use assign::{Event, Plan};
use disk_model::{Disk, FuseDisk, MemDisk};
use rows::{bytes_in, push_bytes};
use std::alloc::Global;

/// Why no journal is made of a row.
#[derive(Clone, Copy)]
enum Stop {
    /// The row is malformed.
    Row,
    Fault(JFault),
}

impl From<JFault> for Stop {
    fn from(fault: JFault) -> Self {
        Stop::Fault(fault)
    }
}

/// Adds an answer, `yes` or `no` and its question.
fn add_answer<D: Disk>(disk: &mut D, journal: &mut Journal, text: &str) -> Result<(), Stop> {
    let (said, pairs) = text.split_once(' ').unwrap_or((text, ""));
    let Some(question) = question_in(pairs) else {
        return Err(Stop::Row);
    };
    let yes = said == "yes";
    if !yes && said != "no" {
        return Err(Stop::Row);
    }
    journal.append(disk, &Event::Answer { question, yes })?;
    Ok(())
}

/// Adds an answer, raises the journal, or takes back.
fn add<D: Disk>(disk: &mut D, journal: &mut Journal, text: &str) -> Result<(), Stop> {
    match text {
        "raise" if !journal.is_raised() => Ok(journal.raise(disk)?),
        "back" if journal.is_raised() => Ok(journal.append(disk, &Event::Back)?),
        _ => add_answer(disk, journal, text),
    }
}

/// Makes a journal of a plan and a vocabulary, and adds to it: `PLAN EVENT, EVENT, ..`.
fn make<D: Disk>(alloc: Global, disk: &mut D, voc: &str, script: &str) -> Result<(), Stop> {
    let (plan, events) = script.split_once(' ').unwrap_or((script, ""));
    let Some((plan, _)) = plan_in(plan) else {
        return Err(Stop::Row);
    };
    if voc.len() > 1000 {
        return Err(Stop::Row);
    }
    let mut journal = create(alloc, disk, plan, voc.as_bytes())?;
    for text in events.split_terminator(", ") {
        add(disk, &mut journal, text)?;
    }
    Ok(())
}

/// The bytes of a journal that is made.
pub(crate) fn makes(alloc: Global, over: &str, arguments: &str) -> Option<String> {
    let mut disk = disk_with(alloc, &[])?;
    make(alloc, &mut disk, over, arguments).ok()?;
    let mut text = format!(in alloc; "{} bytes\n", disk.content().len()).ok()?;
    push_bytes(&mut text, disk.content())?;
    Some(text)
}

/// Whether a journal is made over a disk that passes so many calls, and how the file then opens.
pub(crate) fn stopped(alloc: Global, voc: &str, script: &str, passes: u32) -> Option<String> {
    let mut fuse = FuseDisk::new(disk_with(alloc, &[])?, passes);
    let made = match make(alloc, &mut fuse, voc, script) {
        Ok(()) => "made",
        Err(Stop::Fault(_)) => "stopped",
        Err(Stop::Row) => return None,
    };
    let read = read_from(alloc, &mut fuse.into_inner())?;
    format!(in alloc; "{made}, {read}").ok()
}

/// How the contents open that a crash may leave at each moment while a journal is made, and how
/// many moments there are.
pub(crate) fn crashes(alloc: Global, over: &str, arguments: &str) -> Option<String> {
    let mut disk = disk_with(alloc, &[])?;
    make(alloc, &mut disk, over, arguments).ok()?;
    left(alloc, &disk, Told::Journal)
}

/// What comes of making a journal on a file.
fn created(alloc: Global, disk: &mut MemDisk, voc: &str) -> Option<String> {
    if voc.len() > 1000 {
        return None;
    }
    match create(alloc, disk, Plan::Quacq, voc.as_bytes()) {
        Ok(_) => String::from_str(alloc, "made").ok(),
        Err(fault) => fault_text(alloc, fault),
    }
}

/// Adds the bytes of a file, and how they open.
fn push_file(alloc: Global, text: &mut String, disk: &mut MemDisk) -> Option<()> {
    text.push('\n').ok()?;
    push_bytes(text, disk.content())?;
    let read = read_from(alloc, disk)?;
    write!(text, "\n{read}").ok()
}

/// The bytes of a file: whether a journal is made on it, the bytes that stand there then, and how
/// they open.
pub(crate) fn replaces(alloc: Global, over: &str, arguments: &str) -> Option<String> {
    let mut disk = disk_with(alloc, &bytes_in(alloc, arguments)?)?;
    let mut text = created(alloc, &mut disk, over)?;
    push_file(alloc, &mut text, &mut disk)?;
    Some(text)
}
