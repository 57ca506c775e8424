//! Commands of a row, and what comes of them.

use crate::doors::Door;
use crate::rows::Step;
use crate::texts::{shown, words_of};
use acq_cli::acquire;
use acq_io::{MemSink, MemSource};
use disk_model::{Disk, MemDisk, Room};
use std::alloc::{AllocError, Global};
use std::thread::Threads;

/// The most that a row's journal and the writes of one command take.
const ROOM: Room = Room {
    bytes: 1_000_000,
    calls: 10_000,
};

/// What came of a command.
#[derive(Drop)]
pub(crate) struct Came {
    pub(crate) status: u8,
    pub(crate) text: Vec<u8>,
    pub(crate) left: Vec<u8>,
    /// Whether the parts of its searches have met as they have to.
    pub(crate) has_met: bool,
}

/// Runs the program.
fn run<R: Threads + Sync, D: Disk>(
    rt: &R,
    alloc: Global,
    words: &[String],
    source: &mut MemSource,
    sink: &mut MemSink,
    disk: &mut D,
    door: &Door,
) -> Result<Came, AllocError> {
    let status = acquire(rt, alloc, words, source, sink, disk, door).status();
    Ok(Came {
        status,
        text: sink.bytes().to_vec(alloc)?,
        left: source.left().to_vec(alloc)?,
        has_met: door.is_well(),
    })
}

/// What words and an input have the program print over a journal that has these bytes.
pub(crate) fn printed(
    rt: &(impl Threads + Sync),
    alloc: Global,
    words: &[String],
    input: &str,
    content: &[u8],
) -> Result<Vec<u8>, AllocError> {
    let mut source = source_of(alloc, input.as_bytes(), &[])?;
    let mut disk = disk_of(alloc, content, &[])?;
    let mut sink = MemSink::new(alloc, Vec::new(alloc));
    let came = run(
        rt,
        alloc,
        words,
        &mut source,
        &mut sink,
        &mut disk,
        &Door::Open,
    )?;
    Ok(came.text)
}

/// Runs a command over a disk, where these calls of the input and of the output fail.
pub(crate) fn come_of<R: Threads + Sync, D: Disk>(
    rt: &R,
    alloc: Global,
    step: &Step,
    reads: &[u32],
    writes: &[u32],
    disk: &mut D,
) -> Result<Came, AllocError> {
    let mut source = source_of(alloc, &step.input, reads)?;
    let mut sink = MemSink::new(alloc, writes.to_vec(alloc)?);
    let door = Door::of(step.looks);
    run(rt, alloc, &step.words, &mut source, &mut sink, disk, &door)
}

fn source_of(alloc: Global, input: &[u8], fails: &[u32]) -> Result<MemSource, AllocError> {
    let bytes = input.to_vec(alloc)?;
    Ok(MemSource::new(bytes, fails.to_vec(alloc)?))
}

/// A disk with these bytes, of which these calls fail. Want of room counts as want of memory.
pub(crate) fn disk_of(alloc: Global, content: &[u8], fails: &[u32]) -> Result<MemDisk, AllocError> {
    if content.len() > 1_000_000 {
        return Err(AllocError);
    }
    let bytes = content.to_vec(alloc)?;
    match MemDisk::new(alloc, bytes, fails.to_vec(alloc)?, ROOM) {
        Ok(disk) => Ok(disk),
        Err(_) => Err(AllocError),
    }
}

/// Whether the text is the one that is wanted.
fn is_text(step: &Step, text: &[u8]) -> bool {
    let Some(gap) = step.gap else {
        return text == step.wanted.as_slice();
    };
    match step.wanted.split_at_checked(gap) {
        Some((head, tail)) => {
            text.len() >= step.wanted.len() && text.starts_with(head) && text.ends_with(tail)
        }
        None => false,
    }
}

/// Whether that came of a command which the row wants.
pub(crate) fn is_met(step: &Step, came: &Came) -> bool {
    let is_left = match &step.left {
        Some(left) => left.as_slice() == came.left.as_slice(),
        None => true,
    };
    is_left && came.has_met && step.status == Some(came.status) && is_text(step, &came.text)
}

/// What came, for a report.
pub(crate) fn told(alloc: Global, came: &Came) -> Result<String, AllocError> {
    let text = shown(alloc, &came.text)?;
    let left = shown(alloc, &came.left)?;
    let odd = if came.has_met {
        ""
    } else {
        ", and parts of a search haven't met as they have to"
    };
    format!(in alloc;
        "status {}, printed `{text}`, left `{left}`{odd}",
        came.status
    )
}

/// The journal before the command, where it was this.
pub(crate) fn edited(alloc: Global, step: &Step, content: &[u8]) -> Result<Vec<u8>, AllocError> {
    let mut bytes = match &step.journal {
        Some(journal) => journal.to_vec(alloc)?,
        None => content.to_vec(alloc)?,
    };
    if let Some(size) = step.cut {
        bytes.truncate(size);
    }
    if let Some((at, new)) = &step.set {
        write_over(&mut bytes, *at, new);
    }
    Ok(bytes)
}

/// Puts bytes in the place of others.
fn write_over(bytes: &mut [u8], at: usize, new: &[u8]) {
    for (i, byte) in new.iter().enumerate() {
        if let Some(place) = bytes.get_mut(at.saturating_add(i)) {
            *place = *byte;
        }
    }
}

/// What `show` prints over a journal.
fn show(rt: &(impl Threads + Sync), alloc: Global, content: &[u8]) -> Result<Vec<u8>, AllocError> {
    let words = words_of(alloc, "j show")?;
    printed(rt, alloc, &words, "", content)
}

/// What `show` prints over some contents.
#[derive(Drop)]
pub(crate) struct Shows {
    /// Each text once.
    pub(crate) list: Vec<Vec<u8>>,
    /// How many contents there were.
    pub(crate) contents: u32,
}

/// What `show` prints over each content that a crash may leave of the disk now. Where a write
/// wasn't made whole, there is once 0 and once 1 in the place of its bytes, the closed and the open
/// gate of a record.
pub(crate) fn shows_of(
    rt: &(impl Threads + Sync),
    alloc: Global,
    disk: &MemDisk,
) -> Result<Shows, AllocError> {
    let mut shows = Shows {
        list: Vec::new(alloc),
        contents: 0,
    };
    for garbage in [0u8, 1] {
        add_shows(rt, alloc, disk, garbage, &mut shows)?;
    }
    Ok(shows)
}

fn add_shows(
    rt: &(impl Threads + Sync),
    alloc: Global,
    disk: &MemDisk,
    garbage: u8,
    shows: &mut Shows,
) -> Result<(), AllocError> {
    let moment = disk.moments();
    let Ok(images) = disk.images_at(alloc, moment, garbage) else {
        return Err(AllocError);
    };
    for image in &images {
        add_show(shows, show(rt, alloc, image)?)?;
    }
    Ok(())
}

fn add_show(shows: &mut Shows, text: Vec<u8>) -> Result<(), AllocError> {
    shows.contents = shows.contents.saturating_add(1);
    if !shows.list.contains(&text) {
        shows.list.push(text)?;
    }
    Ok(())
}
