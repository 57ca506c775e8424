//! A row's commands with each call of the input, of the output and of the disk failing in turn, and
//! with a disk that stops at each of its calls.
//!
//! After a call that failed the status names what failed, what was printed is a front of the whole
//! text, and each content that a crash may leave of the journal holds every answer that was
//! acknowledged: one after which something was printed.

use crate::rows::Row;
use crate::running::{Came, Shows, come_of, disk_of, is_met, shows_of, told};
use disk_model::{FuseDisk, MemDisk};
use std::alloc::{AllocError, Global};
use std::thread::Threads;

/// More calls than a command of a row makes.
const MOST_CALLS: u32 = 100_000;

/// What is printed over a journal that isn't there.
const NO_SESSION: &[u8] = b"refused journal no session\n";

/// What fails.
#[derive(Clone, Copy, PartialEq, Eq)]
pub(crate) enum Part {
    Read,
    Write,
    Disk,
}

impl Part {
    fn status(self) -> u8 {
        match self {
            Part::Read => 8,
            Part::Write => 9,
            Part::Disk => 10,
        }
    }
}

/// What came of one run.
#[derive(Drop)]
pub(crate) enum Turn {
    /// No call failed.
    Whole,
    /// A call failed, and so many contents of the journal were looked at.
    Held(u32),
    /// What came isn't what has to.
    Broken(String),
}

/// What `show` prints over the journal where a command of this place has printed so much: by what
/// was acknowledged, and with the event about whose line nothing was printed yet.
fn held(row: &Row, at: usize, len: usize) -> (&[u8], &[u8]) {
    let mut sure = NO_SESSION;
    let mut latest = NO_SESSION;
    for (i, step) in row.steps.iter().enumerate() {
        for mark in &step.marks {
            if i < at || (i == at && mark.offset < len) {
                sure = mark.shown.as_slice();
            }
            if i < at || (i == at && mark.offset <= len) {
                latest = mark.shown.as_slice();
            }
        }
    }
    (sure, latest)
}

/// Whether each text is one of two.
fn are_among(shows: &Shows, one: &[u8], other: &[u8]) -> bool {
    shows
        .list
        .iter()
        .all(|text| text.as_slice() == one || text.as_slice() == other)
}

/// Holds what a command left behind a failure against what has to be.
fn judge(
    rt: &(impl Threads + Sync),
    alloc: Global,
    row: &Row,
    at: usize,
    part: Part,
    came: &Came,
    disk: &MemDisk,
) -> Result<Turn, AllocError> {
    let shows = shows_of(rt, alloc, disk)?;
    let (sure, latest) = held(row, at, came.text.len());
    // before an answer is read nothing is kept of it, and it is kept before the next line is
    // printed
    let holds = match part {
        Part::Read => are_among(&shows, sure, sure),
        Part::Write => are_among(&shows, latest, latest),
        Part::Disk => are_among(&shows, sure, latest),
    };
    let is_front = match row.steps.get(at) {
        Some(step) => step.wanted.starts_with(&came.text),
        None => false,
    };
    if holds && is_front && came.status == part.status() {
        return Ok(Turn::Held(shows.contents));
    }
    Ok(Turn::Broken(told(alloc, came)?))
}

/// A command where one call fails.
fn fail_call(
    rt: &(impl Threads + Sync),
    alloc: Global,
    row: &Row,
    at: usize,
    content: &[u8],
    part: Part,
    call: u32,
) -> Result<Turn, AllocError> {
    let Some(step) = row.steps.get(at) else {
        return Ok(Turn::Whole);
    };
    let fails = [call];
    let mut disk = disk_of(
        alloc,
        content,
        if part == Part::Disk { &fails } else { &[] },
    )?;
    let came = come_of(
        rt,
        alloc,
        step,
        if part == Part::Read { &fails } else { &[] },
        if part == Part::Write { &fails } else { &[] },
        &mut disk,
    )?;
    if is_met(step, &came) {
        return Ok(Turn::Whole);
    }
    judge(rt, alloc, row, at, part, &came, &disk)
}

/// How many calls there were, and how many contents were looked at; or what was wrong.
#[derive(Drop)]
pub(crate) struct Tally {
    pub(crate) calls: u32,
    pub(crate) contents: u32,
    pub(crate) wrong: Option<String>,
}

impl Tally {
    fn new() -> Tally {
        Tally {
            calls: 0,
            contents: 0,
            wrong: None,
        }
    }

    /// Counts a turn. False where it is the last one.
    fn count(&mut self, turn: Turn) -> bool {
        match turn {
            Turn::Whole => false,
            Turn::Held(contents) => {
                self.calls = self.calls.saturating_add(1);
                self.contents = self.contents.saturating_add(contents);
                true
            }
            Turn::Broken(what) => {
                self.wrong = Some(what);
                false
            }
        }
    }
}

/// Each command of a row, each call failing in turn, over the journal that it found in the run
/// without a failure.
pub(crate) fn fail_each_call(
    rt: &(impl Threads + Sync),
    alloc: Global,
    row: &Row,
    contents: &[Vec<u8>],
    part: Part,
) -> Result<Tally, AllocError> {
    let mut tally = Tally::new();
    for (at, content) in contents.iter().enumerate() {
        for call in 0..MOST_CALLS {
            let turn = fail_call(rt, alloc, row, at, content, part, call)?;
            if !tally.count(turn) {
                break;
            }
        }
    }
    Ok(tally)
}

/// Runs the commands up to one that doesn't come to its own end: its place, and what came of it.
fn run_on(
    rt: &(impl Threads + Sync),
    alloc: Global,
    row: &Row,
    disk: &mut FuseDisk,
) -> Result<Option<(usize, Came)>, AllocError> {
    for (at, step) in row.steps.iter().enumerate() {
        let came = come_of(rt, alloc, step, &[], &[], disk)?;
        if !is_met(step, &came) {
            return Ok(Some((at, came)));
        }
    }
    Ok(None)
}

/// The commands over one disk that stops after so many calls.
fn stop_after(
    rt: &(impl Threads + Sync),
    alloc: Global,
    row: &Row,
    calls: u32,
) -> Result<Turn, AllocError> {
    let mut fuse = FuseDisk::new(disk_of(alloc, &[], &[])?, calls);
    let stopped = run_on(rt, alloc, row, &mut fuse)?;
    let disk = fuse.into_inner();
    match stopped {
        Some((at, came)) => judge(rt, alloc, row, at, Part::Disk, &came, &disk),
        None => end(rt, alloc, row, &disk),
    }
}

/// Where no call failed the journal holds every event.
fn end(
    rt: &(impl Threads + Sync),
    alloc: Global,
    row: &Row,
    disk: &MemDisk,
) -> Result<Turn, AllocError> {
    let shows = shows_of(rt, alloc, disk)?;
    let (_, latest) = held(row, row.steps.len(), 0);
    if are_among(&shows, latest, latest) {
        return Ok(Turn::Whole);
    }
    Ok(Turn::Broken(String::from_str(alloc, "the journal at the end")?))
}

/// The commands over a disk that stops at each call in turn.
pub(crate) fn stop_at_each_call(
    rt: &(impl Threads + Sync),
    alloc: Global,
    row: &Row,
) -> Result<Tally, AllocError> {
    let mut tally = Tally::new();
    for calls in 0..MOST_CALLS {
        let turn = stop_after(rt, alloc, row, calls)?;
        if !tally.count(turn) {
            break;
        }
    }
    Ok(tally)
}
