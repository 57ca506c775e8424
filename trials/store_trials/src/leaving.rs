//! What failing calls and crashes leave of a journal, or of a session over it.

use crate::created::stopped as store_stopped;
use crate::files::disk_with;
use crate::journals::read_from;
use crate::making::stopped as journal_stopped;
use crate::opened::kept;
use disk_model::MemDisk;
use rows::{Distinct, Runs};
use std::alloc::Global;

/// What is told of a file.
#[derive(Clone, Copy)]
pub(crate) enum Told<'a> {
    /// How it opens as a journal.
    Journal,
    /// What it keeps of a session with this vocabulary.
    Session(&'a str),
}

fn told_of(alloc: Global, disk: &mut MemDisk, told: Told<'_>) -> Option<String> {
    match told {
        Told::Journal => read_from(alloc, disk),
        Told::Session(voc) => kept(alloc, disk, voc),
    }
}

/// The same of the contents that a crash may leave at a moment.
fn left_at(alloc: Global, disk: &MemDisk, told: Told<'_>, moment: usize) -> Option<String> {
    if moment > disk.moments() {
        return None;
    }
    let mut found = Distinct::new(alloc);
    for garbage in [0, 1] {
        for image in &disk.images_at(alloc, moment, garbage).ok()? {
            found.add(told_of(alloc, &mut disk_with(alloc, image)?, told)?)?;
        }
    }
    found.text(alloc)
}

/// Adds what comes at a place.
pub(crate) fn add_at(alloc: Global, runs: &mut Runs, at: usize, said: String) -> Option<()> {
    runs.add(&format!(in alloc; "{at}").ok()?, said)
}

/// What a crash leaves at each moment of a disk, and how many there are.
pub(crate) fn left(alloc: Global, disk: &MemDisk, told: Told<'_>) -> Option<String> {
    let mut runs = Runs::new(alloc);
    for moment in 0..=disk.moments() {
        add_at(
            alloc,
            &mut runs,
            moment,
            left_at(alloc, disk, told, moment)?,
        )?;
    }
    let mut text = runs.text();
    write!(text, "{} moments", disk.moments()).ok()?;
    Some(text)
}

/// Adds what comes over a disk that passes so many calls.
fn add_stop(
    alloc: Global,
    runs: &mut Runs,
    over: &str,
    rest: &str,
    told: Told<'_>,
    passes: u32,
) -> Option<()> {
    let said = match told {
        Told::Journal => journal_stopped(alloc, over, rest, passes)?,
        Told::Session(_) => store_stopped(alloc, over, rest, passes)?,
    };
    add_at(alloc, runs, passes as usize, said)
}

/// The same for each number of calls, up to the one in front.
pub(crate) fn stops(alloc: Global, over: &str, arguments: &str, told: Told<'_>) -> Option<String> {
    let (most, rest) = arguments.split_once(' ')?;
    let most = most.parse::<u32>().ok()?;
    let mut runs = Runs::new(alloc);
    for passes in 0..=most {
        add_stop(alloc, &mut runs, over, rest, told, passes)?;
    }
    Some(runs.text())
}
