//! Disks in memory: calls that must fail, and what a crash leaves.

use disk_model::{Disk, FuseDisk, MemDisk, Room};
use file_disk::{FileDisk, MemFile};
use rows::{bytes_in, number, push_bytes};
use std::alloc::Global;
use std::str::SplitWhitespace;

#[derive(Clone, Copy)]
enum Call<'a> {
    Len,
    /// Of two bytes.
    Read,
    Write(&'a [u8]),
    Sync,
}

/// `len`, `read`, `sync`, or a write `PLACE=BYTES`: its place and the call.
fn call_in(word: &str) -> Option<(u64, Call<'_>)> {
    match word {
        "len" => Some((0, Call::Len)),
        "read" => Some((0, Call::Read)),
        "sync" => Some((0, Call::Sync)),
        _ => {
            let (at, bytes) = word.split_once('=')?;
            Some((at.parse().ok()?, Call::Write(bytes.as_bytes())))
        }
    }
}

fn does_pass<D: Disk>(disk: &mut D, at: u64, call: Call<'_>) -> bool {
    let mut buf = [0; 2];
    match call {
        Call::Len => disk.len().is_ok(),
        Call::Read => disk.read(at, &mut buf).is_ok(),
        Call::Write(bytes) => disk.write_at(at, bytes).is_ok(),
        Call::Sync => disk.sync().is_ok(),
    }
}

fn push_said(text: &mut String, passes: bool) -> Option<()> {
    text.push_str(if passes { "yes " } else { "no " }).ok()
}

/// Makes these calls, and says of each whether it passes.
fn push_calls(text: &mut String, disk: &mut MemDisk, calls: &str) -> Option<()> {
    for word in calls.split_whitespace() {
        let (at, call) = call_in(word)?;
        if at > disk.content().len() as u64 {
            return None;
        }
        push_said(text, does_pass(disk, at, call))?;
    }
    Some(())
}

/// The same, where a write is one from the first byte on.
fn push_fused(text: &mut String, disk: &mut FuseDisk, calls: &str) -> Option<()> {
    for word in calls.split_whitespace() {
        let (at, call) = call_in(word)?;
        if at > 0 {
            return None;
        }
        push_said(text, does_pass(disk, 0, call))?;
    }
    Some(())
}

/// What is on a disk, and how many moments there were.
fn push_disk(text: &mut String, disk: &MemDisk) -> Option<()> {
    push_bytes(text, disk.content())?;
    let moments = disk.moments();
    write!(text, " {moments} moments").ok()
}

fn numbers(alloc: Global, words: SplitWhitespace<'_>) -> Option<Vec<u32>> {
    let mut numbers = Vec::new(alloc);
    for word in words {
        numbers.push(word.parse().ok()?).ok()?;
    }
    Some(numbers)
}

/// A disk of these bytes: its room, in bytes and in writes and syncs, and the numbers of the calls
/// that fail.
fn disk_of(alloc: Global, content: &str, front: &str) -> Option<MemDisk> {
    let mut words = front.split_whitespace();
    let bytes = number::<u32>(&mut words)?;
    let calls = number(&mut words)?;
    let fails = numbers(alloc, words)?;
    let content = bytes_in(alloc, content)?;
    if content.len() > bytes as usize {
        return None;
    }
    MemDisk::new(alloc, content, fails, Room { bytes, calls }).ok()
}

/// What calls come to, and what is on the disk behind them.
pub(crate) fn disk(alloc: Global, over: &str, arguments: &str) -> Option<String> {
    let (front, calls) = arguments.split_once(" of ")?;
    let mut disk = disk_of(alloc, over, front)?;
    let mut text = String::new(alloc);
    push_calls(&mut text, &mut disk, calls)?;
    push_disk(&mut text, &disk)?;
    Some(text)
}

/// The same over a disk that passes so many calls.
pub(crate) fn fuse(alloc: Global, over: &str, arguments: &str) -> Option<String> {
    let (passes, rest) = arguments.split_once(' ')?;
    let passes = passes.parse().ok()?;
    let (front, calls) = rest.split_once(" of ")?;
    let mut fuse = FuseDisk::new(disk_of(alloc, over, front)?, passes);
    let mut text = String::new(alloc);
    push_fused(&mut text, &mut fuse, calls)?;
    push_disk(&mut text, &fuse.into_inner())?;
    Some(text)
}

/// Whether a call passes, where the file goes up to its place. Else None.
fn does_pass_there(disk: &mut FileDisk<MemFile>, at: u64, call: Call<'_>) -> Option<bool> {
    let Ok(length) = disk.len() else {
        return None;
    };
    if at > length {
        return None;
    }
    Some(does_pass(disk, at, call))
}

/// Makes these calls of a file.
fn push_filed(text: &mut String, disk: &mut FileDisk<MemFile>, calls: &str) -> Option<()> {
    for word in calls.split_whitespace() {
        let (at, call) = call_in(word)?;
        push_said(text, does_pass_there(disk, at, call)?)?;
    }
    Some(())
}

/// The bytes of a disk, 16 at most, from this place on.
fn push_read<D: Disk>(text: &mut String, disk: &mut D, at: u64) -> Option<()> {
    let mut buf = [0; 16];
    let count = disk.read(at, &mut buf).ok()?;
    push_bytes(text, &buf[..count])
}

/// Places: what reads give of a disk with these bytes, from each of them on.
pub(crate) fn reads(alloc: Global, over: &str, arguments: &str) -> Option<String> {
    let mut disk = disk_of(alloc, over, "64 0")?;
    let mut text = String::new(alloc);
    for word in arguments.split_whitespace() {
        let at = word.parse::<u64>().ok()?;
        write!(text, "{at}=").ok()?;
        push_read(&mut text, &mut disk, at)?;
        text.push('\n').ok()?;
    }
    Some(text)
}

/// What calls of a file come to that gives a few bytes a read at most, and what is read of it
/// behind them, from a place on.
pub(crate) fn named(alloc: Global, over: &str, arguments: &str) -> Option<String> {
    let (front, calls) = arguments.split_once(" of ")?;
    let (most, front) = front.split_once(' ')?;
    let (from, front) = front.split_once(' ')?;
    let most = most.parse().ok()?;
    let from = from.parse().ok()?;
    let disk = disk_of(alloc, over, front)?;
    let mut disk = FileDisk::new(MemFile::new(disk, most));
    let mut text = String::new(alloc);
    push_filed(&mut text, &mut disk, calls)?;
    push_read(&mut text, &mut disk, from)?;
    Some(text)
}

/// Adds what a crash may leave at a moment, with `#` for garbage.
fn push_images(alloc: Global, text: &mut String, disk: &MemDisk, moment: usize) -> Option<()> {
    write!(text, "{moment}").ok()?;
    for image in &disk.images_at(alloc, moment, b'#').ok()? {
        text.push(' ').ok()?;
        push_bytes(text, image)?;
    }
    text.push('\n').ok()
}

/// The same of each moment.
fn images_text(alloc: Global, disk: &MemDisk) -> Option<String> {
    let mut text = String::new(alloc);
    for moment in 0..=disk.moments() {
        push_images(alloc, &mut text, disk, moment)?;
    }
    Some(text)
}

/// What a crash may leave, after none of the calls that write and sync, after the first, and so on.
pub(crate) fn left(alloc: Global, over: &str, arguments: &str) -> Option<String> {
    let (front, calls) = arguments.split_once(" of ")?;
    let mut disk = disk_of(alloc, over, front)?;
    push_calls(&mut String::new(alloc), &mut disk, calls)?;
    images_text(alloc, &disk)
}
