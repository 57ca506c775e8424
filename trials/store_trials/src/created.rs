//! Stores that are made: over which files, and what a failing call or a crash leaves of an event.

use crate::files::{disk_with, file_of, plan_in};
use crate::leaving::{Told, left};
use crate::opened::{fault_text, kept};
use crate::steps::{add, is_live, keep_text};
use assign::Plan;
use disk_model::{FuseDisk, MemDisk};
use rows::{Distinct, bytes_in};
use session_store::{SFault, Store};
use std::alloc::Global;

/// What is said of a call.
fn call_text(alloc: Global, made: Result<(), SFault>) -> Option<String> {
    match made {
        Ok(()) => String::from_str(alloc, "kept").ok(),
        Err(fault) => fault_text(alloc, fault),
    }
}

/// The file of a session without events, and behind it what stood there before.
fn bytes_made(alloc: Global, plan: u8, voc: &str, before: &[u8]) -> Option<Vec<u8>> {
    let mut bytes = file_of(alloc, plan, voc, "")?;
    if let Some(rest) = before.get(bytes.len()..) {
        bytes.extend_from_slice(rest).ok()?;
    }
    Some(bytes)
}

/// What comes of a store, and whether the file then has the bytes that it has to have.
fn made(alloc: Global, plan: Plan, byte: u8, voc: &str, before: &[u8]) -> Option<String> {
    let mut disk = disk_with(alloc, before)?;
    match Store::create(alloc, &mut disk, plan, voc.as_bytes()) {
        Ok(_) => beside(
            alloc,
            "made",
            disk.content(),
            &bytes_made(alloc, byte, voc, before)?,
        ),
        Err(fault) => beside(
            alloc,
            fault_text(alloc, fault)?.as_str(),
            disk.content(),
            before,
        ),
    }
}

/// What is said, where the bytes are as wanted.
fn beside(alloc: Global, said: &str, found: &[u8], wanted: &[u8]) -> Option<String> {
    String::from_str(alloc, if found == wanted { said } else { "other bytes" }).ok()
}

/// The bytes of a file: what comes of a store of each plan that is made on it.
pub(crate) fn makes(alloc: Global, over: &str, arguments: &str) -> Option<String> {
    let before = bytes_in(alloc, arguments)?;
    let mut found = Distinct::new(alloc);
    for (plan, byte) in [(Plan::Scopes, 1), (Plan::Quacq, 2), (Plan::Multi, 3)] {
        found.add(made(alloc, plan, byte, over, &before)?)?;
    }
    found.text(alloc)
}

/// A plan: what a crash leaves while a store is made on an empty file.
pub(crate) fn making_crashes(alloc: Global, over: &str, arguments: &str) -> Option<String> {
    let (plan, _) = plan_in(arguments)?;
    let mut disk = disk_with(alloc, &[])?;
    let Ok(_) = Store::create(alloc, &mut disk, plan, over.as_bytes()) else {
        return None;
    };
    left(alloc, &disk, Told::Session(over))
}

/// `PLAN EVENT, EVENT, ..`: a disk that has all events but the last, and the last.
fn disk_before<'a>(alloc: Global, voc: &str, arguments: &'a str) -> Option<(MemDisk, &'a str)> {
    let (plan, events) = arguments.split_once(' ')?;
    let (_, byte) = plan_in(plan)?;
    let (front, last) = events.rsplit_once(", ").unwrap_or(("", events));
    Some((disk_with(alloc, &file_of(alloc, byte, voc, front)?)?, last))
}

/// Opens a store, and adds an event.
fn added(alloc: Global, disk: &mut MemDisk, text: &str) -> Option<Result<(), SFault>> {
    let Ok(mut store) = Store::open(alloc, disk) else {
        return None;
    };
    add(&mut store, disk, text)
}

/// What a crash leaves while the last event is added.
pub(crate) fn crashes(alloc: Global, over: &str, arguments: &str) -> Option<String> {
    let (mut disk, last) = disk_before(alloc, over, arguments)?;
    let Ok(()) = added(alloc, &mut disk, last)? else {
        return None;
    };
    left(alloc, &disk, Told::Session(over))
}

/// Adds an event over a disk that passes so many calls: what comes of it, and the disk.
fn fused(alloc: Global, mut disk: MemDisk, text: &str, passes: u32) -> Option<(String, MemDisk)> {
    let Ok(mut store) = Store::open(alloc, &mut disk) else {
        return None;
    };
    let mut fuse = FuseDisk::new(disk, passes);
    let said = fused_text(alloc, &mut store, &mut fuse, text)?;
    Some((said, fuse.into_inner()))
}

/// What comes of an event, whether more may be kept, and where the session stands.
fn fused_text(alloc: Global, store: &mut Store, fuse: &mut FuseDisk, text: &str) -> Option<String> {
    let said = call_text(alloc, add(store, fuse, text)?)?;
    let live = if is_live::<FuseDisk, Store>(store) {
        "live"
    } else {
        "not live"
    };
    let stand = keep_text::<FuseDisk, Store>(alloc, store)?;
    format!(in alloc; "{said}, {live}, {stand}").ok()
}

/// What comes of the last event over a disk that passes so many calls, and what the file then
/// keeps.
pub(crate) fn stopped(alloc: Global, voc: &str, arguments: &str, passes: u32) -> Option<String> {
    let (disk, last) = disk_before(alloc, voc, arguments)?;
    let (said, mut disk) = fused(alloc, disk, last, passes)?;
    let file = kept(alloc, &mut disk, voc)?;
    format!(in alloc; "{said}, file: {file}").ok()
}
