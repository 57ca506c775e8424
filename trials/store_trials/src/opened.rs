//! Stores as they open.

use crate::files::{disk_with, file_of, plan_in, plan_word};
use crate::steps::{events_of, keep_text, push_event, session_of, standing_count};
use disk_model::MemDisk;
use rows::bytes_in;
use session_store::{SFault, Store};
use std::alloc::Global;
use voc_read::voc_text;

/// Why a store isn't made or opened.
pub(crate) fn fault_text(alloc: Global, fault: SFault) -> Option<String> {
    match fault {
        SFault::Voc(fault) => {
            let text = voc_text(alloc, fault).ok()?;
            format!(in alloc; "vocabulary {text}").ok()
        }
        SFault::Journal(_) | SFault::Stray(_) | SFault::Memory => {
            format!(in alloc; "{fault}").ok()
        }
    }
}

fn read_of(alloc: Global, bytes: &[u8]) -> Option<String> {
    let mut disk = disk_with(alloc, bytes)?;
    match Store::open(alloc, &mut disk) {
        Ok(store) => keep_text::<MemDisk, Store>(alloc, &store),
        Err(fault) => fault_text(alloc, fault),
    }
}

/// Bytes: how the file opens that has them.
pub(crate) fn file(alloc: Global, arguments: &str) -> Option<String> {
    read_of(alloc, &bytes_in(alloc, arguments)?)
}

/// A plan and events: how the file opens that has them and the vocabulary.
pub(crate) fn opens(alloc: Global, over: &str, arguments: &str) -> Option<String> {
    let (plan, events) = arguments.split_once(' ').unwrap_or((arguments, ""));
    let (_, byte) = plan_in(plan)?;
    read_of(alloc, &file_of(alloc, byte, over, events)?)
}

/// The plan and all events, and how many answers stand.
fn kept_text(alloc: Global, store: &Store) -> Option<String> {
    let mut text = String::from_str(
        alloc,
        plan_word(session_of::<MemDisk, Store>(store).plan()),
    ).ok()?;
    let events = events_of::<MemDisk, Store>(store);
    for i in 0..events.len() {
        push_event(&mut text, ", ", &events.get(i))?;
    }
    let standing = standing_count::<MemDisk, Store>(store);
    write!(text, ", {standing} standing").ok()?;
    Some(text)
}

/// What a file keeps that has this vocabulary.
pub(crate) fn kept(alloc: Global, disk: &mut MemDisk, voc: &str) -> Option<String> {
    match Store::open(alloc, disk) {
        Ok(store) => {
            if store.vocabulary() == voc.as_bytes() {
                kept_text(alloc, &store)
            } else {
                String::from_str(alloc, "another vocabulary").ok()
            }
        }
        Err(fault) => fault_text(alloc, fault),
    }
}
