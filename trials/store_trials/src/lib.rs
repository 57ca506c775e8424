//! Trials of disks in memory, of journals, and of sessions over a journal: files that were written
//! out by hand, calls that fail, crashes, and random answers and take-backs. `stdin` is their
//! table.

mod changes;
mod created;
mod disks;
mod files;
mod journals;
mod leaving;
mod making;
mod opened;
mod questions;
mod random;
mod steps;

use crate::leaving::{Told, stops};
use rows::Calls;
use std::alloc::Global;

/// The calls about a disk or a journal.
fn below(alloc: Global, over: &str, call: &str, arguments: &str) -> Option<String> {
    match call {
        "disk" => disks::disk(alloc, over, arguments),
        "reads" => disks::reads(alloc, over, arguments),
        "fuse" => disks::fuse(alloc, over, arguments),
        "named" => disks::named(alloc, over, arguments),
        "left" => disks::left(alloc, over, arguments),
        "journal-makes" => making::makes(alloc, over, arguments),
        "journal-opens" => journals::opens(alloc, over, arguments),
        "journal-cuts" => changes::cuts(alloc, over),
        "journal-changes" => changes::changes(alloc, over, arguments),
        "journal-stops" => stops(alloc, over, arguments, Told::Journal),
        "journal-crashes" => making::crashes(alloc, over, arguments),
        "journal-replaces" => making::replaces(alloc, over, arguments),
        "journal-again" => journals::again(alloc, over, arguments),
        _ => None,
    }
}

pub struct Trials;

impl Calls for Trials {
    fn answer(&self, alloc: Global, over: &str, call: &str, arguments: &str) -> Option<String> {
        match call {
            "file" => opened::file(alloc, arguments),
            "opens" => opened::opens(alloc, over, arguments),
            "makes" => created::makes(alloc, over, arguments),
            "making-crashes" => created::making_crashes(alloc, over, arguments),
            "stops" => stops(alloc, over, arguments, Told::Session(over)),
            "crashes" => created::crashes(alloc, over, arguments),
            "random" => random::random(alloc, arguments),
            _ => below(alloc, over, call, arguments),
        }
    }
}
