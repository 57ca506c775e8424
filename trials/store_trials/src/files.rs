//! Journals that are written out by hand, and disks that hold them.

use assign::Plan;
use disk_model::{MemDisk, Room};
use std::alloc::Global;

const ROOM: Room = Room {
    bytes: 6000,
    calls: 400,
};

/// A disk of these bytes.
pub(crate) fn disk_with(alloc: Global, content: &[u8]) -> Option<MemDisk> {
    if content.len() > 6000 {
        return None;
    }
    MemDisk::new(alloc, content.to_vec(alloc).ok()?, Vec::new(alloc), ROOM).ok()
}

/// A record: its gate, its kind, and its payload behind its length.
fn push_record(bytes: &mut Vec<u8>, kind: u8, payload: &[u8]) -> Option<()> {
    let size = u32::try_from(payload.len()).ok()?.to_be_bytes();
    bytes.extend_from_slice(&[1, kind]).ok()?;
    bytes.extend_from_slice(&size).ok()?;
    bytes.extend_from_slice(payload).ok()
}

/// A pair `VARIABLE=VALUE`: a variable's number and its value's place, from 0.
pub(crate) fn pair_in(word: &str) -> Option<(u8, u8)> {
    let (variable, value) = word.split_once('=')?;
    Some((variable.parse().ok()?, value.parse().ok()?))
}

/// The payload of an answer, and then its pairs.
fn push_pairs(payload: &mut Vec<u8>, pairs: &str) -> Option<()> {
    let count = pairs.split_whitespace().count();
    payload.push(u8::try_from(count).ok()?).ok()?;
    for word in pairs.split_whitespace() {
        let (variable, value) = pair_in(word)?;
        payload.extend_from_slice(&[variable, value]).ok()?;
    }
    Some(())
}

/// An answer, `yes` or `no` with its pairs.
pub(crate) fn answer_in(text: &str) -> Option<(bool, &str)> {
    let (said, pairs) = text.split_once(' ')?;
    match said {
        "yes" => Some((true, pairs)),
        "no" => Some((false, pairs)),
        _ => None,
    }
}

/// Adds an answer, what raises a journal, or a take-back.
fn push_event(alloc: Global, bytes: &mut Vec<u8>, text: &str) -> Option<()> {
    match text {
        "raise" => push_record(bytes, b'U', &[2]),
        "back" => push_record(bytes, b'B', &[]),
        _ => {
            let (yes, pairs) = answer_in(text)?;
            let mut payload = vec![in alloc; u8::from(yes)].ok()?;
            push_pairs(&mut payload, pairs)?;
            push_record(bytes, b'A', &payload)
        }
    }
}

/// A plan, and its byte in a journal.
pub(crate) fn plan_in(word: &str) -> Option<(Plan, u8)> {
    match word {
        "scopes" => Some((Plan::Scopes, 1)),
        "quacq" => Some((Plan::Quacq, 2)),
        "multi" => Some((Plan::Multi, 3)),
        _ => None,
    }
}

/// The word of a plan.
pub(crate) fn plan_word(plan: Plan) -> &'static str {
    match plan {
        Plan::Scopes => "scopes",
        Plan::Quacq => "quacq",
        Plan::Multi => "multi",
    }
}

/// A journal of this plan byte, vocabulary and events, and a closed gate.
pub(crate) fn file_of(alloc: Global, plan: u8, voc: &str, events: &str) -> Option<Vec<u8>> {
    let mut payload = vec![in alloc; plan].ok()?;
    payload.extend_from_slice(voc.as_bytes()).ok()?;
    let mut bytes = b"QUACQJ1\n".to_vec(alloc).ok()?;
    push_record(&mut bytes, b'S', &payload)?;
    push_events(alloc, &mut bytes, events)?;
    Some(bytes)
}

/// Adds events, and a closed gate.
fn push_events(alloc: Global, bytes: &mut Vec<u8>, events: &str) -> Option<()> {
    for text in events.split_terminator(", ") {
        push_event(alloc, bytes, text)?;
    }
    bytes.push(0).ok()
}
