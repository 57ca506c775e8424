//! Frames of so many variables and of these values.

use language::{Frame, is_name};
use rows::{end, number};
use std::alloc::Global;

/// Adds a variable's name.
fn with_name(mut names: Vec<String>, name: String) -> Option<Vec<String>> {
    if !is_name(name.as_str()) {
        return None;
    }
    for other in &names {
        if other.as_str() == name.as_str() {
            return None;
        }
    }
    names.push(name).ok()?;
    Some(names)
}

/// The names v0, v1 and so on.
fn names(alloc: Global, count: u8) -> Option<Vec<String>> {
    let mut names = Vec::new(alloc);
    for v in 0..count {
        names = with_name(names, format!(in alloc; "v{v}").ok()?)?;
    }
    Some(names)
}

/// How many variables, the least and the greatest value: whether they make a frame, or why not.
pub(crate) fn frame(alloc: Global, arguments: &str) -> Option<String> {
    let mut words = arguments.split_whitespace();
    let names = names(alloc, number(&mut words)?)?;
    let lo = number(&mut words)?;
    let hi = number(&mut words)?;
    end(&mut words)?;
    match Frame::new(names, lo, hi) {
        Ok(_) => String::from_str(alloc, "taken").ok(),
        Err(fault) => format!(in alloc; "{fault}").ok(),
    }
}
