use crate::texts::{expanded, one_line};
use std::alloc::{AllocError, Global};
use std::io;

/// The calls that a table is about.
pub trait Calls {
    /// What a call comes to with these arguments. None where there is no such call, where these
    /// aren't its arguments, or where there is no memory for it.
    fn answer(&self, alloc: Global, over: &str, call: &str, arguments: &str) -> Option<String>;
}

/// What a row's line begins with, where it holds.
const HOLDS: &str = "ok ";

/// What is said of a row whose call comes to this: that it holds, or what came instead.
fn compared(
    alloc: Global,
    line: &str,
    call: &str,
    wanted: &str,
    found: &str,
) -> Result<String, AllocError> {
    let found = one_line(alloc, found)?;
    if found.as_str() == wanted {
        format!(in alloc; "{HOLDS}{call}")
    } else {
        format!(in alloc; "{line} BUT {found}")
    }
}

/// The same of a row, which is written out, over a text.
fn said<C: Calls>(
    alloc: Global,
    calls: &C,
    over: &str,
    line: &str,
    row: &str,
) -> Result<String, AllocError> {
    let Some((question, wanted)) = row.split_once(" => ") else {
        return format!(in alloc; "no row: {line}");
    };
    let (call, arguments) = question.split_once(' ').unwrap_or((question, ""));
    match calls.answer(alloc, over, call, arguments) {
        Some(found) => compared(alloc, line, call, wanted, found.as_str()),
        None => format!(in alloc; "no answer: {line}"),
    }
}

/// Tries each row of a table, and prints a line for it, and then how many rows there were and how
/// many were refused.
fn run_table<R: AllocGlobal + Print, C: Calls>(rt: &R, calls: &C, table: &str) -> io::Result<()> {
    let alloc = rt.alloc();
    let mut over = String::new(alloc);
    let mut rows = 0u32;
    let mut refused = 0u32;
    for line in table.lines() {
        if line.is_empty() || line.starts_with('#') {
            continue;
        }
        if let Some(text) = line.strip_prefix("over ") {
            over = expanded(alloc, text)?;
        } else {
            let row = expanded(alloc, line)?;
            let text = said(alloc, calls, over.as_str(), line, row.as_str())?;
            rows = rows.saturating_add(1);
            refused = refused.saturating_add(u32::from(!text.as_str().starts_with(HOLDS)));
            rt.println(text)?;
        }
    }
    rt.println(format!(in alloc; "{rows} rows, {refused} refused")?)
}

/// The same of a table that stands on standard input.
pub fn run<R: AllocGlobal + Input + Print, C: Calls>(rt: &R, calls: &C) -> io::Result<()> {
    let table = io::read_to_string(rt.alloc(), rt.reader())?;
    run_table(rt, calls, table.as_str())
}
