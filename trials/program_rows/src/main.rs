//! Rows of the program's words, input, failing calls and journals, of every list of answers, and of
//! searches whose parts wait for each other. They are read from standard input; a line is printed
//! about each. The table is the file `stdin` beside this folder, and its head says how a row is
//! written.

mod attendance;
mod doors;
mod families;
mod reports;
mod rows;
mod running;
mod small;
mod texts;
mod turns;
mod words;

use crate::reports::tell_table;
use acq_io::{StdSink, StdSource, read_all};
use std::alloc::Global;
use std::process::ExitCode;

/// The most bytes of a table.
const MOST_TABLE: u32 = 4_194_304;

fn main(rt: HostRuntime) -> ExitCode {
    let mut input = StdSource::new(rt.stdin());
    let mut out = StdSink::new(rt.stdout());
    let Ok(bytes) = read_all(rt.alloc(), &mut input, MOST_TABLE) else {
        return ExitCode::from(1);
    };
    let Ok(table) = std::str::from_utf8(&bytes) else {
        return ExitCode::from(1);
    };
    match tell_table(&rt, rt.alloc(), table, &mut out) {
        Ok(()) => ExitCode::from(0),
        Err(_) => ExitCode::from(1),
    }
}
