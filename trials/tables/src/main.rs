//! The tables that are read with `rows`, in one program, since what it costs to compile is mostly
//! that of the crates below: its word names the table that is read from standard input.

use rows::run;
use std::env;
use std::process::ExitCode;

fn main(rt: HostRuntime) -> ExitCode {
    let Ok(words) = env::args(&rt) else {
        return ExitCode::from(2);
    };
    let mut words = words.skip(1);
    let Some(name) = words.next() else {
        return ExitCode::from(2);
    };
    let tried = match name.as_str() {
        "language_trials" => run(&rt, &language_trials::Trials),
        "answer_trials" => run(&rt, &answer_trials::Trials),
        "store_trials" => run(&rt, &store_trials::Trials),
        "edge_trials" => run(&rt, &edge_trials::Trials),
        _ => return ExitCode::from(2),
    };
    match tried {
        Ok(()) => ExitCode::from(0),
        Err(_) => ExitCode::from(1),
    }
}
