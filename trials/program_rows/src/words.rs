//! What words ask for, in the table's writing.

use acq_cli::{Command, JournalPlace, Request, UsageFault, WordsFault, read_words};
use assign::Plan;
use std::alloc::{AllocError, Global};

fn plan_word(plan: Plan) -> &'static str {
    match plan {
        Plan::Scopes => "scopes",
        Plan::Quacq => "quacq",
        Plan::Multi => "multi",
    }
}

/// A command with its options.
fn command_text(alloc: Global, command: Command) -> Result<String, AllocError> {
    match command {
        Command::New(plan) => format!(in alloc; "new {}", plan_word(plan)),
        Command::Run(budget) => format!(in alloc; "run {budget}"),
        Command::Try(plan, budget) => format!(in alloc; "try {} {budget}", plan_word(plan)),
        Command::Play(budget) => format!(in alloc; "play {budget}"),
        Command::Demo(number, budget) => format!(in alloc; "demo {number} {budget}"),
        Command::Reduce(budget) => format!(in alloc; "reduce {budget}"),
        Command::Certify(budget) => format!(in alloc; "certify {budget}"),
        Command::Show => String::from_str(alloc, "show"),
        Command::Back => String::from_str(alloc, "back"),
        Command::Cnf => String::from_str(alloc, "cnf"),
        Command::Model => String::from_str(alloc, "model"),
        Command::Check => String::from_str(alloc, "check"),
    }
}

/// The journal and the command that are asked for.
fn request_text(alloc: Global, request: &Request) -> Result<String, AllocError> {
    let command = command_text(alloc, request.command)?;
    match &request.journal {
        JournalPlace::InMemory => format!(in alloc; ":memory: {command}"),
        JournalPlace::File(name) => format!(in alloc; "{name} {command}"),
    }
}

/// What words ask for, or why they aren't taken.
fn asked(alloc: Global, words: &[String]) -> Result<String, AllocError> {
    match read_words(alloc, words) {
        Ok(request) => request_text(alloc, &request),
        Err(WordsFault::Usage(UsageFault::Words)) => String::from_str(alloc, "words"),
        Err(WordsFault::Usage(UsageFault::Unfit)) => String::from_str(alloc, "unfit"),
        Err(WordsFault::Memory) => Err(AllocError),
    }
}

/// The places of three options in each order.
const ORDERS: [[usize; 3]; 6] = [
    [0, 1, 2],
    [0, 2, 1],
    [1, 0, 2],
    [1, 2, 0],
    [2, 0, 1],
    [2, 1, 0],
];

/// Adds an option in one word, or in two.
fn add_option(
    alloc: Global,
    words: &mut Vec<String>,
    option: &str,
    is_joined: bool,
) -> Result<(), AllocError> {
    if is_joined {
        words.push(format!(in alloc; "--{option}")?)?;
        return Ok(());
    }
    let (name, value) = option.split_once('=').unwrap_or((option, ""));
    words.push(format!(in alloc; "--{name}")?)?;
    words.push(String::from_str(alloc, value)?)?;
    Ok(())
}

/// The words with the options behind them in an order. Bit i of `joined` says that the i-th of them
/// is one word.
fn words_with(
    alloc: Global,
    words: &[String],
    options: &[String],
    order: &[usize; 3],
    joined: u32,
) -> Result<Vec<String>, AllocError> {
    let mut all = Vec::new(alloc);
    for word in words {
        all.push(String::from_str(alloc, word.as_str())?)?;
    }
    let mut rest = joined;
    for place in order {
        if let Some(option) = options.get(*place) {
            add_option(alloc, &mut all, option.as_str(), rest % 2 == 1)?;
        }
        rest /= 2;
    }
    Ok(all)
}

/// What the words ask for where that is something else than what is wanted, with the options in
/// some order and writing.
pub(crate) fn other_request(
    alloc: Global,
    words: &[String],
    options: &[String],
    wanted: &str,
) -> Result<Option<String>, AllocError> {
    for order in &ORDERS {
        for joined in 0..8 {
            let all = words_with(alloc, words, options, order, joined)?;
            let found = asked(alloc, &all)?;
            if found.as_str() != wanted {
                return Ok(Some(found));
            }
        }
    }
    Ok(None)
}
