//! What is told of a row.

use crate::families::answers;
use crate::rows::{Row, Step};
use crate::running::{Came, come_of, disk_of, edited, is_met, shows_of, told};
use crate::texts::{Texts, shown};
use crate::turns::{Part, Tally, fail_each_call, stop_at_each_call};
use crate::words::other_request;
use acq_io::{Put, Sink};
use disk_model::MemDisk;
use std::alloc::{AllocError, Global};
use std::thread::Threads;

/// Reads a row. Where a line of it can't be read, that line.
fn read_row<'a>(
    alloc: Global,
    texts: &mut Texts,
    row: &mut Row,
    lines: &'a str,
) -> Result<Option<&'a str>, AllocError> {
    for line in lines.lines() {
        if !line.starts_with('#') && !line.is_empty() && !row.take(alloc, texts, line)? {
            return Ok(Some(line));
        }
    }
    Ok(None)
}

/// What is wrong with the journal after a command.
fn fault_behind(
    rt: &(impl Threads + Sync),
    alloc: Global,
    step: &Step,
    disk: &MemDisk,
) -> Result<Option<String>, AllocError> {
    let content = disk.content();
    if let Some(size) = step.size
        && size != content.len()
    {
        return Ok(Some(format!(in alloc; "the journal has {} bytes", content.len())?));
    }
    if let Some(end) = &step.end
        && !content.ends_with(end)
    {
        return Ok(Some(shown(alloc, content)?));
    }
    if step.images.is_empty() {
        return Ok(None);
    }
    let shows = shows_of(rt, alloc, disk)?;
    if shows.list.len() == step.images.len()
        && step.images.iter().all(|text| shows.list.contains(text))
    {
        return Ok(None);
    }
    Ok(Some(format!(in alloc; "a crash leaves {} journals", shows.list.len())?))
}

/// What is wrong behind a command.
fn fault_of(
    rt: &(impl Threads + Sync),
    alloc: Global,
    step: &Step,
    came: &Came,
    disk: &MemDisk,
) -> Result<Option<String>, AllocError> {
    if is_met(step, came) {
        return fault_behind(rt, alloc, step, disk);
    }
    Ok(Some(told(alloc, came)?))
}

/// Runs a command over a journal, which becomes what the command leaves. What is wrong is told.
fn run_step(
    rt: &(impl Threads + Sync),
    alloc: Global,
    step: &Step,
    content: &mut Vec<u8>,
) -> Result<Option<String>, AllocError> {
    if let Some(wanted) = &step.asks {
        return other_request(alloc, &step.words, &step.options, wanted.as_str());
    }
    let mut disk = disk_of(alloc, content, &step.calls)?;
    let came = come_of(rt, alloc, step, &step.reads, &step.writes, &mut disk)?;
    let fault = fault_of(rt, alloc, step, &came, &disk)?;
    *content = disk.content().to_vec(alloc)?;
    Ok(fault)
}

/// Runs the commands of a row, and lists the journal that each one finds. What is wrong is told.
fn run_row(
    rt: &(impl Threads + Sync),
    alloc: Global,
    row: &Row,
    contents: &mut Vec<Vec<u8>>,
) -> Result<Option<String>, AllocError> {
    let mut content = Vec::new(alloc);
    for (at, step) in row.steps.iter().enumerate() {
        content = edited(alloc, step, &content)?;
        contents.push(content.to_vec(alloc)?)?;
        if let Some(fault) = run_step(rt, alloc, step, &mut content)? {
            let number = at.saturating_add(1);
            return Ok(Some(format!(in alloc; "command {number}: {fault}")?));
        }
    }
    Ok(None)
}

/// Tells of runs in which a call fails. False where something was wrong.
fn add_tally(report: &mut String, tally: &Tally, kind: &str) -> Result<bool, AllocError> {
    match &tally.wrong {
        Some(what) => {
            write!(report, "; {kind} {}: {what}", tally.calls)?;
            Ok(false)
        }
        None => {
            write!(
                report,
                "; {} {kind}s, {} journals",
                tally.calls, tally.contents
            )?;
            Ok(true)
        }
    }
}

/// Runs a row with each call of one part failing in turn, if it wants that, and tells of it. False
/// where something was wrong.
fn add_calls(
    rt: &(impl Threads + Sync),
    alloc: Global,
    row: &Row,
    contents: &[Vec<u8>],
    part: Part,
    report: &mut String,
) -> Result<bool, AllocError> {
    let (is_wanted, kind) = match part {
        Part::Read => (row.failing.reads, "failing read"),
        Part::Write => (row.failing.writes, "failing write"),
        Part::Disk => (row.failing.calls, "failing disk call"),
    };
    if !is_wanted {
        return Ok(true);
    }
    let tally = fail_each_call(rt, alloc, row, contents, part)?;
    add_tally(report, &tally, kind)
}

/// The same with the disk stopping at each call.
fn add_stops(
    rt: &(impl Threads + Sync),
    alloc: Global,
    row: &Row,
    report: &mut String,
) -> Result<bool, AllocError> {
    if !row.failing.stops {
        return Ok(true);
    }
    let tally = stop_at_each_call(rt, alloc, row)?;
    add_tally(report, &tally, "stop")
}

/// Tells of a row whose commands came to what it says.
fn tell_turns(
    rt: &(impl Threads + Sync),
    alloc: Global,
    row: &Row,
    contents: &[Vec<u8>],
    report: &mut String,
) -> Result<(), AllocError> {
    let mut is_right = true;
    for part in [Part::Read, Part::Write, Part::Disk] {
        is_right &= add_calls(rt, alloc, row, contents, part, report)?;
    }
    is_right &= add_stops(rt, alloc, row, report)?;
    report.push_str(if is_right { ": ok\n" } else { "\n" })
}

/// A line about a row.
fn tell_row(
    rt: &(impl Threads + Sync),
    alloc: Global,
    name: &str,
    row: &Row,
) -> Result<String, AllocError> {
    let mut contents = Vec::new(alloc);
    let fault = run_row(rt, alloc, row, &mut contents)?;
    let mut report = format!(in alloc; "{name}; {} commands", row.steps.len())?;
    match fault {
        Some(fault) => write!(report, "; {fault}\n")?,
        None => tell_turns(rt, alloc, row, &contents, &mut report)?,
    }
    Ok(report)
}

/// Runs the program with every list of answers, and tells in a line what comes of that: `FAMILY:
/// WANTED`.
fn tell_family(
    rt: &(impl Threads + Sync),
    alloc: Global,
    name: &str,
    lines: &str,
) -> Result<String, AllocError> {
    let line = lines.lines().next().unwrap_or("");
    let (family, wanted) = line.split_once(": ").unwrap_or((line, ""));
    let found = answers(rt, alloc, family)?;
    if found.as_str() == wanted {
        format!(in alloc; "{name}; every list of answers: ok\n")
    } else {
        format!(in alloc; "{name}; every list of answers; {found}\n")
    }
}

/// Reads a row and runs it, and tells of it in a line.
fn tell_block(
    rt: &(impl Threads + Sync),
    alloc: Global,
    texts: &mut Texts,
    block: &str,
) -> Result<String, AllocError> {
    let (name, lines) = block.split_once('\n').unwrap_or((block, ""));
    if let Some(family) = lines.strip_prefix("answers ") {
        return tell_family(rt, alloc, name, family);
    }
    let mut row = Row::new(alloc);
    match read_row(alloc, texts, &mut row, lines)? {
        Some(line) => format!(in alloc; "{name}; no line of a row: {line}\n"),
        None if row.steps.is_empty() => format!(in alloc; "{name}; no command\n"),
        None => tell_row(rt, alloc, name, &row),
    }
}

/// Begins a row.
const ROW: &str = "\nrow ";

/// Runs each row of a table, and writes a line about it.
pub(crate) fn tell_table(
    rt: &(impl Threads + Sync),
    alloc: Global,
    table: &str,
    out: &mut impl Sink,
) -> Result<(), Put> {
    let mut texts = Texts::new(alloc);
    let mut head = true;
    for block in table.split(ROW) {
        if head {
            head = false;
            read_head(alloc, &mut texts, block, out)?;
        } else {
            let line = tell_block(rt, alloc, &mut texts, block)?;
            out.write(line.as_bytes())?;
        }
    }
    Ok(())
}

/// Reads the texts before the first row.
fn read_head(
    alloc: Global,
    texts: &mut Texts,
    lines: &str,
    out: &mut impl Sink,
) -> Result<(), Put> {
    let mut row = Row::new(alloc);
    if let Some(line) = read_row(alloc, texts, &mut row, lines)? {
        let report = format!(in alloc; "no text: {line}\n")?;
        out.write(report.as_bytes())?;
    }
    Ok(())
}
