//! Lines and whole readings; sources and sinks in memory that fail.

use crate::shown::{call_in, push_byte, push_named};
use acq_io::{
    AllFault, Line, LineGot, MemSink, MemSource, PlainSink, PlainSource, Sink, Source, read_all,
    read_byte, read_first_line, read_line,
};
use rows::text_in;
use std::alloc::Global;

/// A line from a source, and what came of it.
fn line_from<S: Source>(alloc: Global, source: &mut S) -> Option<String> {
    let mut line = Line::empty();
    let got = match read_line(source, &mut line) {
        LineGot::Line => "line",
        LineGot::End => "end",
        LineGot::TooLong => "too long",
        LineGot::Fault => "failed",
    };
    let mut text = String::from_str(alloc, got).ok()?;
    push_named(&mut text, ",", line.bytes())?;
    Some(text)
}

/// Bytes: the line that is read of them, and what is left.
pub(crate) fn line(alloc: Global, arguments: &str) -> Option<String> {
    let mut source = PlainSource::new(text_in(alloc, arguments)?.into_bytes());
    let mut text = line_from(alloc, &mut source)?;
    push_named(&mut text, "\nleft", source.left())?;
    Some(text)
}

/// A source whose call of this number fails.
fn source_of(alloc: Global, call: u32, bytes: Vec<u8>) -> Option<MemSource> {
    Some(MemSource::new(bytes, vec![in alloc; call].ok()?))
}

/// Adds the next byte of a source.
fn push_next<S: Source>(text: &mut String, word: &str, source: &mut S) -> Option<()> {
    text.push_str(word).ok()?;
    push_byte(text, read_byte(source))
}

/// The call that fails, and bytes: the line that is read of them, what is left, and the two bytes
/// that are read next.
pub(crate) fn failing_line(alloc: Global, arguments: &str) -> Option<String> {
    let (call, written) = arguments.split_once(" of ")?;
    let bytes = text_in(alloc, written)?.into_bytes();
    let mut source = source_of(alloc, call_in(call)?, bytes)?;
    let mut text = line_from(alloc, &mut source)?;
    push_named(&mut text, "\nleft", source.left())?;
    push_next(&mut text, "\n", &mut source)?;
    push_next(&mut text, " ", &mut source)?;
    Some(text)
}

/// Adds what came of a reading.
fn push_all(text: &mut String, word: &str, got: Result<Vec<u8>, AllFault>) -> Option<()> {
    match got {
        Ok(bytes) => push_named(text, word, &bytes),
        Err(fault) => write!(text, "{word}: {fault}").ok(),
    }
}

/// The call that fails, the most bytes, and bytes: what is read of them, and what is read then; and
/// the first line.
pub(crate) fn whole(alloc: Global, arguments: &str) -> Option<String> {
    let (front, written) = arguments.split_once(" of ")?;
    let (call, most) = front.split_once(' ')?;
    let call = call_in(call)?;
    let most = most.parse::<u32>().ok()?;
    let mut text = String::new(alloc);
    push_readings(alloc, &mut text, written, call, most)?;
    Some(text)
}

/// Adds what comes of two readings, and of a first line.
fn push_readings(
    alloc: Global,
    text: &mut String,
    written: &str,
    call: u32,
    most: u32,
) -> Option<()> {
    let mut source = source_of(alloc, call, text_in(alloc, written)?.into_bytes())?;
    push_all(text, "all", read_all(alloc, &mut source, most))?;
    push_all(text, "\nthen", read_all(alloc, &mut source, most))?;
    let mut source = source_of(alloc, call, text_in(alloc, written)?.into_bytes())?;
    push_all(text, "\nline", read_first_line(alloc, &mut source, most))
}

/// Adds whether a sink takes each of some pieces.
fn push_pieces<K: Sink>(
    alloc: Global,
    text: &mut String,
    sink: &mut K,
    pieces: &str,
) -> Option<()> {
    for word in pieces.split(' ') {
        let piece = text_in(alloc, word)?;
        let said = if sink.write(piece.as_bytes()).is_ok() {
            "yes "
        } else {
            "no "
        };
        text.push_str(said).ok()?;
    }
    Some(())
}

/// The call that fails, and pieces: whether a sink takes each of them, and what it holds then; and
/// the same of a sink that doesn't fail.
pub(crate) fn sinks(alloc: Global, arguments: &str) -> Option<String> {
    let (call, pieces) = arguments.split_once(" of ")?;
    let call = call_in(call)?;
    let mut text = String::new(alloc);
    push_failing(alloc, &mut text, call, pieces)?;
    push_plain(alloc, &mut text, pieces)?;
    Some(text)
}

fn push_failing(alloc: Global, text: &mut String, call: u32, pieces: &str) -> Option<()> {
    let mut sink = MemSink::new(alloc, vec![in alloc; call].ok()?);
    push_pieces(alloc, text, &mut sink, pieces)?;
    push_named(text, "holds", sink.bytes())
}

fn push_plain(alloc: Global, text: &mut String, pieces: &str) -> Option<()> {
    text.push('\n').ok()?;
    let mut sink = PlainSink::new(alloc);
    push_pieces(alloc, text, &mut sink, pieces)?;
    push_named(text, "holds", sink.bytes())
}
