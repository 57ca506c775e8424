//! Readers and writers of std, among them such that fail.

use crate::shown::{push_byte, push_named};
use acq_io::{Sink, Source, StdSink, StdSource, read_byte};
use rows::text_in;
use std::alloc::Global;
use std::io::{self, ErrorKind, Read, Write};

/// Reads so many bytes, and says what comes of each.
fn bytes_from<S: Source>(alloc: Global, source: &mut S, count: usize) -> Option<String> {
    let mut text = String::new(alloc);
    for at in 0..count {
        if at > 0 {
            text.push(' ').ok()?;
        }
        push_byte(&mut text, read_byte(source))?;
    }
    Some(text)
}

/// A text: each of its bytes as it is read, and the end.
pub(crate) fn reader(alloc: Global, arguments: &str) -> Option<String> {
    let bytes = arguments.as_bytes();
    let mut source = StdSource::new(bytes);
    bytes_from(alloc, &mut source, bytes.len().checked_add(1)?)
}

/// A reader whose calls fail with these errors, one after the other, and then end.
#[derive(Drop)]
struct Failing {
    errors: Vec<ErrorKind>,
    calls: usize,
}

impl Read for Failing {
    fn read(&mut self, _buf: &mut [u8]) -> io::Result<usize> {
        let call = self.calls;
        self.calls = call.saturating_add(1);
        match self.errors.get(call) {
            Some(kind) => Err((*kind).into()),
            None => Ok(0),
        }
    }
}

fn error_in(word: &str) -> Option<ErrorKind> {
    match word {
        "interrupted" => Some(ErrorKind::Interrupted),
        "broken" => Some(ErrorKind::BrokenPipe),
        _ => None,
    }
}

fn errors_in(alloc: Global, text: &str) -> Option<Vec<ErrorKind>> {
    let mut errors = Vec::new(alloc);
    for word in text.split_whitespace() {
        errors.push(error_in(word)?).ok()?;
    }
    Some(errors)
}

/// How many bytes are read, and the errors of a reader: what comes of each.
pub(crate) fn errors(alloc: Global, arguments: &str) -> Option<String> {
    let (count, errors) = arguments.split_once(" of ")?;
    let count = count.parse::<usize>().ok()?;
    let mut source = StdSource::new(Failing {
        errors: errors_in(alloc, errors)?,
        calls: 0,
    });
    bytes_from(alloc, &mut source, count)
}

/// A writer that takes a byte at a time, and of which one flush fails.
#[derive(Drop)]
struct Slow {
    bytes: Vec<u8>,
    flushes: u32,
    fails: u32,
}

impl Write for Slow {
    fn write(&mut self, buf: &[u8]) -> io::Result<usize> {
        if buf.is_empty() {
            return Ok(0);
        }
        self.bytes.push(buf[0])?;
        Ok(1)
    }

    fn flush(&mut self) -> io::Result<()> {
        let flush = self.flushes;
        self.flushes = flush.saturating_add(1);
        if flush == self.fails {
            return Err(ErrorKind::BrokenPipe.into());
        }
        Ok(())
    }
}

/// Adds whether a writer takes each of some pieces.
fn push_pieces(alloc: Global, text: &mut String, writer: &mut Slow, pieces: &str) -> Option<()> {
    let mut sink = StdSink::new(writer);
    for word in pieces.split(' ') {
        let piece = text_in(alloc, word)?;
        let said = if sink.write(piece.as_bytes()).is_ok() {
            "yes "
        } else {
            "no "
        };
        text.push_str(said).ok()?;
    }
    Some(())
}

/// The flush that fails, from 0, and pieces: whether each is taken, and the bytes that were
/// written.
pub(crate) fn writer(alloc: Global, arguments: &str) -> Option<String> {
    let (fails, pieces) = arguments.split_once(" of ")?;
    let mut writer = Slow {
        bytes: Vec::new(alloc),
        flushes: 0,
        fails: fails.parse().ok()?,
    };
    let mut text = String::new(alloc);
    push_pieces(alloc, &mut text, &mut writer, pieces)?;
    push_named(&mut text, "holds", &writer.bytes)?;
    Some(text)
}
