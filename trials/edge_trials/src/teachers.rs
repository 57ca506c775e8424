//! What lines and networks say to a question, and what is written and left then.

use crate::shown::{call_in, push_named};
use acq_io::{MemSink, MemSource};
use language::Language;
use network::read_network;
use rows::{number, text_in};
use samples::assigned;
use std::alloc::Global;
use std::str::SplitWhitespace;
use target_oracle::{LineTeacher, NetTeacher, Teacher, Told};

fn told_word(told: Told) -> &'static str {
    match told {
        Told::Yes => "yes",
        Told::No => "no",
        Told::Back => "back",
        Told::Stop => "stop",
        Told::End => "end",
        Told::TooLong => "too long",
        Told::Unreadable => "unreadable",
        Told::ReadFault => "read fault",
        Told::WriteFault => "write fault",
        Told::Memory => "memory",
    }
}

/// Puts question number `k`, where both variables have their first value: what is told, written and
/// left.
fn turn<T: Teacher<MemSource, MemSink>>(
    alloc: Global,
    lang: &Language,
    k: u32,
    teacher: &mut T,
    source: &mut MemSource,
    sink: &mut MemSink,
) -> Option<String> {
    let question = assigned(lang, &[0, 1], &[0, 0]);
    let told = teacher.told(alloc, source, sink, lang, k, &question);
    let mut text = String::from_str(alloc, told_word(told)).ok()?;
    push_named(&mut text, "\nwrites", sink.bytes())?;
    push_named(&mut text, "\nleaves", source.left())?;
    Some(text)
}

/// Bytes to be read, and the call that fails.
fn source_of(alloc: Global, call: u32, written: &str) -> Option<MemSource> {
    let bytes = text_in(alloc, written)?.into_bytes();
    Some(MemSource::new(bytes, vec![in alloc; call].ok()?))
}

/// A sink whose call of this number fails.
fn sink_of(alloc: Global, call: u32) -> Option<MemSink> {
    Some(MemSink::new(alloc, vec![in alloc; call].ok()?))
}

/// The next word as the number of the call that fails.
fn next_call(words: &mut SplitWhitespace<'_>) -> Option<u32> {
    call_in(words.next()?)
}

/// The question's number, the calls of the source and of the sink that fail, and lines: what they
/// say.
pub(crate) fn lines(alloc: Global, lang: &Language, arguments: &str) -> Option<String> {
    let (front, written) = arguments.split_once(" of ")?;
    let mut words = front.split_whitespace();
    let k = number(&mut words)?;
    let read = next_call(&mut words)?;
    let write = next_call(&mut words)?;
    let mut source = source_of(alloc, read, written)?;
    let mut sink = sink_of(alloc, write)?;
    let mut teacher = LineTeacher::new();
    turn(alloc, lang, k, &mut teacher, &mut source, &mut sink)
}

/// The question's number, the call of the sink that fails, whether the teacher writes or is quiet,
/// and a network in JSON: what it says, where a line could be read.
pub(crate) fn network(alloc: Global, lang: &Language, arguments: &str) -> Option<String> {
    let (front, json) = arguments.split_once(" of ")?;
    let mut words = front.split_whitespace();
    let k = number(&mut words)?;
    let write = next_call(&mut words)?;
    let quiet = is_quiet(words.next()?)?;
    network_turn(alloc, lang, k, write, quiet, json)
}

fn is_quiet(word: &str) -> Option<bool> {
    match word {
        "quiet" => Some(true),
        "writing" => Some(false),
        _ => None,
    }
}

fn network_turn(
    alloc: Global,
    lang: &Language,
    k: u32,
    write: u32,
    quiet: bool,
    json: &str,
) -> Option<String> {
    let net = read_network(alloc, lang, json.as_bytes()).ok()?;
    let mut teacher = NetTeacher::of(alloc, lang, net, quiet);
    let mut source = source_of(alloc, call_in("-")?, "no\\n")?;
    let mut sink = sink_of(alloc, write)?;
    turn(alloc, lang, k, &mut teacher, &mut source, &mut sink)
}
