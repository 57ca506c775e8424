//! Relations on a scope that are told apart.

use crate::sets::{push_reply, reply_in};
use bias_store::Kept;
use find_c::{RelNext, RelRun};
use language::Language;
use samples::{push_question, question_in};
use std::alloc::Global;

/// Adds what a run asks about, and on which scope.
fn push_asked(text: &mut String, lang: &Language, run: &RelRun) -> Option<()> {
    text.push_str("asks").ok()?;
    push_question(text, &run.wants(lang))?;
    write!(text, " on {}", run.scope()).ok()
}

/// Adds what a run ends with.
fn push_end(text: &mut String, end: RelNext) -> Option<()> {
    match end {
        RelNext::Nothing => text.push_str("no choice").ok(),
        RelNext::Found(c) => write!(text, "found {}.{}", c.scope, c.rel).ok(),
        RelNext::Free => text.push_str("free").ok(),
        RelNext::Wants(_) => None,
    }
}

/// Adds what a run asks, with the replies, and what it then asks or ends with.
fn push_run(text: &mut String, lang: &Language, begun: RelRun, replies: &str) -> Option<()> {
    let mut run = begun;
    for word in replies.split_whitespace() {
        let yes = reply_in(word)?;
        push_asked(text, lang, &run)?;
        push_reply(text, yes)?;
        match run.reply(lang, yes) {
            RelNext::Wants(next) => run = next,
            end => return push_end(text, end),
        }
    }
    push_asked(text, lang, &run)
}

/// The same of a run that begins with an example, or with all relations and none of them.
fn push_telling(
    text: &mut String,
    lang: &Language,
    kept: &Kept,
    scope: u16,
    example: &str,
    replies: &str,
) -> Option<()> {
    if example == "free" {
        return match RelRun::start_free(lang, kept, scope) {
            RelNext::Wants(run) => push_run(text, lang, run, replies),
            end => push_end(text, end),
        };
    }
    let e = question_in(lang, example)?;
    match RelRun::start(lang, kept, scope, &e) {
        RelNext::Wants(run) => push_run(text, lang, run, replies),
        end => push_end(text, end),
    }
}

/// `SCOPE free by REPLIES` or `SCOPE VALUES by REPLIES`: what is asked, and what the replies lead
/// to.
pub(crate) fn tells(alloc: Global, lang: &Language, arguments: &str) -> Option<String> {
    let (begun, replies) = arguments.split_once("by")?;
    let (scope, example) = begun.split_once(' ')?;
    let scope = scope.parse::<u16>().ok()?;
    if u32::from(scope) >= lang.scopes() {
        return None;
    }
    let Ok(kept) = Kept::of(alloc, lang) else {
        return None;
    };
    let mut text = String::new(alloc);
    push_telling(&mut text, lang, &kept, scope, example.trim(), replies)?;
    Some(text)
}
