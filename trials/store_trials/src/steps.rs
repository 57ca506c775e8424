//! Steps of any keeper of a session, and what is told of it.

use crate::files::{answer_in, pair_in, plan_word};
use answer_journal::Events;
use assign::{Event, Partial};
use disk_model::Disk;
use session_core::Session;
use session_store::{Keep, SFault};
use std::alloc::Global;

pub(crate) fn session_of<D: Disk, P: Keep<D>>(keep: &P) -> &Session {
    keep.session()
}

pub(crate) fn events_of<D: Disk, P: Keep<D>>(keep: &P) -> &Events {
    keep.events()
}

pub(crate) fn is_live<D: Disk, P: Keep<D>>(keep: &P) -> bool {
    keep.is_live()
}

/// How many answers stand.
pub(crate) fn standing_count<D: Disk, P: Keep<D>>(keep: &P) -> u32 {
    keep.session().answers()
}

/// The pairs of a question.
fn push_question(text: &mut String, question: &Partial) -> Option<()> {
    for v in 0..question.len() {
        if let Some(value) = question.get(v) {
            write!(text, " {v}={value}").ok()?;
        }
    }
    Some(())
}

/// An event, behind what parts it from the text before.
pub(crate) fn push_event(text: &mut String, gap: &str, event: &Event) -> Option<()> {
    text.push_str(gap).ok()?;
    match event {
        Event::Answer { question, yes } => {
            text.push_str(if *yes { "yes" } else { "no" }).ok()?;
            push_question(text, question)
        }
        Event::Back => text.push_str("back").ok(),
    }
}

/// Where a session stands.
fn push_stand(text: &mut String, session: &Session) -> Option<()> {
    match session {
        Session::Idle(_) => text.push_str(", idle").ok(),
        Session::Over(_) => text.push_str(", over").ok(),
        Session::Asking(asking) => {
            text.push_str(", asking").ok()?;
            push_question(text, &asking.question())
        }
    }
}

/// The plan, how many events there are, how many answers stand, and where they lead.
pub(crate) fn keep_text<D: Disk, P: Keep<D>>(alloc: Global, keep: &P) -> Option<String> {
    let session = keep.session();
    let plan = plan_word(session.plan());
    let (events, standing) = (keep.events().len(), session.answers());
    let mut text = format!(in alloc; "{plan}, {events} events, {standing} standing").ok()?;
    push_stand(&mut text, session)?;
    Some(text)
}

/// Whether nothing is open and the question may be put.
fn is_due(session: &Session, question: &Partial) -> bool {
    match session {
        Session::Idle(idle) => idle.is_lawful(question),
        Session::Asking(_) | Session::Over(_) => false,
    }
}

/// Puts a question, where none is open and it may be put. The disk on which the keeper sits stays
/// as it is.
pub(crate) fn put<D: Disk, P: Keep<D>>(keep: &mut P, _disk: &D, question: Partial) {
    if is_due(keep.session(), &question) {
        keep.ask(question);
    }
}

fn is_asking(session: &Session) -> bool {
    match session {
        Session::Asking(_) => true,
        Session::Idle(_) | Session::Over(_) => false,
    }
}

/// Answers the question that is put. None where none is, or where nothing more is kept.
pub(crate) fn answer<D: Disk, P: Keep<D>>(
    keep: &mut P,
    disk: &mut D,
    yes: bool,
) -> Option<Result<(), SFault>> {
    if !is_asking(keep.session()) || keep.events().len() >= 1000 || !keep.is_live() {
        return None;
    }
    Some(keep.answer(disk, yes))
}

pub(crate) fn has_answers<D: Disk, P: Keep<D>>(keep: &P) -> bool {
    standing_count::<D, P>(keep) > 0
}

/// Takes back the last answer that stands. None where none does, or where nothing more is kept.
pub(crate) fn take_back<D: Disk, P: Keep<D>>(
    keep: &mut P,
    disk: &mut D,
) -> Option<Result<(), SFault>> {
    if !has_answers::<D, P>(keep) || keep.events().len() >= 1000 || !keep.is_live() {
        return None;
    }
    Some(keep.take_back(disk))
}

/// The question of these pairs to n variables.
fn question_in(pairs: &str, n: u8) -> Option<Partial> {
    let mut question = Partial::blank(n.clamp(1, 128));
    for word in pairs.split_whitespace() {
        let (variable, value) = pair_in(word)?;
        if variable >= question.len() {
            return None;
        }
        question.set(variable, value);
    }
    Some(question)
}

/// Puts a question, where none is put, and answers; or takes back.
pub(crate) fn add<D: Disk, P: Keep<D>>(
    keep: &mut P,
    disk: &mut D,
    text: &str,
) -> Option<Result<(), SFault>> {
    if text == "back" {
        return take_back(keep, disk);
    }
    let (yes, pairs) = answer_in(text)?;
    let question = question_in(pairs, keep.session().lang().n())?;
    put(keep, disk, question);
    answer(keep, disk, yes)
}
