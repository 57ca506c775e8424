//! Random sessions over a journal with answers that are taken back. After each step the journal is
//! opened beside the store, and the answers that stand are told to a session in memory that never
//! took one back.

use crate::files::disk_with;
use crate::steps::{answer, events_of, has_answers, put, session_of, take_back};
use answer_journal::Events;
use assign::{Partial, Plan};
use disk_model::MemDisk;
use language::{Candidate, Language};
use samples::{Numbers, is_candidate, question};
use session_core::{Idle, Session};
use session_store::{Loose, Store};
use std::alloc::Global;
use voc_read::read_vocabulary;

/// How many steps a session has at most.
const MOST_STEPS: u8 = 20;

/// Who answers.
#[derive(Drop)]
enum User {
    /// By a network.
    True(Vec<Candidate>),
    /// By chance.
    Untrue,
}

/// What one step of a session did.
#[derive(Clone, Copy)]
enum Step {
    Answered(Partial, bool),
    TookBack,
    /// Nothing was left to do.
    Rested,
}

/// What sessions did.
#[derive(Drop)]
struct Log {
    /// The answers that stand in the last one.
    told: Vec<(Partial, bool)>,
    answers: u32,
    backs: u32,
    /// Take-backs of a session that was over.
    revived: u32,
    /// Steps after which the journal or the session isn't as it has to be.
    odd: u32,
}

impl Log {
    fn new(alloc: Global) -> Log {
        Log {
            told: Vec::new(alloc),
            answers: 0,
            backs: 0,
            revived: 0,
            odd: 0,
        }
    }

    /// Takes a step of a session that was over before it or wasn't.
    fn take(&mut self, step: &Step, was_over: bool) -> Option<()> {
        match step {
            Step::Answered(q, yes) => {
                self.answers = self.answers.saturating_add(1);
                self.told.push((*q, *yes)).ok()
            }
            Step::TookBack => {
                self.backs = self.backs.saturating_add(1);
                self.revived = self.revived.saturating_add(u32::from(was_over));
                self.told.pop()?;
                Some(())
            }
            Step::Rested => Some(()),
        }
    }
}

/// Adds a relation of two places that accepts random tuples.
fn push_relation(text: &mut String, random: &mut Numbers, name: &str) -> Option<()> {
    write!(text, "{{\"name\":\"{name}\",\"arity\":2,\"tuples\":[").ok()?;
    let mut is_first = true;
    for tuple in ["[1,1]", "[1,2]", "[2,1]", "[2,2]"] {
        if random.byte_below(2) == 0 {
            if !is_first {
                text.push(',').ok()?;
            }
            text.push_str(tuple).ok()?;
            is_first = false;
        }
    }
    text.push_str("]}").ok()
}

/// Two or three variables, two values, of which the second variable may have one alone, and two
/// relations on all pairs or on some.
fn vocabulary(alloc: Global, random: &mut Numbers, has_range: bool) -> Option<String> {
    let (variables, scopes) = match random.byte_below(4) {
        0 => (r#"["a","b"]"#, r#""all""#),
        1 => (r#"["a","b","c"]"#, r#"[["b","c"],["a","b"]]"#),
        _ => (r#"["a","b","c"]"#, r#""all""#),
    };
    let ranges = if has_range { r#"["b",2,2]"# } else { "" };
    let mut text = String::new(alloc);
    push_relation(&mut text, random, "first")?;
    text.push(',').ok()?;
    push_relation(&mut text, random, "second")?;
    format!(in alloc;
        r#"{{"variables":{variables},"domain":[1,2],"ranges":[{ranges}],"relations":[{text}],"scopes":{scopes}}}"#
    ).ok()
}

/// One that has a relation or none on each scope in mind, or answers by chance.
fn user_for(alloc: Global, random: &mut Numbers, lang: &Language) -> Option<User> {
    if random.byte_below(3) == 0 {
        return Some(User::Untrue);
    }
    let mut network = Vec::new(alloc);
    for scope in 0..lang.scopes() as u16 {
        let rel = random.byte_below(5);
        network.push(Candidate { scope, rel }).ok()?;
    }
    Some(User::True(network))
}

impl User {
    fn says(&self, random: &mut Numbers, lang: &Language, q: &Partial) -> bool {
        match self {
            User::True(network) => network.iter().all(|c| !is_candidate(lang, *c)
                || !lang.candidate_violated(*c, q)),
            User::Untrue => random.byte_below(2) == 0,
        }
    }
}

/// A question that may be put where nothing is open.
fn new_question(idle: &Idle, random: &mut Numbers) -> Option<Partial> {
    if let Some(q) = idle.scope_question() {
        return Some(q);
    }
    let first = random.byte_below(8);
    for more in 0..8u8 {
        let values = u128::from(first) ^ u128::from(more);
        let q = question(idle.lang(), u128::MAX, values);
        if idle.is_lawful(&q) {
            return Some(q);
        }
    }
    None
}

/// The next question, and its answer.
fn next_of(session: &Session, user: &User, random: &mut Numbers) -> Option<(Partial, bool)> {
    match session {
        Session::Idle(idle) => {
            let q = new_question(idle, random)?;
            Some((q, user.says(random, idle.lang(), &q)))
        }
        Session::Asking(asking) => {
            let q = asking.question();
            Some((q, user.says(random, asking.lang(), &q)))
        }
        Session::Over(_) => None,
    }
}

/// Puts the next question now and then.
fn put_or_not(
    store: &mut Store,
    disk: &MemDisk,
    next: Option<(Partial, bool)>,
    random: &mut Numbers,
) {
    match next {
        Some((q, _)) if random.byte_below(2) == 0 => put(store, disk, q),
        _ => {}
    }
}

/// Answers the next question, or takes the last answer back: before a question is put, or while one
/// is.
fn take_step(
    store: &mut Store,
    disk: &mut MemDisk,
    user: &User,
    random: &mut Numbers,
) -> Option<Step> {
    let next = next_of(session_of::<MemDisk, Store>(store), user, random);
    let chance = if next.is_some() { 4 } else { 2 };
    let is_back = random.byte_below(chance) == 0 && has_answers::<MemDisk, Store>(store);
    put_or_not(store, disk, next, random);
    if is_back {
        return take_back(store, disk)?.ok().map(|_| Step::TookBack);
    }
    let Some((q, yes)) = next else {
        return Some(Step::Rested);
    };
    put(store, disk, q);
    answer(store, disk, yes)?
        .ok()
        .map(|_| Step::Answered(q, yes))
}

/// Tells a session in memory these answers.
fn tell(loose: &mut Loose, none: &mut MemDisk, told: &[(Partial, bool)]) -> Option<()> {
    for (q, yes) in told {
        put(loose, none, *q);
        answer(loose, none, *yes)?.ok()?;
    }
    Some(())
}

/// A session in memory that was told these answers.
fn told_session(alloc: Global, voc: &[u8], plan: Plan, told: &[(Partial, bool)]) -> Option<Loose> {
    let lang = read_vocabulary(alloc, voc).ok()?;
    let Ok(mut loose) = Loose::new(alloc, lang, plan) else {
        return None;
    };
    tell(&mut loose, &mut disk_with(alloc, &[])?, told)?;
    Some(loose)
}

/// Whether the same question is open, or none.
fn is_as_open(one: &Session, other: &Session) -> bool {
    match (one, other) {
        (Session::Idle(_), Session::Idle(_)) | (Session::Over(_), Session::Over(_)) => true,
        (Session::Asking(one), Session::Asking(other)) => {
            one.question().equals(&other.question())
        }
        _ => false,
    }
}

/// Whether both have the same plan, have learned the same from as many answers, and stand at the
/// same question.
fn are_same(one: &Session, other: &Session) -> bool {
    one.plan() == other.plan()
        && one.answers() == other.answers()
        && one.network().list() == other.network().list()
        && is_as_open(one, other)
}

/// Whether both are the same events.
fn are_same_events(one: &Events, other: &Events) -> bool {
    if one.len() != other.len() {
        return false;
    }
    for i in 0..one.len() {
        if one.get(i) != other.get(i) {
            return false;
        }
    }
    true
}

/// Whether two stores have the same vocabulary and events, and both stand where the session does.
fn are_as_told(store: &Store, opened: &Store, session: &Session) -> bool {
    store.vocabulary() == opened.vocabulary()
        && are_same_events(
            events_of::<MemDisk, Store>(store),
            events_of::<MemDisk, Store>(opened),
        )
        && are_same(session_of::<MemDisk, Store>(store), session)
        && are_same(session_of::<MemDisk, Store>(opened), session)
}

/// Whether the journal opens with the same events, and they lead where the answers that stand lead.
fn is_as_told(
    alloc: Global,
    store: &Store,
    disk: &MemDisk,
    told: &[(Partial, bool)],
) -> Option<bool> {
    let plan = session_of::<MemDisk, Store>(store).plan();
    let loose = told_session(alloc, store.vocabulary(), plan, told)?;
    let mut copy = disk_with(alloc, disk.content())?;
    match Store::open(alloc, &mut copy) {
        Ok(opened) => Some(are_as_told(store, &opened, session_of::<MemDisk, Loose>(&loose))),
        Err(_) => Some(false),
    }
}

/// Opens the journal now and then in the place of a store that stopped.
fn reopen(
    alloc: Global,
    store: &mut Store,
    disk: &mut MemDisk,
    random: &mut Numbers,
) -> Option<()> {
    if random.byte_below(4) == 0 {
        match Store::open(alloc, disk) {
            Ok(opened) => *store = opened,
            Err(_) => return None,
        }
    }
    Some(())
}

/// A step, what is looked at after it, and now and then a stop. False where nothing was left to do.
fn turn(
    alloc: Global,
    store: &mut Store,
    disk: &mut MemDisk,
    user: &User,
    random: &mut Numbers,
    log: &mut Log,
) -> Option<bool> {
    let was_over = matches!(session_of::<MemDisk, Store>(store), Session::Over(_));
    let step = take_step(store, disk, user, random)?;
    if matches!(step, Step::Rested) {
        return Some(false);
    }
    log.take(&step, was_over)?;
    if !is_as_told(alloc, store, disk, &log.told)? {
        log.odd = log.odd.saturating_add(1);
    }
    reopen(alloc, store, disk, random)?;
    Some(true)
}

/// One session, which is stopped after some of its steps.
fn play(
    alloc: Global,
    plan: Plan,
    voc: &str,
    user: &User,
    random: &mut Numbers,
    log: &mut Log,
) -> Option<()> {
    let mut disk = disk_with(alloc, &[])?;
    let Ok(mut store) = Store::create(alloc, &mut disk, plan, voc.as_bytes()) else {
        return None;
    };
    log.told = Vec::new(alloc);
    for _ in 0..MOST_STEPS {
        if !turn(alloc, &mut store, &mut disk, user, random, log)? {
            break;
        }
    }
    Some(())
}

/// The session of this number.
fn session(alloc: Global, number: u64, log: &mut Log) -> Option<()> {
    let mut random = Numbers::new(number);
    let plan = match number % 3 {
        0 => Plan::Scopes,
        1 => Plan::Quacq,
        _ => Plan::Multi,
    };
    let voc = vocabulary(alloc, &mut random, number % 4 == 0)?;
    let user = user_for(
        alloc,
        &mut random,
        &read_vocabulary(alloc, voc.as_bytes()).ok()?,
    )?;
    play(alloc, plan, voc.as_str(), &user, &mut random, log)
}

/// How many sessions: what they did.
pub(crate) fn random(alloc: Global, arguments: &str) -> Option<String> {
    let mut log = Log::new(alloc);
    for number in 0..arguments.parse::<u64>().ok()? {
        session(alloc, number, &mut log)?;
    }
    format!(in alloc;
        "{} answers\n{} taken back, {} of them after the session was over\n{} steps left something else",
        log.answers, log.backs, log.revived, log.odd
    )
    .ok()
}
