//! Random answers, given to a session and to the fold.

use crate::fold::{Fold, State};
use crate::plain::{Lists, Values, value_of};
use crate::vocabularies::{language, lists_of};
use assign::{Partial, Plan};
use language::{Candidate, Language};
use rows::{end, number};
use samples::Numbers;
use session_core::{Asking, Idle, Session, begin};
use std::alloc::Global;

/// More answers than a session of these languages takes.
const MOST_ANSWERS: u16 = 2000;

/// How many examples are judged where nothing is open.
const TRIED: u8 = 4;

/// A session's user and the fold of the answers.
#[derive(Drop)]
struct Trial {
    lists: Lists,
    fold: Fold,
    random: Numbers,
    /// The network that the user has in mind, or none: then the answers are random.
    target: Option<Vec<(usize, usize)>>,
}

/// How many answers there were, how many candidates were learned, and how many sessions collapsed.
#[derive(Clone, Copy)]
struct Tally {
    answers: u32,
    learned: u32,
    collapsed: u32,
}

/// The assignment of these values.
fn partial_of(variables: u8, values: &Values) -> Partial {
    let mut q = Partial::blank(variables.clamp(1, 6));
    for v in 0..5u8 {
        if let Some(value) = value_of(values, v)
            && v < q.len()
        {
            q.set(v, value);
        }
    }
    q
}

/// Whether a question of so many variables has these values.
fn has_values(q: &Partial, variables: u8, values: &Values) -> bool {
    q.len() == variables && (0..128u8).all(|v| q.get(v) == value_of(values, v))
}

/// How many values a variable has.
fn values_of(lists: &Lists, v: u8) -> u8 {
    let (first, last) = lists.range(v);
    last.saturating_sub(first).saturating_add(1)
}

/// How many complete assignments there are.
fn examples(lists: &Lists) -> u8 {
    let mut count = 1u8;
    for v in 0..lists.variables {
        count = count.saturating_mul(values_of(lists, v));
    }
    count
}

/// The complete values of this number.
fn example(lists: &Lists, number: u8) -> Values {
    let mut values = [None; 5];
    let mut left = number;
    for v in 0..lists.variables.min(5) {
        let count = values_of(lists, v).max(1);
        values[v as usize] = Some(lists.range(v).0.saturating_add(left % count));
        left /= count;
    }
    values
}

/// Whether the session keeps the fold's candidates, and no other.
fn keeps_the_same(session: &Session, lists: &Lists, fold: &Fold) -> bool {
    let mut count = 0u32;
    for s in 0..lists.scopes.len() {
        for r in 0..8u8 {
            let c = Candidate {
                scope: u16::try_from(s).unwrap_or(u16::MAX),
                rel: r,
            };
            let is_kept = fold.is_kept(lists, s, r as usize);
            if session.kept().is_kept(c) != is_kept {
                return false;
            }
            if is_kept {
                count = count.saturating_add(1);
            }
        }
    }
    session.kept().len() == count
}

/// Whether the session has learned the fold's candidates, in their order.
fn learned_the_same(session: &Session, fold: &Fold) -> bool {
    let list = session.network().list();
    list.len() == fold.network.len()
        && list.iter().zip(fold.network.iter()).all(|(c, learned)| c.scope as usize == learned.0
            && c.rel as usize == learned.1)
}

/// Whether the session's kind and open question are the fold's.
fn is_as_open(session: &Session, lists: &Lists, fold: &Fold) -> bool {
    match session {
        Session::Idle(_) => matches!(fold.state, State::Idle),
        Session::Over(_) => matches!(fold.state, State::Over),
        Session::Asking(asking) => match fold.open(lists) {
            Some(values) => has_values(&asking.question(), lists.variables, &values),
            None => false,
        },
    }
}

/// Whether the session stands where the fold does.
fn is_as_folded(session: &Session, lists: &Lists, fold: &Fold) -> bool {
    session.answers() as usize == fold.told.len()
        && learned_the_same(session, fold)
        && keeps_the_same(session, lists, fold)
        && is_as_open(session, lists, fold)
}

/// Whether the first question of a scope is the fold's.
fn has_same_first(idle: &Idle, lists: &Lists, fold: &Fold) -> bool {
    match (idle.scope_question(), fold.scope_question(lists)) {
        (Some(question), Some(values)) => has_values(&question, lists.variables, &values),
        (None, None) => true,
        _ => false,
    }
}

/// Whether these values may be put where the fold says so, and never to one variable more.
fn is_as_lawful(idle: &Idle, lists: &Lists, fold: &Fold, values: &Values) -> bool {
    let q = partial_of(lists.variables, values);
    let longer = partial_of(lists.variables.saturating_add(1), values);
    idle.is_lawful(&q) == fold.is_lawful(lists, values) && !idle.is_lawful(&longer)
}

/// Whether the same may be put, where nothing is open: whole examples, parts of them, and such with
/// a value too great for its variable.
fn has_same_lawful(idle: &Idle, lists: &Lists, fold: &Fold, random: &mut Numbers) -> bool {
    for turn in 0..TRIED {
        let whole = example(lists, random.byte_below(examples(lists)));
        let at = (turn % 2) as usize;
        let mut part = whole;
        part[at] = None;
        let mut odd = whole;
        odd[at] = Some(lists.range(turn % 2).1.saturating_add(1));
        let are_same = [whole, part, odd]
            .iter()
            .all(|values| is_as_lawful(idle, lists, fold, values));
        if !are_same {
            return false;
        }
    }
    true
}

/// A random example that may be put.
fn lawful_example(lists: &Lists, fold: &Fold, random: &mut Numbers) -> Option<Values> {
    let count = examples(lists);
    let from = random.byte_below(count);
    for step in 0..count {
        let number = (u16::from(from) + u16::from(step)) % u16::from(count.max(1));
        let values = example(lists, number as u8);
        if fold.is_lawful(lists, &values) {
            return Some(values);
        }
    }
    None
}

/// A random network: at each scope a relation or none.
fn target(alloc: Global, random: &mut Numbers, lists: &Lists) -> Option<Vec<(usize, usize)>> {
    let mut network = Vec::new(alloc);
    for s in 0..lists.scopes.len() {
        let r = random.byte_below(8) as usize;
        if r < lists.relations(s) {
            network.push((s, r)).ok()?;
        }
    }
    Some(network)
}

impl Trial {
    /// The question to be answered: the open one, or one to be put. None where there is none.
    fn question(&mut self, session: &Session) -> Option<Values> {
        match session {
            Session::Over(_) => None,
            Session::Asking(_) => self.fold.open(&self.lists),
            Session::Idle(_) => {
                if self.fold.has_examples() {
                    lawful_example(&self.lists, &self.fold, &mut self.random)
                } else {
                    self.fold.scope_question(&self.lists)
                }
            }
        }
    }

    /// The user's answer.
    fn reply(&mut self, question: &Values) -> bool {
        match &self.target {
            Some(network) => network
                .iter()
                .all(|c| !self.lists.violates(c.0, c.1, question)),
            None => self.random.byte_below(2) == 1,
        }
    }

    /// Whether the session stands where the fold does, and the same questions may be put.
    fn agrees(&mut self, session: &Session) -> bool {
        if !is_as_folded(session, &self.lists, &self.fold) {
            return false;
        }
        match session {
            Session::Idle(idle) => {
                has_same_first(idle, &self.lists, &self.fold)
                    && has_same_lawful(idle, &self.lists, &self.fold, &mut self.random)
            }
            Session::Asking(_) | Session::Over(_) => true,
        }
    }
}

/// Why a session isn't as the fold says.
type Fault = &'static str;

/// Puts a question, where none is open.
fn put(session: Session, q: Partial) -> Result<Asking, Fault> {
    match session {
        Session::Asking(asking) => Ok(asking),
        Session::Over(_) => Err("the session is over"),
        Session::Idle(idle) => {
            if idle.is_lawful(&q) {
                Ok(idle.ask(q))
            } else {
                Err("a question isn't lawful")
            }
        }
    }
}

/// Answers a question in the session and in the fold.
fn answered(
    alloc: Global,
    session: Session,
    trial: &mut Trial,
    question: Values,
) -> Result<Session, Fault> {
    let variables = trial.lists.variables;
    let asking = put(session, partial_of(variables, &question))?;
    if !has_values(&asking.question(), variables, &question) {
        return Err("another question is open");
    }
    let yes = trial.reply(&question);
    match trial.fold.answer(alloc, &trial.lists, question, yes) {
        Ok(()) => Ok(asking.answer(yes)),
        Err(_) => Err("memory"),
    }
}

/// One session beside the fold, to its end.
fn run(alloc: Global, begun: Session, trial: &mut Trial) -> Result<Session, Fault> {
    let mut session = begun;
    for _ in 0..MOST_ANSWERS {
        if !trial.agrees(&session) {
            return Err("the session stands elsewhere");
        }
        let Some(question) = trial.question(&session) else {
            return Ok(session);
        };
        session = answered(alloc, session, trial, question)?;
    }
    Err("the session has too many questions")
}

/// A trial of this language.
fn begun_trial(
    alloc: Global,
    lang: &Language,
    mut random: Numbers,
    plan: Plan,
    is_true: bool,
) -> Option<Trial> {
    let lists = lists_of(alloc, lang)?;
    let network = target(alloc, &mut random, &lists)?;
    Some(Trial {
        lists,
        fold: Fold::new(alloc, plan),
        random,
        target: if is_true { Some(network) } else { None },
    })
}

/// One session to its end, and then without answers.
fn played(alloc: Global, begun: Session, trial: &mut Trial) -> Result<Tally, Fault> {
    let session = run(alloc, begun, trial)?;
    let tally = Tally {
        answers: session.answers(),
        learned: session.network().len(),
        collapsed: u32::from(matches!(session, Session::Over(_))),
    };
    trial.fold = Fold::new(alloc, trial.fold.plan);
    if trial.agrees(&session.restart()) {
        Ok(tally)
    } else {
        Err("the session stands elsewhere without its answers")
    }
}

/// One session of the language of a seed.
fn session(alloc: Global, seed: u64, plan: Plan, is_true: bool) -> Result<Tally, Fault> {
    let mut random = Numbers::new(seed);
    let Some(lang) = language(alloc, &mut random) else {
        return Err("no language");
    };
    let Some(mut trial) = begun_trial(alloc, &lang, random, plan, is_true) else {
        return Err("no lists of the language");
    };
    match begin(alloc, lang, plan) {
        Ok(begun) => played(alloc, begun, &mut trial),
        Err(_) => Err("memory"),
    }
}

/// What came of the sessions of a row.
#[derive(Drop)]
struct Log {
    tally: Tally,
    odd: u32,
    lines: String,
}

impl Log {
    /// Takes what came of the session of a seed.
    fn take(&mut self, seed: u64, came: Result<Tally, Fault>) -> Option<()> {
        match came {
            Ok(tally) => {
                self.tally.answers = self.tally.answers.saturating_add(tally.answers);
                self.tally.learned = self.tally.learned.saturating_add(tally.learned);
                self.tally.collapsed = self.tally.collapsed.saturating_add(tally.collapsed);
                Some(())
            }
            Err(fault) => {
                self.odd = self.odd.saturating_add(1);
                writeln!(self.lines, "seed {seed}: {fault}").ok()
            }
        }
    }
}

/// What came of the sessions of these seeds.
fn played_all(alloc: Global, plan: Plan, is_true: bool, first: u64, last: u64) -> Option<String> {
    let mut log = Log {
        tally: Tally {
            answers: 0,
            learned: 0,
            collapsed: 0,
        },
        odd: 0,
        lines: String::new(alloc),
    };
    for seed in first..=last {
        log.take(seed, session(alloc, seed, plan, is_true))?;
    }
    let Log { tally, odd, lines } = log;
    let Tally {
        answers,
        learned,
        collapsed,
    } = tally;
    format!(in alloc;
        "{answers} answers\n{learned} learned\n{collapsed} collapsed\n{odd} odd\n{lines}"
    ).ok()
}

fn plan_in(word: &str) -> Option<Plan> {
    match word {
        "scopes" => Some(Plan::Scopes),
        "quacq" => Some(Plan::Quacq),
        "multi" => Some(Plan::Multi),
        _ => None,
    }
}

/// Whether answers are those of a network.
fn is_true_in(word: &str) -> Option<bool> {
    match word {
        "true" => Some(true),
        "untrue" => Some(false),
        _ => None,
    }
}

/// A plan, which answers, and the first and the last seed: what came of a session of each seed's
/// language.
pub(crate) fn sessions(alloc: Global, arguments: &str) -> Option<String> {
    let mut words = arguments.split_whitespace();
    let plan = plan_in(words.next()?)?;
    let is_true = is_true_in(words.next()?)?;
    let first = number(&mut words)?;
    let last = number(&mut words)?;
    end(&mut words)?;
    played_all(alloc, plan, is_true, first, last)
}
