//! The program over every vocabulary of a small family, with every list of answers: each end is
//! what plain enumeration says.

use crate::running::printed;
use crate::small::{
    ALL_PAIRS, NO_VALUES, Network, Pairs, Values, accepts, assignment, chosen_of, closed, holds,
    meet, network, networks, plain_size, scopes_of, violates, with,
};
use crate::texts::words_of;
use std::alloc::{AllocError, Global};
use std::thread::Threads;

/// More answers than a session of these languages takes.
const MOST_ANSWERS: usize = 60;

/// More runs than a language of these has.
const MOST_RUNS: u32 = 100_000;

/// A family of vocabularies, and how the program is run over them.
#[derive(Clone, Copy)]
struct Family<'a> {
    /// How many variables there are.
    n: u8,
    /// How many values the first one has. It has both where there are three variables.
    firsts: u8,
    plan: &'a str,
    budget: u32,
}

/// `VARIABLES VALUES PLAN BUDGET`.
fn family_in(text: &str) -> Option<Family<'_>> {
    let (n, rest) = text.split_once(' ')?;
    let (firsts, rest) = rest.split_once(' ')?;
    let (plan, budget) = rest.split_once(' ')?;
    Some(Family {
        n: n.parse().ok()?,
        firsts: firsts.parse().ok()?,
        plan,
        budget: budget.parse().ok()?,
    })
}

/// A relation of the vocabulary, with a comma where it isn't the first.
fn push_relation(text: &mut String, i: usize, pairs: &Pairs) -> Result<(), AllocError> {
    let comma = if i == 0 { "" } else { "," };
    write!(text, "{comma}{{\"name\":\"r{i}\",\"arity\":2,\"tuples\":[")?;
    let mut gap = "";
    for x in 0..2u8 {
        for y in 0..2u8 {
            if holds(pairs, x, y) {
                write!(text, "{gap}[{x},{y}]")?;
                gap = ",";
            }
        }
    }
    text.push_str("]}")
}

/// The vocabulary of these relations.
fn push_vocabulary(text: &mut String, family: &Family, given: &[Pairs]) -> Result<(), AllocError> {
    let names = if family.n == 2 {
        "\"a\",\"b\""
    } else {
        "\"a\",\"b\",\"c\""
    };
    write!(
        text,
        "{{\"variables\":[{names}],\"domain\":[0,1],\"relations\":["
    )?;
    for (i, pairs) in given.iter().enumerate() {
        push_relation(text, i, pairs)?;
    }
    if family.firsts < 2 {
        text.push_str("],\"ranges\":[[\"a\",0,0]")?;
    }
    text.push_str("],\"scopes\":\"all\"}\n")
}

/// A vocabulary of the family: its relations, and all that they and their intersections are.
#[derive(Clone, Copy)]
struct Small<'a> {
    family: Family<'a>,
    given: &'a [Pairs],
    relations: &'a [Pairs],
}

/// The scope and the relation that a line of a network names.
type Candidate = ((u8, u8), Pairs);

impl Small<'_> {
    fn scopes(&self) -> &'static [(u8, u8)] {
        scopes_of(self.family.n)
    }

    /// The intersection of the relations with these names.
    fn named(&self, name: &str) -> Pairs {
        let mut pairs = ALL_PAIRS;
        for part in name.split('&') {
            let number = part
                .strip_prefix("r")
                .and_then(|digits| digits.parse::<usize>().ok());
            if let Some(given) = number.and_then(|number| self.given.get(number)) {
                pairs = meet(&pairs, given);
            }
        }
        pairs
    }

    fn candidate_in(&self, line: &str) -> Candidate {
        let mut parts = line.split(' ');
        let pairs = self.named(parts.next().unwrap_or(""));
        let first = variable(parts.next().unwrap_or(""));
        let second = variable(parts.next().unwrap_or(""));
        ((first, second), pairs)
    }

    /// Whether a network gives all answers.
    fn agrees(&self, network: &Network, told: &[(Values, bool)]) -> bool {
        told.iter().all(|(question, yes)| accepts(self.scopes(), network, question) == *yes)
    }

    /// Whether each assignment satisfies both networks or neither.
    fn have_same_solutions(&self, one: &Network, other: &Network) -> bool {
        (0..8u8).all(|number| match assignment(self.family.n, self.family.firsts, number) {
            Some(e) => accepts(self.scopes(), one, &e) == accepts(self.scopes(), other, &e),
            None => true,
        })
    }

    /// How many networks there are.
    fn networks(&self) -> usize {
        networks(self.scopes().len(), self.relations.len())
    }

    /// Whether this network agrees with the answers, and each that does has its solutions.
    fn converges_to(&self, found: &Network, told: &[(Values, bool)]) -> bool {
        self.agrees(found, told)
            && (0..self.networks()).all(|number| {
                let other = network(self.relations, number);
                !self.agrees(&other, told) || self.have_same_solutions(&other, found)
            })
    }

    /// Whether no network agrees with the answers.
    fn none_agrees(&self, told: &[(Values, bool)]) -> bool {
        !(0..self.networks()).any(|number| self.agrees(&network(self.relations, number), told))
    }

    /// How many questions fewer were asked than the bound says: one for each candidate, and for
    /// each learned constraint one and twice the halvings that leave one of the variables, which
    /// are one of two and two of three. None where more were asked.
    fn spare(&self, run: &Run) -> Option<usize> {
        let cost = if self.family.n == 2 { 3usize } else { 5 };
        let mut bound = self.scopes().len().saturating_mul(self.relations.len());
        for pairs in &run.learned {
            if pairs.is_some() {
                bound = bound.saturating_add(cost);
            }
        }
        bound.checked_sub(run.told.len())
    }

    /// Whether each solution of the network satisfies a candidate.
    fn is_implied(&self, network: &Network, scope: (u8, u8), pairs: &Pairs) -> bool {
        (0..8u8).all(|number| match assignment(self.family.n, self.family.firsts, number) {
            Some(e) => !accepts(self.scopes(), network, &e) || !violates(scope, pairs, &e),
            None => true,
        })
    }

    /// Whether a candidate is kept: nothing is learned on its scope, and no yes violates it.
    fn is_kept(&self, run: &Run, s: usize, scope: (u8, u8), pairs: &Pairs) -> bool {
        run.learned.get(s) == Some(&None)
            && !run
                .told
                .iter()
                .any(|(q, yes)| *yes && violates(scope, pairs, q))
    }

    /// Whether a candidate is open as it should be: an open one is kept and takes more steps than
    /// the budget has, and one that is kept and not open is implied.
    fn is_rightly_open(&self, run: &Run, s: usize, scope: (u8, u8), pairs: &Pairs) -> bool {
        let Family {
            n,
            firsts,
            budget,
            ..
        } = self.family;
        let is_kept = self.is_kept(run, s, scope, pairs);
        let network = run.network();
        if run.open.contains(&(scope, *pairs)) {
            is_kept && plain_size(n, firsts, &network, scope, pairs) > budget
        } else {
            !is_kept || self.is_implied(&network, scope, pairs)
        }
    }

    /// Whether the open candidates are as they should be, and there are some.
    fn leaves_open(&self, run: &Run) -> bool {
        let mut listed = 0usize;
        for (s, scope) in self.scopes().iter().enumerate() {
            for pairs in self.relations {
                if !self.is_rightly_open(run, s, *scope, pairs) {
                    return false;
                }
                if run.open.contains(&(*scope, *pairs)) {
                    listed = listed.saturating_add(1);
                }
            }
        }
        listed > 0 && listed == run.open.len()
    }

    /// Whether a run has ended as its answers say. None where it wants more answers.
    fn has_ended_well(&self, run: &Run) -> Option<bool> {
        match run.ending {
            Ending::Suspended => None,
            Ending::Converged => Some(
                self.converges_to(&run.network(), &run.told) && self.spare(run).is_some(),
            ),
            Ending::Collapsed => Some(self.none_agrees(&run.told)),
            Ending::Undecided => Some(self.leaves_open(run)),
            Ending::None => Some(false),
        }
    }
}

/// What a run printed.
#[derive(Drop)]
struct Run {
    told: Vec<(Values, bool)>,
    ending: Ending,
    learned: [Option<Pairs>; 3],
    open: Vec<Candidate>,
}

#[derive(Clone, Copy, PartialEq, Eq)]
enum Ending {
    None,
    Converged,
    Collapsed,
    Undecided,
    Suspended,
}

/// The number of a variable.
fn variable(name: &str) -> u8 {
    match name {
        "a" => 0,
        "b" => 1,
        _ => 2,
    }
}

/// The values that a question shows.
fn values_in(line: &str) -> Values {
    let mut values = NO_VALUES;
    for part in line.split(' ') {
        if let Some((name, value)) = part.split_once('=') {
            values = with(&values, variable(name), if value == "1" { 1 } else { 0 });
        }
    }
    values
}

/// How a line says that a run ended.
fn ending_in(line: &str) -> Option<Ending> {
    match line.split(' ').next() {
        Some("converged") => Some(Ending::Converged),
        Some("collapsed") => Some(Ending::Collapsed),
        Some("undecided") => Some(Ending::Undecided),
        Some("suspended") => Some(Ending::Suspended),
        _ => None,
    }
}

impl Run {
    fn new(alloc: Global) -> Run {
        Run {
            told: Vec::new(alloc),
            ending: Ending::None,
            learned: [None; 3],
            open: Vec::new(alloc),
        }
    }

    /// The learned network, with no constraint where nothing is learned.
    fn network(&self) -> Network {
        let mut network = [ALL_PAIRS; 3];
        for s in 0..3usize {
            if let Some(pairs) = self.learned[s] {
                network[s] = pairs;
            }
        }
        network
    }

    fn learn(&mut self, small: &Small, line: &str) {
        let (scope, pairs) = small.candidate_in(line);
        for (s, other) in small.scopes().iter().enumerate() {
            if *other == scope && s < 3 {
                self.learned[s] = Some(pairs);
            }
        }
    }

    /// Takes a line that was printed, with the answers that were given.
    fn take(&mut self, small: &Small, line: &str, path: &[bool]) -> Result<(), AllocError> {
        if line.starts_with('q') && self.ending == Ending::None {
            if let Some(yes) = path.get(self.told.len()) {
                self.told.push((values_in(line), *yes))?;
            }
        } else if let Some(ending) = ending_in(line) {
            self.ending = ending;
        } else if let Some(rest) = line.strip_prefix("open ") {
            self.open.push(small.candidate_in(rest))?;
        } else if !line.is_empty() {
            self.learn(small, line);
        }
        Ok(())
    }
}

/// What was printed, with the answers that were given. What is no text has no end.
fn read_run(alloc: Global, small: &Small, bytes: &[u8], path: &[bool]) -> Result<Run, AllocError> {
    let mut run = Run::new(alloc);
    if let Ok(text) = std::str::from_utf8(bytes) {
        for line in text.split('\n') {
            run.take(small, line, path)?;
        }
    }
    Ok(run)
}

/// A vocabulary and the answers of the path.
fn input_of(alloc: Global, vocabulary: &str, path: &[bool]) -> Result<String, AllocError> {
    let mut input = String::from_str(alloc, vocabulary)?;
    for yes in path {
        input.push_str(if *yes { "yes\n" } else { "no\n" })?;
    }
    Ok(input)
}

/// The words and the vocabulary of a program's runs.
#[derive(Clone, Copy)]
struct Given<'a> {
    words: &'a [String],
    vocabulary: &'a str,
}

/// The program with the answers of the path.
fn run_of(
    rt: &(impl Threads + Sync),
    alloc: Global,
    given: &Given,
    small: &Small,
    path: &[bool],
) -> Result<Run, AllocError> {
    let input = input_of(alloc, given.vocabulary, path)?;
    let bytes = printed(rt, alloc, given.words, input.as_str(), &[])?;
    read_run(alloc, small, &bytes, path)
}

/// The next path: its last no becomes yes, and what stood behind goes. False after the last path.
fn next_path(path: &mut Vec<bool>) -> Result<bool, AllocError> {
    for _ in 0..MOST_ANSWERS {
        match path.pop() {
            Some(true) => {}
            Some(false) => {
                path.push(true)?;
                return Ok(true);
            }
            None => return Ok(false),
        }
    }
    Ok(false)
}

/// What came of the runs of some languages.
#[derive(Clone, Copy)]
struct Counts {
    converged: u32,
    collapsed: u32,
    undecided: u32,
    /// By how many questions those that converged stayed below the bound at least.
    spare: usize,
    /// How many ended in another way than their answers say, or didn't end.
    odd: u32,
}

impl Counts {
    /// Counts a run that ended well or didn't.
    fn count(&mut self, small: &Small, run: &Run, is_well: bool) {
        match run.ending {
            Ending::Converged => {
                self.converged = self.converged.saturating_add(1);
                self.spare = self.spare.min(small.spare(run).unwrap_or(0));
            }
            Ending::Collapsed => self.collapsed = self.collapsed.saturating_add(1),
            Ending::Undecided => self.undecided = self.undecided.saturating_add(1),
            Ending::Suspended | Ending::None => {}
        }
        self.odd = self.odd.saturating_add(u32::from(!is_well));
    }

    /// Which ends there were, by how many questions the bound wasn't reached, and how many runs
    /// were odd.
    fn text(&self, alloc: Global) -> Result<String, AllocError> {
        let mut text = String::new(alloc);
        let ends = [
            (self.converged, "converged "),
            (self.collapsed, "collapsed "),
            (self.undecided, "undecided "),
        ];
        for (count, word) in ends {
            if count > 0 {
                text.push_str(word)?;
            }
        }
        write!(text, "{} spare, {} odd", self.spare, self.odd)?;
        Ok(text)
    }
}

/// Runs the program with the answers of the path, and goes on to the next one. False after the last
/// path.
fn try_path(
    rt: &(impl Threads + Sync),
    alloc: Global,
    given: &Given,
    small: &Small,
    path: &mut Vec<bool>,
    counts: &mut Counts,
) -> Result<bool, AllocError> {
    let run = run_of(rt, alloc, given, small, path)?;
    match small.has_ended_well(&run) {
        None => {
            path.push(false)?;
            Ok(true)
        }
        Some(is_well) => {
            counts.count(small, &run, is_well);
            next_path(path)
        }
    }
}

/// Each list of answers.
fn try_all(
    rt: &(impl Threads + Sync),
    alloc: Global,
    given: &Given,
    small: &Small,
    counts: &mut Counts,
) -> Result<(), AllocError> {
    let mut path = Vec::new(alloc);
    for _ in 0..MOST_RUNS {
        if !try_path(rt, alloc, given, small, &mut path, counts)? {
            return Ok(());
        }
    }
    counts.odd = counts.odd.saturating_add(1);
    Ok(())
}

/// The same over the vocabulary of these relations.
fn try_vocabulary(
    rt: &(impl Threads + Sync),
    alloc: Global,
    words: &[String],
    family: Family,
    given: &mut [Pairs],
    counts: &mut Counts,
) -> Result<(), AllocError> {
    let mut text = String::new(alloc);
    push_vocabulary(&mut text, &family, given)?;
    if family.firsts < 2 {
        // a value that the first variable doesn't have is accepted
        for pairs in given.iter_mut() {
            pairs[1] = [true; 2];
        }
    }
    let relations = closed(alloc, given)?;
    let small = Small {
        family,
        given,
        relations: &relations,
    };
    let given = Given {
        words,
        vocabulary: text.as_str(),
    };
    try_all(rt, alloc, &given, &small, counts)
}

/// Each vocabulary of the family. Of those over three variables, those of at most two relations.
fn try_each(
    rt: &(impl Threads + Sync),
    alloc: Global,
    words: &[String],
    family: Family,
    counts: &mut Counts,
) -> Result<(), AllocError> {
    for chosen in 1..64u8 {
        if family.n == 2 || chosen.count_ones() <= 2 {
            let mut given = chosen_of(alloc, chosen)?;
            try_vocabulary(rt, alloc, words, family, &mut given, counts)?;
        }
    }
    Ok(())
}

/// What comes of a family.
fn tried(rt: &(impl Threads + Sync), alloc: Global, family: Family) -> Result<String, AllocError> {
    let Family { plan, budget, .. } = family;
    let line = format!(in alloc; ":memory: try --plan={plan} --budget={budget}")?;
    let words = words_of(alloc, line.as_str())?;
    let mut counts = Counts {
        converged: 0,
        collapsed: 0,
        undecided: 0,
        spare: usize::MAX,
        odd: 0,
    };
    try_each(rt, alloc, &words, family, &mut counts)?;
    counts.text(alloc)
}

/// `VARIABLES VALUES PLAN BUDGET`: what comes of each list of answers.
pub(crate) fn answers(
    rt: &(impl Threads + Sync),
    alloc: Global,
    text: &str,
) -> Result<String, AllocError> {
    match family_in(text) {
        Some(family) => tried(rt, alloc, family),
        None => String::from_str(alloc, "no family"),
    }
}
