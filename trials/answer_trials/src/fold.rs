//! A session as a plain fold over lists.

use crate::plain::{Choices, Lists, MOST_RELATIONS, Values, is_in, part_of, value_of};
use assign::Plan;
use std::alloc::{AllocError, Global};

// ---- halving

#[derive(Clone, Copy)]
enum Halved {
    Wants(u32),
    /// The set, and how many replies are taken.
    Got(u32, usize),
}

/// The least half of a set, rounded up.
fn first_half(set: u32) -> u32 {
    let wanted = set.count_ones() - set.count_ones() / 2;
    let mut half = 0u32;
    for v in 0..32u8 {
        if is_in(set, v) && half.count_ones() < wanted {
            half |= 1u32 << v;
        }
    }
    half
}

/// The halving of a set beside a base, with the replies from `at` on. So deep it goes at most.
/// Where it asks, the base comes first.
fn halve(depth: u8, base: u32, set: u32, asks: bool, replies: &[bool], at: usize) -> Halved {
    let reply = if asks { replies.get(at) } else { Some(&true) };
    let at = if asks { at.wrapping_add(1) } else { at };
    match reply {
        None => return Halved::Wants(base),
        Some(false) => return Halved::Got(0, at),
        Some(true) => {}
    }
    if set.count_ones() < 2 || depth == 0 {
        return Halved::Got(set, at);
    }
    let first = first_half(set);
    let (found, at) = match halve(depth - 1, base | first, set & !first, true, replies, at) {
        Halved::Wants(wanted) => return Halved::Wants(wanted),
        Halved::Got(found, at) => (found, at),
    };
    match halve(depth - 1, base | found, first, found != 0, replies, at) {
        Halved::Wants(wanted) => Halved::Wants(wanted),
        Halved::Got(more, at) => Halved::Got(found | more, at),
    }
}

// ---- the fold

#[derive(Clone, Copy)]
pub(crate) enum State {
    Idle,
    /// An example, of which the fold's set is asked about.
    Walking(Values),
    /// An example, of which the fold's set is halved.
    Halving(Values),
    Choosing(usize, Choices),
    Over,
}

#[derive(Drop)]
pub(crate) struct Fold {
    pub(crate) plan: Plan,
    pub(crate) told: Vec<(Values, bool)>,
    /// The learned candidates, each by its scope and its relation.
    pub(crate) network: Vec<(usize, usize)>,
    pub(crate) state: State,
    /// In a halving, the replies to its parts, also those that go without saying.
    replies: Vec<bool>,
    /// The variables that are asked about or halved.
    set: u32,
    /// In plan Multi the example whose parts are asked about, and the sets that wait, the next
    /// last.
    walked: Option<Values>,
    waiting: Vec<u32>,
    /// How many more sets may be taken.
    left: u16,
}

impl Fold {
    pub(crate) fn new(alloc: Global, plan: Plan) -> Fold {
        Fold {
            plan,
            told: Vec::new(alloc),
            network: Vec::new(alloc),
            state: State::Idle,
            replies: Vec::new(alloc),
            set: 0,
            walked: None,
            waiting: Vec::new(alloc),
            left: 0,
        }
    }

    /// Whether whole examples are asked about.
    pub(crate) fn has_examples(&self) -> bool {
        self.plan != Plan::Scopes
    }

    fn has_scope(&self, s: usize) -> bool {
        self.network.iter().any(|c| c.0 == s)
    }

    /// Whether some yes violates the candidate.
    fn is_struck(&self, lists: &Lists, s: usize, relation: usize) -> bool {
        self.told
            .iter()
            .any(|told| told.1 && lists.violates(s, relation, &told.0))
    }

    /// Whether no yes violates the candidate, and nothing is learned on its scope.
    pub(crate) fn is_kept(&self, lists: &Lists, s: usize, relation: usize) -> bool {
        relation < lists.relations(s) && !self.has_scope(s) && !self.is_struck(lists, s, relation)
    }

    /// Whether the values violate a kept candidate on a scope.
    fn violates_kept_on(&self, lists: &Lists, s: usize, values: &Values) -> bool {
        (0..MOST_RELATIONS).any(|relation| lists.violates(s, relation, values)
            && self.is_kept(lists, s, relation))
    }

    /// Whether the values violate a kept candidate.
    fn violates_kept(&self, lists: &Lists, values: &Values) -> bool {
        (0..lists.scopes.len()).any(|s| self.violates_kept_on(lists, s, values))
    }

    /// Whether the values violate nothing that is learned.
    fn accepts(&self, lists: &Lists, values: &Values) -> bool {
        self.network
            .iter()
            .all(|c| !lists.violates(c.0, c.1, values))
    }

    /// The relations kept on a scope, and none of them.
    fn free_choices(&self, lists: &Lists, s: usize) -> Choices {
        let mut choices = [true; 8];
        for relation in 0..MOST_RELATIONS {
            choices[relation] = self.is_kept(lists, s, relation);
        }
        choices
    }

    /// The kept relations on a scope that the example violates.
    fn violated_choices(&self, lists: &Lists, s: usize, example: &Values) -> Choices {
        let mut choices = [false; 8];
        for relation in 0..MOST_RELATIONS {
            choices[relation] = self.is_kept(lists, s, relation)
                && lists.violates(s, relation, example);
        }
        choices
    }

    /// The first scope where nothing is learned and choices differ.
    fn next_scope(&self, lists: &Lists) -> Option<usize> {
        (0..lists.scopes.len()).find(|s| {
            !self.has_scope(*s) && lists.question(*s, &self.free_choices(lists, *s)).is_some()
        })
    }

    /// In plan Scopes the first question of the next scope.
    pub(crate) fn scope_question(&self, lists: &Lists) -> Option<Values> {
        if self.has_examples() {
            return None;
        }
        match self.next_scope(lists) {
            Some(s) => lists.question(s, &self.free_choices(lists, s)),
            None => None,
        }
    }

    /// The open question, where one is.
    pub(crate) fn open(&self, lists: &Lists) -> Option<Values> {
        match self.state {
            State::Idle | State::Over => None,
            State::Walking(example) => Some(part_of(&example, self.set)),
            State::Halving(example) => {
                match halve(8, 0, self.set, false, &self.replies, 0) {
                    Halved::Wants(set) => Some(part_of(&example, set)),
                    Halved::Got(_, _) => None,
                }
            }
            State::Choosing(s, choices) => lists.question(s, &choices),
        }
    }

    /// Whether a question may be put, where none is open.
    pub(crate) fn is_lawful(&self, lists: &Lists, values: &Values) -> bool {
        if !self.has_examples() {
            return self.scope_question(lists) == Some(*values);
        }
        (0..lists.variables).all(|v| lists.has_value(v, value_of(values, v)))
            && self.accepts(lists, values)
            && self.violates_kept(lists, values)
    }

    /// Takes the answer to a question that may be put, or to the open one.
    pub(crate) fn answer(
        &mut self,
        alloc: Global,
        lists: &Lists,
        question: Values,
        yes: bool,
    ) -> Result<(), AllocError> {
        match self.state {
            State::Idle if self.has_examples() => {
                self.told.push((question, yes))?;
                if self.plan == Plan::Multi {
                    self.walked = Some(question);
                    self.waiting = Vec::new(alloc);
                    self.left = 4095;
                }
                self.part_answered(alloc, lists, question, lists.everything(), yes)
            }
            State::Walking(example) => {
                self.told.push((question, yes))?;
                self.part_answered(alloc, lists, example, self.set, yes)
            }
            State::Idle => {
                let next = self.next_scope(lists);
                let choices = self.free_choices(lists, next.unwrap_or(0));
                self.told.push((question, yes))?;
                self.tuple_answered(alloc, lists, next.unwrap_or(0), choices, yes)
            }
            State::Halving(example) => {
                self.told.push((question, yes))?;
                self.replies.push(yes)?;
                self.halved(alloc, lists, example)
            }
            State::Choosing(s, choices) => {
                self.told.push((question, yes))?;
                self.tuple_answered(alloc, lists, s, choices, yes)
            }
            State::Over => Ok(()),
        }
    }

    /// After a no to an example on a set, the set is halved. In plan Multi it waits again
    /// meanwhile.
    fn part_answered(
        &mut self,
        alloc: Global,
        lists: &Lists,
        example: Values,
        set: u32,
        yes: bool,
    ) -> Result<(), AllocError> {
        if yes {
            return self.go_on(alloc, lists);
        }
        if self.walked.is_some() {
            self.waiting.push(set)?;
        }
        self.set = set;
        self.replies = Vec::new(alloc);
        self.halved(alloc, lists, example)
    }

    /// The scope of the first learned candidate that the example violates within a set.
    fn learned_within(&self, lists: &Lists, example: &Values, set: u32) -> Option<usize> {
        for c in &self.network {
            if lists.violates(c.0, c.1, example) && lists.is_scope_within(c.0, set) {
                return Some(c.0);
            }
        }
        None
    }

    /// Where an example is walked, its next part is asked about; else nothing is open.
    fn go_on(&mut self, alloc: Global, lists: &Lists) -> Result<(), AllocError> {
        self.state = State::Idle;
        let Some(example) = self.walked else {
            return Ok(());
        };
        for _ in 0..4096u16 {
            if self.left == 0 {
                break;
            }
            let Some(set) = self.waiting.pop() else {
                break;
            };
            self.left = self.left.saturating_sub(1);
            if let Some(s) = self.learned_within(lists, &example, set) {
                for part in lists.parts_without(alloc, set, s)? {
                    self.waiting.push(part)?;
                }
            } else if self.violates_kept(lists, &part_of(&example, set)) {
                self.set = set;
                self.state = State::Walking(example);
                return Ok(());
            }
        }
        self.walked = None;
        Ok(())
    }

    /// A halving goes on, yes for each part that violates no kept candidate.
    fn halved(&mut self, alloc: Global, lists: &Lists, example: Values) -> Result<(), AllocError> {
        self.state = State::Halving(example);
        for _ in 0..100u8 {
            match halve(8, 0, self.set, false, &self.replies, 0) {
                Halved::Wants(set) => {
                    if self.violates_kept(lists, &part_of(&example, set)) {
                        return Ok(());
                    }
                    self.replies.push(true)?;
                }
                Halved::Got(set, _) => return self.found(alloc, lists, &example, set),
            }
        }
        Ok(())
    }

    /// A set is found: the kept candidates there that the example violates are told apart.
    fn found(
        &mut self,
        alloc: Global,
        lists: &Lists,
        example: &Values,
        set: u32,
    ) -> Result<(), AllocError> {
        self.state = State::Over;
        let Some(s) = lists.scope_of(set) else {
            return Ok(());
        };
        let choices = self.violated_choices(lists, s, example);
        if !choices.contains(&true) {
            return Ok(());
        }
        self.choose(alloc, lists, s, choices)
    }

    /// The choices that agree with a reply about their tuple go on.
    fn tuple_answered(
        &mut self,
        alloc: Global,
        lists: &Lists,
        s: usize,
        choices: Choices,
        yes: bool,
    ) -> Result<(), AllocError> {
        let left = lists.replied(s, &choices, yes);
        self.choose(alloc, lists, s, left)
    }

    /// Choices go on to be told apart, or what remains is learned.
    fn choose(
        &mut self,
        alloc: Global,
        lists: &Lists,
        s: usize,
        choices: Choices,
    ) -> Result<(), AllocError> {
        if lists.question(s, &choices).is_some() {
            self.state = State::Choosing(s, choices);
            return Ok(());
        }
        if !choices[MOST_RELATIONS]
            && let Some(relation) = choices.iter().position(|choice| *choice)
        {
            self.network.push((s, relation))?;
        }
        self.go_on(alloc, lists)
    }
}
