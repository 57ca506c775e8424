//! A language as lists.

use std::alloc::{AllocError, Global};

/// The most variables of a language here.
pub(crate) const MOST_VARIABLES: usize = 5;

/// The most relations on a scope here.
pub(crate) const MOST_RELATIONS: usize = 7;

/// The value of each variable, if it has one.
pub(crate) type Values = [Option<u8>; 5];

/// Which of the relations on a scope are still possible, and last, whether none of them is.
pub(crate) type Choices = [bool; 8];

/// The variables of a scope, and for each relation on it the truth at each tuple, the last variable
/// first to change.
#[derive(Drop)]
pub(crate) struct Scope {
    pub(crate) variables: Vec<u8>,
    pub(crate) relations: Vec<Vec<bool>>,
}

/// A language as lists.
#[derive(Drop)]
pub(crate) struct Lists {
    pub(crate) variables: u8,
    pub(crate) values: u8,
    /// Each variable's first and last value.
    pub(crate) ranges: Vec<(u8, u8)>,
    pub(crate) scopes: Vec<Scope>,
}

pub(crate) fn value_of(values: &Values, v: u8) -> Option<u8> {
    if (v as usize) < MOST_VARIABLES {
        values[v as usize]
    } else {
        None
    }
}

/// Whether a variable is in a set, which has a bit for each.
pub(crate) fn is_in(set: u32, v: u8) -> bool {
    v < 32 && (set >> v) & 1 == 1
}

/// The values on a set of variables alone.
pub(crate) fn part_of(values: &Values, set: u32) -> Values {
    let mut part = [None; 5];
    for v in 0..MOST_VARIABLES {
        if is_in(set, v as u8) {
            part[v] = values[v];
        }
    }
    part
}

/// The set of these variables.
fn set_of(scope: &[u8]) -> u32 {
    let mut set = 0u32;
    for v in scope {
        if *v < 32 {
            set |= 1u32 << *v;
        }
    }
    set
}

impl Scope {
    /// Whether a choice accepts the tuple at a place: the relation of this number does, or none of
    /// them is chosen.
    fn allows(&self, choice: usize, place: usize) -> bool {
        if choice >= MOST_RELATIONS {
            return true;
        }
        match self.relations.get(choice) {
            Some(truths) => truths.get(place) == Some(&true),
            None => false,
        }
    }

    /// Where the tuple of these values stands, if each variable has one.
    fn place(&self, base: u8, values: &Values) -> Option<usize> {
        let mut place = 0usize;
        for v in &self.variables {
            let Some(value) = value_of(values, *v) else {
                return None;
            };
            place = place
                .wrapping_mul(base as usize)
                .wrapping_add(value as usize);
        }
        Some(place)
    }

    /// How many tuples there are.
    fn tuples(&self, base: u8) -> usize {
        let mut count = 1usize;
        for _ in &self.variables {
            count = count.wrapping_mul(base as usize);
        }
        count
    }

    /// The tuple at a place.
    fn tuple(&self, base: u8, place: usize) -> Values {
        let mut values = [None; 5];
        let mut left = place;
        for v in self.variables.iter().rev() {
            if (*v as usize) < MOST_VARIABLES {
                values[*v as usize] = Some((left % base.max(1) as usize) as u8);
            }
            left /= base.max(1) as usize;
        }
        values
    }

    fn violates(&self, base: u8, relation: usize, values: &Values) -> bool {
        match self.place(base, values) {
            Some(place) => !self.allows(relation, place),
            None => false,
        }
    }

    /// Whether some of the choices accept the tuple and some don't.
    fn splits(&self, choices: &Choices, place: usize) -> bool {
        self.replied(choices, place, true).contains(&true)
            && self.replied(choices, place, false).contains(&true)
    }

    /// The least place at which some of the choices accept the tuple and some don't.
    fn splitting_place(&self, base: u8, choices: &Choices) -> Option<usize> {
        for place in 0..self.tuples(base) {
            if self.splits(choices, place) {
                return Some(place);
            }
        }
        None
    }

    /// The choices that answer so about the tuple at a place.
    fn replied(&self, choices: &Choices, place: usize, yes: bool) -> Choices {
        let mut left = [false; 8];
        for choice in 0..8usize {
            left[choice] = choices[choice] && self.allows(choice, place) == yes;
        }
        left
    }
}

impl Lists {
    /// The first and the last value of a variable.
    pub(crate) fn range(&self, v: u8) -> (u8, u8) {
        self.ranges.get(v as usize).copied().unwrap_or((0, 0))
    }

    /// Whether there is a value, and the variable has it.
    pub(crate) fn has_value(&self, v: u8, value: Option<u8>) -> bool {
        let (first, last) = self.range(v);
        match value {
            Some(value) => first <= value && value <= last,
            None => false,
        }
    }

    /// How many relations there are on a scope.
    pub(crate) fn relations(&self, s: usize) -> usize {
        match self.scopes.get(s) {
            Some(scope) => scope.relations.len(),
            None => 0,
        }
    }

    pub(crate) fn violates(&self, s: usize, relation: usize, values: &Values) -> bool {
        match self.scopes.get(s) {
            Some(scope) => scope.violates(self.values, relation, values),
            None => false,
        }
    }

    /// The first question that tells the choices apart.
    pub(crate) fn question(&self, s: usize, choices: &Choices) -> Option<Values> {
        let Some(scope) = self.scopes.get(s) else {
            return None;
        };
        match scope.splitting_place(self.values, choices) {
            Some(place) => Some(scope.tuple(self.values, place)),
            None => None,
        }
    }

    /// The choices that are left after the answer to the question that tells them apart.
    pub(crate) fn replied(&self, s: usize, choices: &Choices, yes: bool) -> Choices {
        let Some(scope) = self.scopes.get(s) else {
            return *choices;
        };
        match scope.splitting_place(self.values, choices) {
            Some(place) => scope.replied(choices, place, yes),
            None => *choices,
        }
    }

    /// The scope of exactly these variables.
    pub(crate) fn scope_of(&self, set: u32) -> Option<usize> {
        self.scopes
            .iter()
            .position(|scope| set_of(&scope.variables) == set)
    }

    /// Whether a scope lies within a set.
    pub(crate) fn is_scope_within(&self, s: usize, set: u32) -> bool {
        match self.scopes.get(s) {
            Some(scope) => set_of(&scope.variables) & !set == 0,
            None => false,
        }
    }

    /// A set without each variable of a scope in turn, the first last.
    pub(crate) fn parts_without(
        &self,
        alloc: Global,
        set: u32,
        s: usize,
    ) -> Result<Vec<u32>, AllocError> {
        let mut parts = Vec::new(alloc);
        let Some(scope) = self.scopes.get(s) else {
            return Ok(parts);
        };
        for v in scope.variables.iter().rev() {
            if *v < 32 {
                parts.push(set & !(1u32 << *v))?;
            }
        }
        Ok(parts)
    }

    /// The set of all variables.
    pub(crate) fn everything(&self) -> u32 {
        let mut set = 0u32;
        for v in 0..32u8 {
            if v < self.variables {
                set |= 1u32 << v;
            }
        }
        set
    }
}
