//! The outcome of a search by plain lists of all prefixes, and of all families of sets of values or
//! by taking values away in turn.

use assign::Partial;
use fd_solver::Outcome;
use language::{Candidate, Language};
use propagators::Constraints;
use samples::{
    Numbers, Relation, assigned, is_candidate, is_within, language_within, places, some_ranges,
};
use std::alloc::Global;

/// For each variable a set of values, as the bits of a byte.
type Family = [u8; 5];

/// The relation of two places that has the tuple of values x and y, of d values, where the bit d x
/// + y is one.
fn relation(name: &str, accepted: u64) -> Relation<'_> {
    Relation {
        name,
        arity: 2,
        accepted: u128::from(accepted),
    }
}

/// Some language of two or three variables and one to three values, with two relations and what
/// they have in common.
pub(crate) fn some_language(alloc: Global, numbers: &mut Numbers) -> Option<Language> {
    let n = 2 + numbers.byte_below(2);
    let d = 1 + numbers.byte_below(3);
    let ranges = some_ranges(alloc, numbers, n, d).ok()?;
    let first = numbers.below(512);
    let second = numbers.below(512);
    let relations = [
        relation("first", first),
        relation("second", second),
        relation("both", first & second),
    ];
    language_within(alloc, n, d, &ranges, &relations, None).ok()
}

/// The relation of so many places that has the tuple of values x, y and so on, of d values, where
/// the bit of that number is one.
fn wide_relation<'a>(numbers: &mut Numbers, name: &'a str, arity: u8) -> Relation<'a> {
    let high = u128::from(numbers.below(1 << 31)) << 31 | u128::from(numbers.below(1 << 31));
    let low = u128::from(numbers.below(1 << 31)) << 31 | u128::from(numbers.below(1 << 31));
    // More tuples are accepted than rejected, so that searches go deep.
    let more = u128::from(numbers.below(1 << 31)) << 31 | u128::from(numbers.below(1 << 31));
    Relation {
        name,
        arity,
        accepted: high << 62 | low | more << 20,
    }
}

/// Some language of four variables and two or three values, or of five and two, with three
/// relations of one to four places.
pub(crate) fn some_wide_language(alloc: Global, numbers: &mut Numbers) -> Option<Language> {
    let n = 4 + numbers.byte_below(2);
    let d = if n == 5 { 2 } else { 2 + numbers.byte_below(2) };
    let ranges = some_ranges(alloc, numbers, n, d).ok()?;
    let arity = 1 + numbers.byte_below(4);
    let relations = [
        wide_relation(numbers, "first", arity),
        wide_relation(numbers, "second", arity),
        wide_relation(numbers, "third", arity),
    ];
    language_within(alloc, n, d, &ranges, &relations, None).ok()
}

/// Whether a question violates one that is a candidate.
fn is_violated(lang: &Language, c: Candidate, e: &Partial) -> bool {
    is_candidate(lang, c) && lang.candidate_violated(c, e)
}

/// Whether a question gives each variable of a candidate a value and doesn't violate it.
fn is_satisfied(lang: &Language, c: Candidate, e: &Partial) -> bool {
    is_candidate(lang, c)
        && !lang.candidate_violated(c, e)
        && lang.scope(c.scope).iter().all(|v| e.get(*v).is_some())
}

/// Whether a question violates a candidate of the list or satisfies the one against it.
fn breaks(cons: &Constraints, e: &Partial) -> bool {
    for c in cons.list {
        if is_violated(cons.lang, *c, e) {
            return true;
        }
    }
    match cons.against {
        Some(c) => is_satisfied(cons.lang, c, e),
        None => false,
    }
}

/// A value, and then those of a list.
fn with_front(alloc: Global, x: u8, rest: &[u8]) -> Option<Vec<u8>> {
    let mut prefix = vec![in alloc; x].ok()?;
    prefix.extend_from_slice(rest).ok()?;
    Some(prefix)
}

/// The empty list, and then each value below d before each of these lists.
fn longer(alloc: Global, list: &[Vec<u8>], d: u8) -> Option<Vec<Vec<u8>>> {
    let mut longer = vec![in alloc; Vec::new(alloc)].ok()?;
    for x in 0..d {
        for rest in list {
            longer.push(with_front(alloc, x, rest)?).ok()?;
        }
    }
    Some(longer)
}

/// All lists of at most n values below d, each before its extensions, values rising.
pub(crate) fn prefixes(alloc: Global, n: u8, d: u8) -> Option<Vec<Vec<u8>>> {
    let mut list = vec![in alloc; Vec::new(alloc)].ok()?;
    for _ in 0..n {
        list = longer(alloc, &list, d)?;
    }
    Some(list)
}

/// How many nonempty sets of values there are, of one, two or three values.
fn sets(d: u8) -> u32 {
    match d {
        1 => 1,
        2 => 3,
        _ => 7,
    }
}

/// The family of this number: for each variable a nonempty set of values.
fn family(number: u32, d: u8) -> Family {
    let mut sets_left = number;
    let mut family = [0; 5];
    for set in family.iter_mut() {
        *set = 1 + (sets_left % sets(d)) as u8;
        sets_left /= sets(d);
    }
    family
}

/// How many families there are for so many variables.
fn families(n: u8, d: u8) -> u32 {
    let mut count = 1u32;
    for _ in 0..n {
        count = count.wrapping_mul(sets(d));
    }
    count
}

/// Whether a value is a member of a set.
fn has(set: u8, x: u8) -> bool {
    x < 8 && (set >> x) & 1 == 1
}

/// The set of a variable.
fn set_of(family: &Family, v: u8) -> u8 {
    family.get(usize::from(v)).copied().unwrap_or(0)
}

/// The tuple of this number, its first value first to change.
fn tuple(number: u32, d: u8) -> [u8; 4] {
    let base = u32::from(d.max(1));
    let mut left = number;
    let mut values = [0; 4];
    for value in values.iter_mut() {
        *value = (left % base) as u8;
        left /= base;
    }
    values
}

/// Whether each value of a tuple is in the set of its variable.
fn are_within(family: &Family, scope: &[u8], tuple: &[u8]) -> bool {
    scope
        .iter()
        .zip(tuple)
        .all(|(v, x)| has(set_of(family, *v), *x))
}

/// For each place of a candidate's scope the values of its variable's set that go with some of the
/// other sets: the candidate holds for them together, or doesn't.
fn supports(lang: &Language, c: Candidate, holding: bool, family: &Family) -> [u8; 4] {
    let mut found = [0; 4];
    if !is_candidate(lang, c) {
        return found;
    }
    let scope = lang.scope(c.scope);
    for number in 0..places(scope.len() as u8, lang.d()) {
        let tuple = tuple(number, lang.d());
        let e = assigned(lang, scope, &tuple);
        if are_within(family, scope, &tuple) && lang.candidate_violated(c, &e) != holding {
            for (set, x) in found.iter_mut().zip(tuple) {
                *set |= if x < 8 { 1 << x } else { 0 };
            }
        }
    }
    found
}

/// Whether the sets of a candidate's variables support each other.
fn is_arc_consistent(lang: &Language, c: Candidate, holding: bool, family: &Family) -> bool {
    if !is_candidate(lang, c) {
        return false;
    }
    let found = supports(lang, c, holding, family);
    lang.scope(c.scope)
        .iter()
        .zip(found)
        .all(|(v, set)| set_of(family, *v) & !set == 0)
}

/// Whether a family is arc consistent.
fn is_consistent(cons: &Constraints, family: &Family) -> bool {
    for c in cons.list {
        if !is_arc_consistent(cons.lang, *c, true, family) {
            return false;
        }
    }
    match cons.against {
        Some(c) => is_arc_consistent(cons.lang, c, false, family),
        None => true,
    }
}

/// Takes the values of a candidate's variables away that nothing supports.
fn narrow(lang: &Language, c: Candidate, holding: bool, family: &mut Family) {
    if !is_candidate(lang, c) {
        return;
    }
    let found = supports(lang, c, holding, family);
    for (v, set) in lang.scope(c.scope).iter().zip(found) {
        if let Some(left) = family.get_mut(usize::from(*v)) {
            *left &= set;
        }
    }
}

/// The values that a question and the ranges leave to each variable.
fn left_by(lang: &Language, e: &Partial) -> Family {
    let mut family = [0; 5];
    for (v, set) in family.iter_mut().enumerate() {
        let v = v as u8;
        for x in 0..8 {
            if v < lang.n() && is_within(lang, v, x) && e.get(v).is_none_or(|y| y == x) {
                *set |= 1 << x;
            }
        }
    }
    family
}

/// Whether something is left to each variable once all that nothing supports is taken away, again
/// and again.
fn leaves_sets(cons: &Constraints, e: &Partial) -> bool {
    let mut family = left_by(cons.lang, e);
    // Each round but the last takes one of at most forty values away.
    for _ in 0..41 {
        let before = family;
        for c in cons.list {
            narrow(cons.lang, *c, true, &mut family);
        }
        if let Some(c) = cons.against {
            narrow(cons.lang, c, false, &mut family);
        }
        if family == before {
            break;
        }
    }
    (0..cons.lang.n()).all(|v| set_of(&family, v) != 0)
}

/// Whether a family has values of the variables alone, and where a question gives a value that one
/// alone.
fn is_left(lang: &Language, family: &Family, e: &Partial) -> bool {
    for v in 0..lang.n() {
        let set = set_of(family, v);
        for x in 0..8 {
            if has(set, x) && !is_within(lang, v, x) {
                return false;
            }
        }
        if let Some(x) = e.get(v)
            && (!has(set, x) || set.count_ones() != 1)
        {
            return false;
        }
    }
    true
}

/// Whether some arc-consistent family lies within what a question leaves, by the plain list of all
/// families.
fn leaves_family(cons: &Constraints, e: &Partial) -> bool {
    let d = cons.lang.d();
    for number in 0..families(cons.lang.n(), d) {
        let family = family(number, d);
        if is_left(cons.lang, &family, e) && is_consistent(cons, &family) {
            return true;
        }
    }
    false
}

/// Whether a question is alive. None where that can't be: the list of families says otherwise, an
/// arc-consistent family leaves nothing that breaks the constraints, and a complete question that
/// leaves none breaks them.
fn is_alive(cons: &Constraints, e: &Partial) -> Option<bool> {
    let alive = leaves_sets(cons, e);
    // Of more than three variables there are too many families to list.
    if cons.lang.n() <= 3 && alive != leaves_family(cons, e) {
        return None;
    }
    let broken = breaks(cons, e);
    if alive == broken && (alive || e.is_complete()) {
        return None;
    }
    Some(alive)
}

/// The outcome by the plain list of all prefixes. None where the list is at odds with itself.
pub(crate) fn outcome_by_list(
    cons: &Constraints,
    order: &[u8],
    all: &[Vec<u8>],
    budget: u32,
) -> Option<Outcome> {
    let mut left = budget;
    for prefix in all {
        let e = assigned(cons.lang, order, prefix);
        // a value outside its variable's range is left out
        if usize::from(e.vars().len()) == prefix.len() && is_alive(cons, &e)? {
            if left == 0 {
                return Some(Outcome::Spent);
            }
            left -= 1;
            if e.is_complete() {
                return Some(Outcome::Found(e));
            }
        }
    }
    Some(Outcome::Absent)
}
