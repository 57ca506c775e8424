//! Small vocabularies, and what can be said of them by enumeration.
//!
//! Nothing here leans on the definitions of the proofs. A network is a list of relations, one for
//! each pair of variables.

use std::alloc::{AllocError, Global};

/// Which pairs of the values 0 and 1 a relation accepts, by the first value and the second.
pub(crate) type Pairs = [[bool; 2]; 2];

/// A value for each variable that has one.
pub(crate) type Values = [Option<u8>; 3];

/// A relation or no constraint for each pair of variables.
pub(crate) type Network = [Pairs; 3];

/// No constraint.
pub(crate) const ALL_PAIRS: Pairs = [[true; 2]; 2];

const PAIRS_OF_TWO: [(u8, u8); 1] = [(0, 1)];

const PAIRS_OF_THREE: [(u8, u8); 3] = [(0, 1), (0, 2), (1, 2)];

pub(crate) const NO_VALUES: Values = [None; 3];

/// Relation `number` of the family: equal, unequal, at most, below, never, always.
fn pairs_of(number: u8) -> Pairs {
    match number {
        0 => [[true, false], [false, true]],
        1 => [[false, true], [true, false]],
        2 => [[true, true], [false, true]],
        3 => [[false, true], [false, false]],
        4 => [[false; 2]; 2],
        _ => ALL_PAIRS,
    }
}

/// The relations of the family whose bit is set.
pub(crate) fn chosen_of(alloc: Global, chosen: u8) -> Result<Vec<Pairs>, AllocError> {
    let mut given = Vec::new(alloc);
    for number in 0..6u8 {
        if (chosen >> number) & 1 == 1 {
            given.push(pairs_of(number))?;
        }
    }
    Ok(given)
}

pub(crate) fn holds(pairs: &Pairs, x: u8, y: u8) -> bool {
    x < 2 && y < 2 && pairs[x as usize][y as usize]
}

pub(crate) fn meet(p: &Pairs, q: &Pairs) -> Pairs {
    let mut both = [[false; 2]; 2];
    for x in 0..2u8 {
        for y in 0..2u8 {
            both[x as usize][y as usize] = holds(p, x, y) && holds(q, x, y);
        }
    }
    both
}

/// The pairs of variables of n variables.
pub(crate) fn scopes_of(n: u8) -> &'static [(u8, u8)] {
    if n == 2 {
        &PAIRS_OF_TWO
    } else {
        &PAIRS_OF_THREE
    }
}

/// The value of a variable.
fn value(values: &Values, v: u8) -> Option<u8> {
    match values.get(v as usize) {
        Some(value) => *value,
        None => None,
    }
}

/// The same with a value for one more variable.
pub(crate) fn with(values: &Values, v: u8, x: u8) -> Values {
    let mut more = *values;
    if v < 3 {
        more[v as usize] = Some(x);
    }
    more
}

/// Whether the values on a scope are there, and the relation rejects them.
pub(crate) fn violates(scope: (u8, u8), pairs: &Pairs, values: &Values) -> bool {
    match (value(values, scope.0), value(values, scope.1)) {
        (Some(x), Some(y)) => !holds(pairs, x, y),
        _ => false,
    }
}

/// Whether no relation of the network rejects the values that are there.
pub(crate) fn accepts(scopes: &[(u8, u8)], network: &Network, values: &Values) -> bool {
    !scopes
        .iter()
        .zip(network.iter())
        .any(|(scope, pairs)| violates(*scope, pairs, values))
}

/// The intersection of the relations whose bit is set. None where there aren't so many.
fn meet_of(given: &[Pairs], chosen: u8) -> Option<Pairs> {
    let mut pairs = ALL_PAIRS;
    for number in 0..6u8 {
        if (chosen >> number) & 1 == 1 {
            pairs = meet(&pairs, given.get(number as usize)?);
        }
    }
    Some(pairs)
}

/// All intersections of one or more of the relations, each once.
pub(crate) fn closed(alloc: Global, given: &[Pairs]) -> Result<Vec<Pairs>, AllocError> {
    let mut all: Vec<Pairs> = Vec::new(alloc);
    for chosen in 1..64u8 {
        if let Some(pairs) = meet_of(given, chosen)
            && !all.contains(&pairs)
        {
            all.push(pairs)?;
        }
    }
    Ok(all)
}

/// How many networks there are of one of so many relations or none on each of so many scopes.
pub(crate) fn networks(scopes: usize, relations: usize) -> usize {
    let mut count = 1usize;
    for _ in 0..scopes {
        count = count.saturating_mul(relations.saturating_add(1));
    }
    count
}

/// The network of this number.
pub(crate) fn network(relations: &[Pairs], number: usize) -> Network {
    let mut network = [ALL_PAIRS; 3];
    let mut left = number;
    for pairs in network.iter_mut() {
        let choice = left % relations.len().saturating_add(1);
        left /= relations.len().saturating_add(1);
        if let Some(chosen) = relations.get(choice) {
            *pairs = *chosen;
        }
    }
    network
}

/// The assignment of this number, below 8, that gives each of n variables a value, the first one of
/// so many.
pub(crate) fn assignment(n: u8, firsts: u8, number: u8) -> Option<Values> {
    if (n > 2 || number < 4) && number & 1 < firsts {
        Some([
            Some(number & 1),
            Some((number >> 1) & 1),
            if n > 2 { Some((number >> 2) & 1) } else { None },
        ])
    } else {
        None
    }
}

/// How many lists of values for the first variables of an order violate nothing of the network and
/// don't satisfy the relation on the scope. Where there are two variables the first has so many
/// values.
pub(crate) fn plain_size(
    n: u8,
    firsts: u8,
    network: &Network,
    scope: (u8, u8),
    pairs: &Pairs,
) -> u32 {
    let scopes = scopes_of(n);
    let third = if n > 2 {
        3u8.saturating_sub(scope.0.saturating_add(scope.1))
    } else {
        3
    };
    let mut size = 1u32;
    for x in 0..firsts {
        let one = with(&NO_VALUES, scope.0, x);
        size = size.saturating_add(1);
        for y in 0..2u8 {
            let two = with(&one, scope.1, y);
            if !accepts(scopes, network, &two) || holds(pairs, x, y) {
                continue;
            }
            size = size.saturating_add(1);
            for z in 0..2u8 {
                let three = with(&two, third, z);
                if n > 2 && accepts(scopes, network, &three) {
                    size = size.saturating_add(1);
                }
            }
        }
    }
    size
}
