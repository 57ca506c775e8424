//! Random small languages, and what they hold as lists.

use crate::plain::{Lists, MOST_RELATIONS, Scope};
use language::Language;
use samples::{Numbers, Relation, language_within, places, some_ranges};
use std::alloc::Global;

/// What a random language is made of.
#[derive(Clone, Copy)]
struct Shape {
    variables: u8,
    values: u8,
    /// The arities of one, two or three relations.
    arities: [u8; 3],
    relations: u8,
    /// Whether all scopes are there, where all relations have one arity.
    has_all_scopes: bool,
}

fn random_shape(random: &mut Numbers) -> Shape {
    let variables = 2 + random.byte_below(4);
    let values = 1 + random.byte_below(3);
    let relations = 1 + random.byte_below(3);
    let first = 1 + random.byte_below(3);
    if random.byte_below(2) == 0 {
        return Shape {
            variables,
            values,
            arities: [first; 3],
            relations,
            has_all_scopes: true,
        };
    }
    Shape {
        variables,
        values,
        arities: [first, 1 + random.byte_below(4), 1 + random.byte_below(4)],
        relations,
        has_all_scopes: false,
    }
}

/// A random relation: some accept no tuple, others each.
fn relation(random: &mut Numbers, name: &'static str, arity: u8, values: u8) -> Relation<'static> {
    let most = random.byte_below(5);
    let mut accepted = 0u128;
    for place in 0..places(arity, values) {
        if place < 128 && random.byte_below(4) < most {
            accepted |= 1u128 << place;
        }
    }
    Relation {
        name,
        arity,
        accepted,
    }
}

/// One to three random relations of the shape.
fn relations(alloc: Global, random: &mut Numbers, shape: &Shape) -> Option<Vec<Relation<'static>>> {
    let [first, second, third] = shape.arities;
    let rows = [("first", first), ("second", second), ("third", third)];
    let mut relations = Vec::new(alloc);
    for (name, arity) in rows {
        if relations.len() < usize::from(shape.relations) {
            relations
                .push(relation(random, name, arity, shape.values))
                .ok()?;
        }
    }
    Some(relations)
}

/// Whether some relation has so many places.
fn has_arity(shape: &Shape, size: u32) -> bool {
    (0..3u8).any(|i| i < shape.relations && u32::from(shape.arities[i as usize]) == size)
}

/// Random sets of variables for which there are relations, none of them within another.
fn sets(alloc: Global, random: &mut Numbers, shape: &Shape) -> Option<Vec<u128>> {
    let mut sets = Vec::new(alloc);
    for _ in 0..20u8 {
        let set = u128::from(random.byte_below(32));
        let is_apart = sets
            .iter()
            .all(|other| *other & set != *other && *other & set != set);
        if set >> (shape.variables.min(5)) == 0 && has_arity(shape, set.count_ones()) && is_apart {
            sets.push(set).ok()?;
        }
    }
    Some(sets)
}

/// A random language: two to five variables with one to three values, or some of these alone, one
/// to three relations of one to four places, and their intersections.
pub(crate) fn language(alloc: Global, random: &mut Numbers) -> Option<Language> {
    let shape = random_shape(random);
    let sets = sets(alloc, random, &shape)?;
    let relations = relations(alloc, random, &shape)?;
    let scopes = if shape.has_all_scopes {
        None
    } else {
        Some(sets.as_slice())
    };
    let (n, d) = (shape.variables, shape.values);
    let ranges = some_ranges(alloc, random, n, d).ok()?;
    language_within(alloc, n, d, &ranges, &relations, scopes).ok()
}

/// The truth of relation r on a scope at each tuple.
fn truths(alloc: Global, lang: &Language, s: u16, r: u8) -> Option<Vec<bool>> {
    let mut truths = Vec::new(alloc);
    for place in 0..lang.table_on(s, r).size() {
        truths.push(lang.holds(s, r, place)).ok()?;
    }
    Some(truths)
}

/// The relations on a scope.
fn relations_on(alloc: Global, lang: &Language, s: u16) -> Option<Vec<Vec<bool>>> {
    let mut relations = Vec::new(alloc);
    for r in 0..lang.relations_on(s) {
        relations.push(truths(alloc, lang, s, r)?).ok()?;
    }
    if relations.len() > MOST_RELATIONS {
        return None;
    }
    Some(relations)
}

fn scope(alloc: Global, lang: &Language, s: u16) -> Option<Scope> {
    let mut variables = Vec::new(alloc);
    variables.extend_from_slice(lang.scope(s)).ok()?;
    Some(Scope {
        variables,
        relations: relations_on(alloc, lang, s)?,
    })
}

/// A language as lists.
pub(crate) fn lists_of(alloc: Global, lang: &Language) -> Option<Lists> {
    let mut scopes = Vec::new(alloc);
    for s in 0..lang.scopes() as u16 {
        scopes.push(scope(alloc, lang, s)?).ok()?;
    }
    let mut ranges = Vec::new(alloc);
    for v in 0..lang.n() {
        ranges.push(lang.range(v)).ok()?;
    }
    Some(Lists {
        variables: lang.n(),
        values: lang.d(),
        ranges,
        scopes,
    })
}
