use crate::numbers::Numbers;
use language::Language;
use std::alloc::{AllocError, Global};
use voc_read::{VocFault, read_vocabulary};

/// A relation of so many places: the tuple at a place is in it where the bit of this number in
/// `accepted` is one. The last variable is the first to change.
#[derive(Clone, Copy)]
pub struct Relation<'a> {
    pub name: &'a str,
    pub arity: u8,
    pub accepted: u128,
}

/// How many tuples there are of so many of d values, counted up to 128.
pub fn places(arity: u8, d: u8) -> u32 {
    let mut count = 1u32;
    for _ in 0..arity {
        count = count.saturating_mul(u32::from(d));
    }
    count.min(128)
}

/// These texts in brackets, with commas between.
fn listed(alloc: Global, parts: &[String]) -> Result<String, AllocError> {
    let mut text = String::from_str(alloc, "[")?;
    for (at, part) in parts.iter().enumerate() {
        if at > 0 {
            text.push(',')?;
        }
        text.push_str(part)?;
    }
    text.push(']')?;
    Ok(text)
}

/// The names of the variables whose bit in the set is one.
fn names(alloc: Global, n: u8, set: u128) -> Result<String, AllocError> {
    let mut names = Vec::new(alloc);
    for v in 0..n {
        if v < 128 && (set >> v) & 1 == 1 {
            names.push(format!(in alloc; "\"v{v}\"")?)?;
        }
    }
    listed(alloc, &names)
}

/// The tuple at a place, of so many of the values 1 to d.
fn tuple(alloc: Global, arity: u8, d: u8, place: u32) -> Result<String, AllocError> {
    let mut values = Vec::new(alloc);
    let mut left = place;
    let base = u32::from(d.max(1));
    for _ in 0..arity {
        values.push(format!(in alloc; "{}", 1 + left % base)?)?;
        left /= base;
    }
    values.reverse();
    listed(alloc, &values)
}

fn relation_text(alloc: Global, d: u8, relation: &Relation) -> Result<String, AllocError> {
    let arity = relation.arity;
    let mut tuples = Vec::new(alloc);
    for place in 0..places(arity, d) {
        if place < 128 && (relation.accepted >> place) & 1 == 1 {
            tuples.push(tuple(alloc, arity, d, place)?)?;
        }
    }
    let tuples = listed(alloc, &tuples)?;
    let name = relation.name;
    format!(in alloc; "{{\"name\":\"{name}\",\"arity\":{arity},\"tuples\":{tuples}}}")
}

/// These sets of variables as lists of names, or all scopes.
fn scopes_text(alloc: Global, n: u8, scopes: Option<&[u128]>) -> Result<String, AllocError> {
    let Some(scopes) = scopes else {
        return String::from_str(alloc, "\"all\"");
    };
    let mut lists = Vec::new(alloc);
    for set in scopes {
        lists.push(names(alloc, n, *set)?)?;
    }
    listed(alloc, &lists)
}

/// The ranges of the first variables, of each its name and the first and the last value.
fn ranges_text(alloc: Global, ranges: &[(u8, u8)]) -> Result<String, AllocError> {
    let mut lists = Vec::new(alloc);
    for (v, (first, last)) in ranges.iter().enumerate() {
        lists.push(format!(in alloc; "[\"v{v}\",{first},{last}]")?)?;
    }
    listed(alloc, &lists)
}

/// The vocabulary of a language's parts.
fn vocabulary(
    alloc: Global,
    n: u8,
    d: u8,
    ranges: &[(u8, u8)],
    relations: &[Relation],
    scopes: Option<&[u128]>,
) -> Result<String, AllocError> {
    let variables = names(alloc, n, u128::MAX)?;
    let ranges = ranges_text(alloc, ranges)?;
    let mut parts = Vec::new(alloc);
    for part in relations {
        parts.push(relation_text(alloc, d, part)?)?;
    }
    let relations = listed(alloc, &parts)?;
    let scopes = scopes_text(alloc, n, scopes)?;
    format!(in alloc;
        r#"{{"variables":{variables},"domain":[1,{d}],"ranges":{ranges},"relations":{relations},"scopes":{scopes}}}"#
    )
}

/// The language of n variables, v0 and so on, with the values 1 to d, these relations, and these
/// scopes, each a set with a bit for each variable, or all.
pub fn language(
    alloc: Global,
    n: u8,
    d: u8,
    relations: &[Relation],
    scopes: Option<&[u128]>,
) -> Result<Language, VocFault> {
    language_within(alloc, n, d, &[], relations, scopes)
}

/// The same where the first variables have these ranges, each from a first to a last of the values
/// 1 to d.
pub fn language_within(
    alloc: Global,
    n: u8,
    d: u8,
    ranges: &[(u8, u8)],
    relations: &[Relation],
    scopes: Option<&[u128]>,
) -> Result<Language, VocFault> {
    let text = vocabulary(alloc, n, d, ranges, relations, scopes)?;
    read_vocabulary(alloc, text.as_bytes())
}

/// Some ranges of the values 1 to d for n variables, or none.
pub fn some_ranges(
    alloc: Global,
    numbers: &mut Numbers,
    n: u8,
    d: u8,
) -> Result<Vec<(u8, u8)>, AllocError> {
    let mut ranges = Vec::new(alloc);
    if numbers.below(2) == 0 {
        return Ok(ranges);
    }
    for _ in 0..n {
        let one = numbers.byte_below(d).saturating_add(1);
        let other = numbers.byte_below(d).saturating_add(1);
        ranges.push((one.min(other), one.max(other)))?;
    }
    Ok(ranges)
}
