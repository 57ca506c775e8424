//! Relations of two places, and their intersections.

use crate::formulas::digits;
use crate::tables::relation;
use rel_table::{Closed, Table, close};
use rows::{end, number};
use std::alloc::Global;

/// Of two values and nine: those of four tuples whose bits are in the mask. Two stand in the first
/// 64 places, and two beyond.
fn chosen(alloc: Global, mask: u8) -> Option<Table> {
    let mut tuples = Vec::new(alloc);
    for (bit, tuple) in [[0, 0], [7, 0], [7, 1], [8, 8]].iter().enumerate() {
        if (mask >> bit) & 1 == 1 {
            tuples.push(tuple.to_vec(alloc).ok()?).ok()?;
        }
    }
    relation(alloc, 2, 0, 9, &tuples).ok()
}

/// Whether two relations and their intersection are as their masks say.
fn are_as_masks(alloc: Global, all: &[Table], i: u8, j: u8) -> Option<bool> {
    let a = all.get(i as usize)?;
    let b = all.get(j as usize)?;
    if a.arity() != b.arity() || a.value_count() != b.value_count() {
        return None;
    }
    let both = a.meet(alloc, b).ok()?;
    Some(
        a.equals(b) == (i == j)
            && a.within(b) == (i & j == i)
            && both.equals(all.get((i & j) as usize)?),
    )
}

/// How many pairs of the relations of so many masks agree with the masks.
pub(crate) fn masks(alloc: Global, arguments: &str) -> Option<String> {
    let count = arguments.parse::<u8>().ok()?;
    let mut all = Vec::new(alloc);
    for mask in 0..count {
        all.push(chosen(alloc, mask)?).ok()?;
    }
    let mut agree = 0u32;
    for i in 0..count {
        for j in 0..count {
            if are_as_masks(alloc, &all, i, j)? {
                agree = agree.saturating_add(1);
            }
        }
    }
    format!(in alloc; "{agree} pairs agree").ok()
}

/// Of two values, each one of two: the tuples whose bits are in the mask. The first tuple's bit is
/// 8, so the falling order is that of the masks.
fn pair(alloc: Global, mask: u8) -> Option<Table> {
    let mut tuples = Vec::new(alloc);
    for (bit, tuple) in [(8, [0, 0]), (4, [0, 1]), (2, [1, 0]), (1, [1, 1])] {
        if mask & bit != 0 {
            tuples.push(tuple.to_vec(alloc).ok()?).ok()?;
        }
    }
    relation(alloc, 2, 0, 2, &tuples).ok()
}

/// The mask of such a relation.
fn mask_of(table: &Table) -> u32 {
    let mut mask = 0u32;
    for place in 0..table.size() {
        mask = mask
            .wrapping_mul(2)
            .wrapping_add(u32::from(table.at(place)));
    }
    mask
}

/// The masks of the relations of two places.
fn masks_of(alloc: Global, closed: &Closed) -> Option<String> {
    let mut text = String::new(alloc);
    for arity in [1, 3, 4] {
        if !closed.list(arity).is_empty() {
            return None;
        }
    }
    for table in closed.list(2) {
        write!(text, " {}", mask_of(table)).ok()?;
    }
    String::from_str(alloc, text.as_str().trim()).ok()
}

/// The relations of these masks.
fn pairs(alloc: Global, arguments: &str) -> Option<Vec<Table>> {
    let mut file = Vec::new(alloc);
    for word in arguments.split_whitespace() {
        file.push(pair(alloc, word.parse().ok()?)?).ok()?;
    }
    Some(file)
}

/// Masks: those of the relations closed.
pub(crate) fn closed(alloc: Global, arguments: &str) -> Option<String> {
    let file = pairs(alloc, arguments)?;
    match close(alloc, &file) {
        Ok(closed) => masks_of(alloc, &closed),
        Err(fault) => format!(in alloc; "{fault}").ok(),
    }
}

/// Of eight values: the tuples of one value again and again, each value but one.
fn but(alloc: Global, arity: u8, missing: i64) -> Option<Table> {
    let mut tuples = Vec::new(alloc);
    for value in 0..8 {
        if value != missing {
            tuples
                .push(vec![in alloc; value; arity as usize].ok()?)
                .ok()?;
        }
    }
    relation(alloc, i64::from(arity), 0, 8, &tuples).ok()
}

/// So many of these more. The intersections of n are 2^n - 1.
fn with_all_but(alloc: Global, mut file: Vec<Table>, arity: u8, count: i64) -> Option<Vec<Table>> {
    for missing in 0..count {
        file.push(but(alloc, arity, missing)?).ok()?;
    }
    Some(file)
}

/// So many of these of each arity. Those of four values are handed in first.
fn all_of(alloc: Global, arguments: &str) -> Option<Vec<Table>> {
    let mut words = arguments.split_whitespace();
    let one = number(&mut words)?;
    let two = number(&mut words)?;
    let three = number(&mut words)?;
    let four = number(&mut words)?;
    end(&mut words)?;
    let file = with_all_but(alloc, Vec::new(alloc), 4, four)?;
    let file = with_all_but(alloc, file, 3, three)?;
    let file = with_all_but(alloc, file, 2, two)?;
    with_all_but(alloc, file, 1, one)
}

/// How many relations there are of each arity.
fn counts(alloc: Global, closed: &Closed) -> Option<String> {
    let (one, two) = (closed.list(1).len(), closed.list(2).len());
    let (three, four) = (closed.list(3).len(), closed.list(4).len());
    format!(in alloc; "{one} {two} {three} {four}").ok()
}

/// How many relations of each arity leave out a value: how many intersections there are of each.
pub(crate) fn all_but(alloc: Global, arguments: &str) -> Option<String> {
    let file = all_of(alloc, arguments)?;
    match close(alloc, &file) {
        Ok(closed) => counts(alloc, &closed),
        Err(fault) => format!(in alloc; "{fault}").ok(),
    }
}

/// The values below one, of 64.
fn first_values(alloc: Global, count: i64) -> Option<Table> {
    let mut tuples = Vec::new(alloc);
    for value in 0..count {
        tuples.push(vec![in alloc; value].ok()?).ok()?;
    }
    relation(alloc, 1, 0, 64, &tuples).ok()
}

/// A chain of relations, each within the next one.
fn chain(alloc: Global, arguments: &str) -> Option<Vec<Table>> {
    let mut words = arguments.split_whitespace();
    let first = number(&mut words)?;
    let end = number(&mut words)?;
    let mut file = Vec::new(alloc);
    for count in first..end {
        file.push(first_values(alloc, count)?).ok()?;
    }
    Some(file)
}

/// How many relations of one place there are, and the truth of the first and of the last of them at
/// each value.
fn chained(alloc: Global, closed: &Closed) -> Option<String> {
    let list = closed.list(1);
    let count = list.len();
    let first = digits(alloc, list.first()?)?;
    let last = digits(alloc, list.last()?)?;
    format!(in alloc; "{count} relations\n{first}\n{last}").ok()
}

/// The least count and the end of the counts of a chain.
pub(crate) fn below(alloc: Global, arguments: &str) -> Option<String> {
    let file = chain(alloc, arguments)?;
    match close(alloc, &file) {
        Ok(closed) => chained(alloc, &closed),
        Err(fault) => format!(in alloc; "{fault}").ok(),
    }
}
