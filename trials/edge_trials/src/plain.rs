//! Sifting by an enumeration of all assignments.

use std::alloc::Global;

/// A relation on two variables: the tuple of values x and y, counted from 0, is in it where its bit
/// d x + y is one.
#[derive(Clone, Copy)]
pub(crate) struct Item {
    pub(crate) relation: &'static str,
    pub(crate) accepted: u64,
    pub(crate) first: u8,
    pub(crate) second: u8,
}

/// The value of a variable in the assignment of this number, which is written in base d.
fn value(d: u64, assignment: u64, v: u8) -> u64 {
    let base = d.max(1);
    let mut left = assignment;
    for _ in 0..v {
        left /= base;
    }
    left % base
}

fn is_violated(d: u64, item: &Item, assignment: u64) -> bool {
    let x = value(d, assignment, item.first);
    let y = value(d, assignment, item.second);
    let place = x.wrapping_mul(d).wrapping_add(y) % 64;
    (item.accepted >> place) & 1 == 0
}

/// Whether each of the first variables has a value of its range, from a first to a last value,
/// counted from 1.
fn is_within(d: u64, ranges: &[(u8, u8)], assignment: u64) -> bool {
    let base = d.max(1);
    let mut left = assignment;
    for (first, last) in ranges {
        let shown = left % base + 1;
        if shown < u64::from(*first) || u64::from(*last) < shown {
            return false;
        }
        left /= base;
    }
    true
}

/// Whether each of so many assignments within the ranges that violates none of both lists doesn't
/// violate the item.
fn is_implied(
    d: u64,
    ranges: &[(u8, u8)],
    assignments: u64,
    before: &[Item],
    behind: &[Item],
    item: &Item,
) -> bool {
    for assignment in 0..assignments {
        if is_within(d, ranges, assignment)
            && is_violated(d, item, assignment)
            && !before.iter().any(|other| is_violated(d, other, assignment))
            && !behind.iter().any(|other| is_violated(d, other, assignment))
        {
            return false;
        }
    }
    true
}

/// The places of the items that remain when those are dropped that the others imply, in order, over
/// so many assignments of d values, of which those within the ranges count.
pub(crate) fn remaining(
    alloc: Global,
    d: u64,
    ranges: &[(u8, u8)],
    assignments: u64,
    items: &[Item],
) -> Option<Vec<usize>> {
    let mut kept = Vec::new(alloc);
    let mut places = Vec::new(alloc);
    for place in 0..items.len() {
        let item = items[place];
        if !is_implied(d, ranges, assignments, &kept, &items[place + 1..], &item) {
            kept.push(item).ok()?;
            places.push(place).ok()?;
        }
    }
    Some(places)
}
