//! Formulas, and their tables.

use rel_formula::{TableOfFault, read_formula, table_of};
use rel_table::Table;
use rows::{end, number};
use serde_json::Value;
use std::alloc::Global;

/// An arity and a text: why it is no formula over tuples of so many values.
pub(crate) fn formula(alloc: Global, arguments: &str) -> Option<String> {
    let (arity, text) = arguments.split_once(' ')?;
    let arity = arity.parse().ok()?;
    let value = Value::from_str(alloc, text).ok()?;
    match read_formula(alloc, &value, arity) {
        Ok(_) => String::from_str(alloc, "taken").ok(),
        Err(fault) => format!(in alloc; "{fault}").ok(),
    }
}

/// A digit for each tuple.
pub(crate) fn digits(alloc: Global, table: &Table) -> Option<String> {
    let mut digits = String::new(alloc);
    for place in 0..table.size() {
        digits.push(if table.at(place) { '1' } else { '0' }).ok()?;
    }
    Some(digits)
}

/// The table of a text over so many values from the least one on: a digit for each tuple, or why
/// there is none.
pub(crate) fn table_text(alloc: Global, text: &str, arity: u8, lo: i64, d: u32) -> Option<String> {
    let value = Value::from_str(alloc, text).ok()?;
    let formula = read_formula(alloc, &value, arity).ok()?;
    match table_of(alloc, &formula, arity, lo, d) {
        Ok(table) => digits(alloc, &table),
        Err(fault) => fault_text(alloc, fault),
    }
}

pub(crate) fn fault_text(alloc: Global, fault: TableOfFault) -> Option<String> {
    format!(in alloc; "{fault}").ok()
}

/// The least value, a number of values up to 256, and a formula of two values: its truth at each
/// tuple.
pub(crate) fn truth(alloc: Global, arguments: &str) -> Option<String> {
    let (front, text) = arguments.split_once(" of ")?;
    let mut words = front.split_whitespace();
    let lo = number(&mut words)?;
    let d = number::<u32>(&mut words)?;
    end(&mut words)?;
    if d < 1 || d > 64 || lo < -1_000_000 || lo > 1_000_000 {
        return None;
    }
    table_text(alloc, text, 2, lo, d)
}
