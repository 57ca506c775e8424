//! Relations that are made of tuples.

use rel_table::{Table, TableFault, place_of, table_size, tuple_of};
use rows::{end, number};
use serde_json::Value;
use std::alloc::Global;

fn fault_text(alloc: Global, fault: TableFault) -> Option<String> {
    format!(in alloc; "{fault}").ok()
}

/// An arity and a number of values: how many tuples there are.
pub(crate) fn size(alloc: Global, arguments: &str) -> Option<String> {
    let mut words = arguments.split_whitespace();
    let arity = number(&mut words)?;
    let d = number(&mut words)?;
    end(&mut words)?;
    match table_size(arity, d) {
        Ok(size) => format!(in alloc; "{size}").ok(),
        Err(fault) => fault_text(alloc, fault),
    }
}

/// A list of numbers.
fn tuple_in(alloc: Global, value: &Value) -> Option<Vec<i64>> {
    let mut tuple = Vec::new(alloc);
    for number in value.as_array()? {
        tuple.push(number.as_i64()?).ok()?;
    }
    Some(tuple)
}

/// A list of lists of numbers.
fn tuples_in(alloc: Global, text: &str) -> Option<Vec<Vec<i64>>> {
    let value = Value::from_str(alloc, text).ok()?;
    let mut tuples = Vec::new(alloc);
    for tuple in value.as_array()? {
        tuples.push(tuple_in(alloc, tuple)?).ok()?;
    }
    Some(tuples)
}

/// The relation of these tuples, over so many values from the least one on.
pub(crate) fn relation(
    alloc: Global,
    arity: i64,
    lo: i64,
    d: u32,
    tuples: &[Vec<i64>],
) -> Result<Table, TableFault> {
    if d < 1 || d > 64 || lo < -1_000_000 || lo > 1_000_000 || tuples.len() > 1000 {
        return Err(TableFault::Memory);
    }
    Table::from_tuples(alloc, arity, lo, d, tuples)
}

/// Whether a place's tuple stands there, and is accepted where its place is.
fn is_sound(table: &Table, place: u32) -> bool {
    let d = table.value_count();
    let whole = tuple_of(d, table.arity(), place);
    let tuple = &whole[..table.arity() as usize];
    place_of(d, tuple) == place as usize && table.accepts(tuple) == table.at(place)
}

/// The places of the accepted tuples.
fn places(alloc: Global, table: &Table) -> Option<String> {
    let mut text = String::from_str(alloc, "places").ok()?;
    for place in 0..table.size() {
        if !is_sound(table, place) {
            return None;
        }
        if table.at(place) {
            write!(text, " {place}").ok()?;
        }
    }
    Some(text)
}

/// An arity, the least value, a number of values, and the tuples.
pub(crate) fn tuples(alloc: Global, arguments: &str) -> Option<String> {
    let (front, list) = arguments.split_once(" of ")?;
    let mut words = front.split_whitespace();
    let arity = number(&mut words)?;
    let lo = number(&mut words)?;
    let d = number(&mut words)?;
    end(&mut words)?;
    let tuples = tuples_in(alloc, list)?;
    match relation(alloc, arity, lo, d, &tuples) {
        Ok(table) => places(alloc, &table),
        Err(fault) => fault_text(alloc, fault),
    }
}

/// The relation with one tuple, of one value again and again: an arity, a number of values, and the
/// value.
fn constant(alloc: Global, text: &str) -> Option<Table> {
    let mut words = text.split_whitespace();
    let arity = number::<u8>(&mut words)?;
    let d = number(&mut words)?;
    let value = number::<i64>(&mut words)?;
    end(&mut words)?;
    let tuple = vec![in alloc; value; arity as usize].ok()?;
    relation(alloc, i64::from(arity), 0, d, &[tuple]).ok()
}

/// How two relations with one tuple stand to each other.
pub(crate) fn constants(alloc: Global, arguments: &str) -> Option<String> {
    let (one, other) = arguments.split_once(" and ")?;
    let a = constant(alloc, one)?;
    let b = constant(alloc, other)?;
    let equal = if a.equals(&b) && b.equals(&a) {
        "equal"
    } else {
        "not equal"
    };
    let within = if a.within(&b) { "within" } else { "not within" };
    format!(in alloc; "{equal}, {within}").ok()
}
