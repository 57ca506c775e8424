//! Formulas without pattern, beside their worth in 128 bits.

use crate::formulas::{fault_text, table_text};
use rel_formula::TableOfFault;
use std::alloc::Global;

/// Numbers that follow one another without pattern: a linear congruence of 64 bits, of which the
/// high bits are used.
#[derive(Drop)]
struct Dice {
    state: u64,
}

impl Dice {
    /// A number below n.
    fn below(&mut self, n: usize) -> usize {
        self.state = self
            .state
            .wrapping_mul(6364136223846793005)
            .wrapping_add(1442695040888963407);
        (self.state >> 33) as usize % n
    }
}

/// A part of a formula with what it is worth at each of the nine tuples over -1 to 1, reckoned in
/// 128 bits beside the text.
#[derive(Drop)]
struct Sample {
    text: String,
    worth: [i128; 9],
    too_big: [bool; 9],
}

const LEAST: i128 = -9223372036854775808;

const GREATEST: i128 = 9223372036854775807;

/// The number that an operator makes of two, or the absolute value of the first.
fn reckoned(operator: &str, x: i128, y: i128) -> i128 {
    match operator {
        "+" => x.wrapping_add(y),
        "-" => x.wrapping_sub(y),
        "*" => x.wrapping_mul(y),
        "min" => if x < y { x } else { y },
        "max" => if x < y { y } else { x },
        _ => if x < 0 { 0i128.wrapping_sub(x) } else { x },
    }
}

/// The truth that an operator makes of two numbers, or of two truths that are 0 or 1.
fn judged(operator: &str, x: i128, y: i128) -> bool {
    match operator {
        "=" => x == y,
        "!=" => x != y,
        "<" => x < y,
        "<=" => x <= y,
        ">" => x > y,
        ">=" => x >= y,
        "and" => x == 1 && y == 1,
        "or" => x == 1 || y == 1,
        _ => x == 0,
    }
}

/// What is made of two samples, by the name of an operator; of the first alone by `abs` and `not`.
fn made(alloc: Global, operator: &str, truth: bool, a: &Sample, b: &Sample) -> Option<Sample> {
    let text = if operator == "abs" || operator == "not" {
        format!(in alloc; "[\"{operator}\",{}]", a.text).ok()?
    } else {
        format!(in alloc; "[\"{operator}\",{},{}]", a.text, b.text).ok()?
    };
    let mut worth = [0; 9];
    let mut too_big = a.too_big;
    for k in 0..9 {
        if operator != "abs" && operator != "not" && b.too_big[k] {
            too_big[k] = true;
        }
        if !too_big[k] {
            let (x, y) = (a.worth[k], b.worth[k]);
            worth[k] = if truth {
                if judged(operator, x, y) { 1 } else { 0 }
            } else {
                reckoned(operator, x, y)
            };
            too_big[k] = worth[k] < LEAST || worth[k] > GREATEST;
        }
    }
    Some(Sample {
        text,
        worth,
        too_big,
    })
}

/// A whole number or a position.
fn leaf(alloc: Global, dice: &mut Dice) -> Option<Sample> {
    let numbers = [
        0,
        1,
        -1,
        2,
        -3,
        3037000500,
        4611686018427387904,
        GREATEST,
        LEAST,
    ];
    let worth = match dice.below(4) {
        0 => [-1, -1, -1, 0, 0, 0, 1, 1, 1],
        1 => [-1, 0, 1, -1, 0, 1, -1, 0, 1],
        _ => [numbers[dice.below(9)]; 9],
    };
    let text = if worth[0] == worth[8] {
        format!(in alloc; "{}", worth[0]).ok()?
    } else if worth[0] == worth[1] {
        String::from_str(alloc, "\"$0\"").ok()?
    } else {
        String::from_str(alloc, "\"$1\"").ok()?
    };
    Some(Sample {
        text,
        worth,
        too_big: [false; 9],
    })
}

/// A term of at most three operators.
fn term(alloc: Global, dice: &mut Dice) -> Option<Sample> {
    let operators = ["+", "-", "*", "min", "max", "abs"];
    let mut term = leaf(alloc, dice)?;
    for _ in 0..dice.below(4) {
        let other = leaf(alloc, dice)?;
        let operator = operators[dice.below(6)];
        term = if dice.below(2) == 0 {
            made(alloc, operator, false, &term, &other)?
        } else {
            made(alloc, operator, false, &other, &term)?
        };
    }
    Some(term)
}

/// A formula of at most three comparisons.
fn formula(alloc: Global, dice: &mut Dice) -> Option<Sample> {
    let comparisons = ["=", "!=", "<", "<=", ">", ">="];
    let connectives = ["and", "or", "not"];
    let mut formula = made(
        alloc,
        comparisons[dice.below(6)],
        true,
        &term(alloc, dice)?,
        &term(alloc, dice)?,
    )?;
    for _ in 0..dice.below(3) {
        let a = term(alloc, dice)?;
        let b = term(alloc, dice)?;
        let other = made(alloc, comparisons[dice.below(6)], true, &a, &b)?;
        formula = made(alloc, connectives[dice.below(3)], true, &formula, &other)?;
    }
    Some(formula)
}

/// The digits of a sample's truth, or its first place that is too big.
fn expected(alloc: Global, sample: &Sample) -> Option<String> {
    let mut digits = String::new(alloc);
    for k in 0..9 {
        if sample.too_big[k] {
            return fault_text(alloc, TableOfFault::TooBig(k as u32));
        }
        digits
            .push(if sample.worth[k] == 1 { '1' } else { '0' })
            .ok()?;
    }
    Some(digits)
}

/// Whether some formula has the truth that was reckoned, and whether it is too big.
fn one(alloc: Global, dice: &mut Dice) -> Option<(bool, bool)> {
    let sample = formula(alloc, dice)?;
    let found = table_text(alloc, &sample.text, 2, -1, 3)?;
    let wanted = expected(alloc, &sample)?;
    Some((found.as_str() == wanted.as_str(), wanted.len() != 9))
}

/// So many formulas without pattern: how many agree with their worth, and how many of them are too
/// big at some place.
pub(crate) fn random(alloc: Global, arguments: &str) -> Option<String> {
    let mut dice = Dice { state: 1 };
    let mut agree = 0u32;
    let mut big = 0u32;
    for _ in 0..arguments.parse::<u32>().ok()? {
        let (agrees, is_big) = one(alloc, &mut dice)?;
        agree = agree.saturating_add(u32::from(agrees));
        big = big.saturating_add(u32::from(is_big));
    }
    format!(in alloc; "{agree} agree, {big} too big").ok()
}
