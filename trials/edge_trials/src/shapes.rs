//! The shapes of random languages.

use std::alloc::Global;
use std::str::SplitWhitespace;

/// So many variables, and so many values.
#[derive(Clone, Copy)]
pub(crate) struct Shape {
    pub(crate) n: u8,
    pub(crate) d: u8,
}

/// `NxD`: two to four variables, and two or three values.
fn shape_in(word: &str) -> Option<Shape> {
    let (n, d) = word.split_once('x')?;
    let n = n.parse::<u8>().ok()?;
    let d = d.parse::<u8>().ok()?;
    if n < 2 || n > 4 || d < 2 || d > 3 {
        return None;
    }
    Some(Shape { n, d })
}

/// The shapes that are left in a row.
pub(crate) fn shapes_in(alloc: Global, words: &mut SplitWhitespace<'_>) -> Option<Vec<Shape>> {
    let mut shapes = Vec::new(alloc);
    for word in words {
        shapes.push(shape_in(word)?).ok()?;
    }
    Some(shapes)
}

impl Shape {
    /// How many assignments of values to all variables there are.
    pub(crate) fn assignments(&self) -> u32 {
        let mut count = 1u32;
        for _ in 0..self.n {
            count = count.saturating_mul(u32::from(self.d));
        }
        count
    }
}
