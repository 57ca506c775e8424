use assign::Partial;
use language::{Candidate, Language};

/// Whether the numbers are those of a scope and of a relation on it.
pub fn is_candidate(lang: &Language, c: Candidate) -> bool {
    u32::from(c.scope) < lang.scopes() && c.rel < lang.relations_on(c.scope)
}

/// Whether a value is one of the variable's.
pub fn is_within(lang: &Language, v: u8, value: u8) -> bool {
    let (first, last) = lang.range(v);
    first <= value && value <= last
}

/// The question that gives these values, as far as they go, to the variables of an order.
pub fn assigned(lang: &Language, order: &[u8], values: &[u8]) -> Partial {
    let mut e = Partial::blank(lang.n());
    for at in 0..order.len().min(values.len()) {
        if order[at] < lang.n() && is_within(lang, order[at], values[at]) {
            e.set(order[at], values[at]);
        }
    }
    e
}

/// The question about the variables whose bit in `asked` is one, each with the value that its bit
/// in `values` gives.
pub fn question(lang: &Language, asked: u128, values: u128) -> Partial {
    let mut q = Partial::blank(lang.n());
    for v in 0..lang.n() {
        let value = ((values >> v) & 1) as u8;
        if (asked >> v) & 1 == 1 && is_within(lang, v, value) {
            q.set(v, value);
        }
    }
    q
}
