//! Random small networks and what remains of them, beside an enumeration of all assignments.

use crate::plain::{Item, remaining};
use crate::shapes::{Shape, shapes_in};
use fd_solver::Work;
use language::{Candidate, Language};
use net_reduce::{ReduceFault, reduce};
use network::{Network, read_network};
use rows::number;
use samples::{Numbers, Relation, language_within, some_ranges};
use std::alloc::{AllocError, Global};

/// What a random language is made of: two relations, and what they have in common.
#[derive(Drop)]
struct Ground {
    shape: Shape,
    /// Of each relation the mask of its tuples.
    accepted: [u64; 3],
    ranges: Vec<(u8, u8)>,
}

fn some_ground(alloc: Global, numbers: &mut Numbers, shape: Shape) -> Option<Ground> {
    let tuples = u32::from(shape.d).saturating_mul(u32::from(shape.d));
    let limit = 1u64 << tuples.min(62);
    let first = numbers.below(limit);
    let second = numbers.below(limit);
    Some(Ground {
        shape,
        accepted: [first, second, first & second],
        ranges: some_ranges(alloc, numbers, shape.n, shape.d).ok()?,
    })
}

/// The name of a relation by its number.
fn name_of(number: usize) -> &'static str {
    match number {
        0 => "first",
        1 => "second",
        _ => "both",
    }
}

/// A relation by its number.
fn relation_of(ground: &Ground, number: usize) -> Relation<'static> {
    Relation {
        name: name_of(number),
        arity: 2,
        accepted: u128::from(ground.accepted.get(number).copied().unwrap_or(0)),
    }
}

fn language_of(alloc: Global, ground: &Ground) -> Option<Language> {
    let relations = [
        relation_of(ground, 0),
        relation_of(ground, 1),
        relation_of(ground, 2),
    ];
    language_within(
        alloc,
        ground.shape.n,
        ground.shape.d,
        &ground.ranges,
        &relations,
        None,
    )
    .ok()
}

/// Items on some of the pairs of variables, in some order.
fn some_items(alloc: Global, numbers: &mut Numbers, ground: &Ground) -> Option<Vec<Item>> {
    let mut items = Vec::new(alloc);
    for second in 0..ground.shape.n {
        for first in 0..second {
            if numbers.below(4) == 0 {
                continue;
            }
            let number = numbers.below(3) as usize;
            let place = numbers.below(items.len() as u64 + 1) as usize;
            let item = Item {
                relation: name_of(number),
                accepted: ground.accepted[number],
                first,
                second,
            };
            items.insert(place, item).ok()?;
        }
    }
    Some(items)
}

/// The network in JSON.
fn text_of(alloc: Global, items: &[Item]) -> Result<String, AllocError> {
    let mut text = String::from_str(alloc, "[")?;
    for (at, item) in items.iter().enumerate() {
        let comma = if at == 0 { "" } else { "," };
        let (relation, first, second) = (item.relation, item.first, item.second);
        write!(text, "{comma}[\"{relation}\",\"v{first}\",\"v{second}\"]")?;
    }
    text.push(']')?;
    Ok(text)
}

fn network_of(alloc: Global, lang: &Language, items: &[Item]) -> Option<Network> {
    let text = text_of(alloc, items).ok()?;
    read_network(alloc, lang, text.as_bytes()).ok()
}

/// What comes of a network under a budget.
#[derive(Clone, Copy, PartialEq, Eq)]
enum Came {
    /// What the enumeration leaves.
    Same,
    /// The budget is spent at one of the items.
    Spent,
    Other,
}

/// Whether a part of a network is what stands at these places.
fn is_at(part: &[Candidate], net: &Network, places: &[usize]) -> bool {
    part.len() == places.len()
        && part
            .iter()
            .zip(places.iter())
            .all(|(c, place)| net.list().get(*place) == Some(c))
}

fn came_of(
    alloc: Global,
    work: &mut Work,
    lang: &Language,
    net: &Network,
    budget: u32,
    places: &[usize],
) -> Option<Came> {
    match reduce(alloc, work, lang, net, budget.clamp(1, 1_000_000_000)) {
        Ok(part) if is_at(&part, net, places) => Some(Came::Same),
        Err(ReduceFault::Spent(i)) if i < net.len() => Some(Came::Spent),
        Ok(_) | Err(ReduceFault::Spent(_)) => Some(Came::Other),
        Err(ReduceFault::Memory) => None,
    }
}

/// What came of the networks of a row.
#[derive(Drop)]
struct Log {
    networks: u32,
    items: usize,
    remained: usize,
    /// Those that aren't as they have to be.
    odd: u32,
    lines: String,
}

impl Log {
    fn new(alloc: Global) -> Log {
        Log {
            networks: 0,
            items: 0,
            remained: 0,
            odd: 0,
            lines: String::new(alloc),
        }
    }

    /// Takes what came of a network under a budget, which may be spent or not.
    fn take(&mut self, budget: u32, may_be_spent: bool, came: Came) -> Option<()> {
        if came == Came::Same || came == Came::Spent && may_be_spent {
            return Some(());
        }
        self.odd = self.odd.saturating_add(1);
        writeln!(self.lines, "network {} under {budget}", self.networks).ok()
    }

    /// What came of them.
    fn text(self, alloc: Global) -> Option<String> {
        let Log {
            networks,
            items,
            remained,
            odd,
            lines,
        } = self;
        format!(in alloc;
            "{networks} networks\n{items} items\n{remained} remain\n{odd} odd\n{lines}"
        ).ok()
    }
}

/// A row: a first number, how many languages there are of each shape, how many networks of each
/// language, shapes, and budgets, of which the last one is never spent.
#[derive(Drop)]
struct Row {
    seed: u64,
    rounds: u32,
    networks: u32,
    shapes: Vec<Shape>,
    budgets: Vec<u32>,
}

/// Reduces a network under each budget.
fn try_budgets(
    alloc: Global,
    work: &mut Work,
    lang: &Language,
    net: &Network,
    places: &[usize],
    budgets: &[u32],
    log: &mut Log,
) -> Option<()> {
    log.networks = log.networks.saturating_add(1);
    log.items = log.items.saturating_add(net.list().len());
    log.remained = log.remained.saturating_add(places.len());
    for (at, budget) in budgets.iter().enumerate() {
        let came = came_of(alloc, work, lang, net, *budget, places)?;
        log.take(*budget, at + 1 < budgets.len(), came)?;
    }
    Some(())
}

/// Reduces a random network.
fn try_network(
    alloc: Global,
    numbers: &mut Numbers,
    work: &mut Work,
    lang: &Language,
    ground: &Ground,
    budgets: &[u32],
    log: &mut Log,
) -> Option<()> {
    let items = some_items(alloc, numbers, ground)?;
    let net = network_of(alloc, lang, &items)?;
    let places = remaining(
        alloc,
        u64::from(ground.shape.d),
        &ground.ranges,
        u64::from(ground.shape.assignments()),
        &items,
    )?;
    try_budgets(alloc, work, lang, &net, &places, budgets, log)
}

/// Reduces random networks of a language, with the same room for each.
fn try_networks(
    alloc: Global,
    numbers: &mut Numbers,
    lang: &Language,
    ground: &Ground,
    row: &Row,
    log: &mut Log,
) -> Option<()> {
    let mut work = Work::new(alloc, lang).ok()?;
    for _ in 0..row.networks {
        try_network(alloc, numbers, &mut work, lang, ground, &row.budgets, log)?;
    }
    Some(())
}

/// The same for a random language.
fn try_language(
    alloc: Global,
    numbers: &mut Numbers,
    shape: Shape,
    row: &Row,
    log: &mut Log,
) -> Option<()> {
    let ground = some_ground(alloc, numbers, shape)?;
    let lang = language_of(alloc, &ground)?;
    try_networks(alloc, numbers, &lang, &ground, row, log)
}

fn row_in(alloc: Global, arguments: &str) -> Option<Row> {
    let (front, back) = arguments.split_once(" under ")?;
    let mut words = front.split_whitespace();
    let seed = number(&mut words)?;
    let rounds = number(&mut words)?;
    let networks = number(&mut words)?;
    Some(Row {
        seed,
        rounds,
        networks,
        shapes: shapes_in(alloc, &mut words)?,
        budgets: budgets_in(alloc, back)?,
    })
}

fn budgets_in(alloc: Global, text: &str) -> Option<Vec<u32>> {
    let mut budgets = Vec::new(alloc);
    for word in text.split_whitespace() {
        budgets.push(word.parse().ok()?).ok()?;
    }
    Some(budgets)
}

/// A row: what remains of so many random networks.
pub(crate) fn reductions(alloc: Global, arguments: &str) -> Option<String> {
    let row = row_in(alloc, arguments)?;
    let mut numbers = Numbers::new(row.seed);
    let mut log = Log::new(alloc);
    for _ in 0..row.rounds {
        for shape in &row.shapes {
            try_language(alloc, &mut numbers, *shape, &row, &mut log)?;
        }
    }
    log.text(alloc)
}
