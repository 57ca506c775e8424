//! A halving and the plain recursion side by side.

use crate::sets::{push_reply, push_set, reply_in, set_in};
use assign::VarSet;
use find_scope::plain::{Halved, halve};
use find_scope::{ScopeNext, ScopeRun};
use std::alloc::Global;

/// The most replies that are tried: 128 variables take at most 254.
const MOST_REPLIES: usize = 255;

/// The set that is wanted, or else the one that was found.
#[derive(Clone, Copy, PartialEq, Eq)]
enum Stand {
    Asks(VarSet),
    Found(VarSet),
}

fn start(all: VarSet) -> Option<ScopeNext> {
    if all.len() == 0 {
        return None;
    }
    Some(ScopeRun::start(all))
}

fn reply(next: ScopeNext, yes: bool) -> ScopeNext {
    match next {
        ScopeNext::Wants(run) => run.reply(yes),
        ScopeNext::Found(set) => ScopeNext::Found(set),
    }
}

fn stand_of(next: &ScopeNext) -> Stand {
    match next {
        ScopeNext::Wants(run) => Stand::Asks(run.wants()),
        ScopeNext::Found(found) => Stand::Found(*found),
    }
}

/// The same of the recursion. None where it leaves a reply.
fn stand_after(all: VarSet, replies: &[bool]) -> Option<Stand> {
    match halve(all, replies) {
        Halved::Wants(wanted) => Some(Stand::Asks(wanted)),
        Halved::Got(found, left) => {
            if left.is_empty() {
                Some(Stand::Found(found))
            } else {
                None
            }
        }
    }
}

/// Adds where a halving stands, and whether the recursion stands elsewhere.
fn push_stand(text: &mut String, stand: Stand, recursion: Option<Stand>) -> Option<()> {
    let (word, set) = match stand {
        Stand::Asks(set) => ("asks", set),
        Stand::Found(set) => ("found", set),
    };
    text.push_str(word).ok()?;
    push_set(text, set)?;
    if recursion != Some(stand) {
        text.push_str(", unlike the recursion").ok()?;
    }
    Some(())
}

/// Adds where a halving stands after each reply.
fn push_halving(text: &mut String, all: VarSet, replies: &[bool]) -> Option<()> {
    let mut next = start(all)?;
    for (at, yes) in replies.iter().enumerate() {
        push_stand(text, stand_of(&next), stand_after(all, replies.get(..at)?))?;
        push_reply(text, *yes)?;
        next = reply(next, *yes);
    }
    push_stand(text, stand_of(&next), stand_after(all, replies))
}

fn replies_in(alloc: Global, text: &str) -> Option<Vec<bool>> {
    let mut replies = Vec::new(alloc);
    for word in text.split_whitespace() {
        replies.push(reply_in(word)?).ok()?;
    }
    Some(replies)
}

/// `VARIABLES by REPLIES`: what the halving of the set asks, and where it stands after the replies.
pub(crate) fn halves(alloc: Global, arguments: &str) -> Option<String> {
    let (all, replies) = arguments.split_once("by")?;
    let all = set_in(all)?;
    let replies = replies_in(alloc, replies)?;
    let mut text = String::new(alloc);
    push_halving(&mut text, all, &replies)?;
    Some(text)
}

/// What is found, where a set is answered no exactly where the violated one lies within it. None
/// where the recursion stands elsewhere, or where there is no end.
fn found_by_both(alloc: Global, all: VarSet, violated: VarSet) -> Option<VarSet> {
    let mut replies: Vec<bool> = Vec::new(alloc);
    let mut next = start(all)?;
    for _ in 0..MOST_REPLIES {
        if stand_after(all, &replies) != Some(stand_of(&next)) {
            return None;
        }
        match stand_of(&next) {
            Stand::Asks(asked) => {
                let yes = !violated.within(asked);
                replies.push(yes).ok()?;
                next = reply(next, yes);
            }
            Stand::Found(found) => return Some(found),
        }
    }
    None
}

/// `VIOLATED of COUNT`: what is found of so many variables.
pub(crate) fn finds(alloc: Global, arguments: &str) -> Option<String> {
    let (violated, count) = arguments.split_once("of ")?;
    let count = count.parse::<u8>().ok()?;
    if count > 128 {
        return None;
    }
    let found = found_by_both(alloc, VarSet::all(count), set_in(violated)?)?;
    let mut text = String::from_str(alloc, "found").ok()?;
    push_set(&mut text, found)?;
    Some(text)
}

/// The variables below 16 whose bits are one.
fn set_of(mask: u32) -> VarSet {
    let mut set = VarSet::empty();
    for v in 0..16 {
        if (mask >> v) & 1 == 1 {
            set = set.with(v);
        }
    }
    set
}

/// How many of the violated sets of so many variables are found.
fn count_found(alloc: Global, count: u8) -> u32 {
    let mut found = 0u32;
    for mask in 1..1u32 << count {
        let violated = set_of(mask);
        if found_by_both(alloc, VarSet::all(count), violated) == Some(violated) {
            found = found.saturating_add(1);
        }
    }
    found
}

/// How many variables: how many sets are found of those of so many, and of fewer.
pub(crate) fn finds_each(alloc: Global, arguments: &str) -> Option<String> {
    let most = arguments.parse::<u8>().ok()?;
    if most > 16 {
        return None;
    }
    let mut found = 0u32;
    for count in 1..=most {
        found = found.saturating_add(count_found(alloc, count));
    }
    format!(in alloc; "{found} found").ok()
}
