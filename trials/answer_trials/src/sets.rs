use assign::VarSet;

/// The set of these variables.
pub(crate) fn set_in(text: &str) -> Option<VarSet> {
    let mut set = VarSet::empty();
    for word in text.split_whitespace() {
        let v = word.parse::<u8>().ok()?;
        if v >= 128 {
            return None;
        }
        set = set.with(v);
    }
    Some(set)
}

/// Adds a blank and each member, in the same form.
pub(crate) fn push_set(text: &mut String, set: VarSet) -> Option<()> {
    for v in 0..128 {
        if set.has(v) {
            write!(text, " {v}").ok()?;
        }
    }
    Some(())
}

/// A reply.
pub(crate) fn reply_in(word: &str) -> Option<bool> {
    match word {
        "yes" => Some(true),
        "no" => Some(false),
        _ => None,
    }
}

/// Adds a reply, and ends the line.
pub(crate) fn push_reply(text: &mut String, yes: bool) -> Option<()> {
    text.push_str(if yes { ", yes\n" } else { ", no\n" }).ok()
}
