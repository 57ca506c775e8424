use std::alloc::Global;

/// How many answers were held against a plain list, and how many differ.
#[derive(Clone, Copy)]
pub(crate) struct Tally {
    tried: u32,
    odd: u32,
}

impl Tally {
    pub(crate) fn new() -> Tally {
        Tally { tried: 0, odd: 0 }
    }

    /// Counts one more, which is as listed or isn't.
    pub(crate) fn take(&mut self, is_same: bool) {
        self.tried = self.tried.saturating_add(1);
        self.odd = self.odd.saturating_add(u32::from(!is_same));
    }

    pub(crate) fn text(&self, alloc: Global) -> Option<String> {
        format!(in alloc; "{} tried, {} differ", self.tried, self.odd).ok()
    }
}
