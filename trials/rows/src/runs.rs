use std::alloc::Global;

/// What one thing after the other comes to, with a line where that changes.
#[derive(Drop)]
pub struct Runs {
    text: String,
    last: String,
}

impl Runs {
    /// No line yet.
    pub fn new(alloc: Global) -> Runs {
        Runs {
            text: String::new(alloc),
            last: String::new(alloc),
        }
    }

    /// Adds what the next one comes to: a line `AT SAID`, where the one before came to something
    /// else.
    pub fn add(&mut self, at: &str, said: String) -> Option<()> {
        if self.last.as_str() != said.as_str() {
            writeln!(self.text, "{at} {said}").ok()?;
            self.last = said;
        }
        Some(())
    }

    /// The lines.
    pub fn text(self) -> String {
        let Runs { text, .. } = self;
        text
    }
}

/// Texts of which each is listed once, in the order in which they came first.
#[derive(Drop)]
pub struct Distinct {
    list: Vec<String>,
}

impl Distinct {
    /// No text yet.
    pub fn new(alloc: Global) -> Distinct {
        Distinct {
            list: Vec::new(alloc),
        }
    }

    /// Lists a text, unless it is listed already.
    pub fn add(&mut self, text: String) -> Option<()> {
        if !self.list.contains(&text) {
            self.list.push(text).ok()?;
        }
        Some(())
    }

    /// The texts, joined by ` or `.
    pub fn text(&self, alloc: Global) -> Option<String> {
        let mut text = String::new(alloc);
        for (at, listed) in self.list.iter().enumerate() {
            if at > 0 {
                text.push_str(" or ").ok()?;
            }
            text.push_str(listed).ok()?;
        }
        Some(text)
    }
}
