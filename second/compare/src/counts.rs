//! How often each thing was met, by its name, and whether that is often enough.

use std::collections::BTreeMap;

/// Fewest times for each thing that must be met, of calls and of streams.
pub const LEAST: usize = 50;

/// How often each thing was met. A thing is known by the text printed for it.
#[derive(Default)]
pub struct Counts {
    counts: BTreeMap<String, usize>,
}

impl Counts {
    pub fn met(&mut self, what: impl Into<String>) {
        *self.counts.entry(what.into()).or_default() += 1;
    }

    pub fn met_if(&mut self, holds: bool, what: &str) {
        if holds {
            self.met(what);
        }
    }

    fn count(&self, what: &str) -> usize {
        self.counts.get(what).copied().unwrap_or(0)
    }

    /// Prints the counts of what is required, in that order. False if some of it
    /// was met too seldom.
    pub fn print(&self, title: &str, required: impl IntoIterator<Item = impl AsRef<str>>) -> bool {
        let mut good = true;
        println!("{title}:");
        for what in required {
            let what = what.as_ref();
            let count = self.count(what);
            println!("  {what}: {count}");
            good &= enough(count, LEAST, what);
        }
        good
    }

    /// Prints the counts of all that was met. False if something required was met
    /// too seldom, or if anything else was met.
    pub fn print_all(&self, title: &str, required: &[String]) -> bool {
        let mut good = true;
        println!("{title}:");
        for (what, count) in &self.counts {
            println!("  {what}: {count}");
            if !required.contains(what) {
                println!("FAILED: met, and must not be: {what}");
                good = false;
            }
        }
        for what in required {
            good &= enough(self.count(what), LEAST, what);
        }
        good
    }
}

/// Whether a count reaches the least. Says what was met too seldom.
pub fn enough(count: usize, least: usize, what: &str) -> bool {
    if count < least {
        println!("FAILED: met {count} times only: {what}");
    }
    count >= least
}
