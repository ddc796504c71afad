//! Counts how often draws of each named kind were met, so that a test cannot pass by missing them.

use std::fmt::Write;

/// A named kind of draws, with how many must be met and how many were.
pub struct Kind<Draw> {
    name: String,
    least: u64,
    is_met: Box<dyn Fn(&Draw) -> bool>,
    count: u64,
}

/// A kind of draw that must be met at least so many times.
pub fn kind<Draw>(
    name: impl Into<String>,
    least: u64,
    is_met: impl Fn(&Draw) -> bool + 'static,
) -> Kind<Draw> {
    Kind {
        name: name.into(),
        least,
        is_met: Box::new(is_met),
        count: 0,
    }
}

/// The kinds of a test, counted.
pub struct Coverage<Draw> {
    kinds: Vec<Kind<Draw>>,
}

impl<Draw> Coverage<Draw> {
    /// Nothing is met yet.
    pub fn new(kinds: Vec<Kind<Draw>>) -> Coverage<Draw> {
        Coverage { kinds }
    }

    /// Counts a draw in each kind that it meets.
    pub fn note(&mut self, draw: &Draw) {
        for kind in &mut self.kinds {
            if (kind.is_met)(draw) {
                kind.count += 1;
            }
        }
    }

    /// How often a kind was met.
    pub fn count(&self, name: &str) -> u64 {
        let found = self.kinds.iter().find(|kind| kind.name == name);
        found.unwrap_or_else(|| panic!("no kind {name}")).count
    }

    /// One line for each kind: its count and its name.
    pub fn table(&self) -> String {
        let mut table = String::new();
        for kind in &self.kinds {
            writeln!(table, "{:>9}  {}", kind.count, kind.name).expect("a String takes all");
        }
        table
    }

    /// Fails if a kind was met less often than it must be.
    pub fn assert_all_met(&self) {
        for kind in &self.kinds {
            assert!(
                kind.count >= kind.least,
                "{}: met {} times, fewer than {}",
                kind.name,
                kind.count,
                kind.least
            );
        }
    }
}

#[cfg(test)]
mod tests {
    use super::*;

    #[test]
    #[should_panic(expected = "odd: met 1 times, fewer than 2")]
    fn a_kind_met_too_seldom_is_noticed() {
        let mut coverage = Coverage::new(vec![kind("odd", 2, |n: &u32| n % 2 == 1)]);
        coverage.note(&4);
        coverage.note(&7);
        assert_eq!(coverage.count("odd"), 1);
        coverage.assert_all_met();
    }
}
