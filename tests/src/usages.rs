//! What the comparisons of readings and of budgets share: which usages are looked at closely, what has to be reached in each class,
//! and a difference in words.
use crate::peer::tariff::{CLASSES, LARGEST_USAGE};
use std::collections::BTreeSet;
use std::fmt::{Arguments, Debug};

/// The usages at the ends of the blocks and of the range, on both sides.
pub const BOUNDS: [u64; 9] = [
    0,
    14_999,
    15_000,
    15_001,
    49_999,
    50_000,
    50_001,
    LARGEST_USAGE - 1,
    LARGEST_USAGE,
];

/// How far apart the others are that are looked at closely; in a part of a run they are all that are tried.
const APART: u64 = 997;
const APART_IN_PART: u64 = 99_991;

/// Said of a class that has no tariff.
pub const NO_CLASS: &str = "no such class";

pub fn is_close(usage: u64, part: bool) -> bool {
    BOUNDS.contains(&usage) || usage.is_multiple_of(if part { APART_IN_PART } else { APART })
}

/// What was reached in each class.
#[derive(Default)]
pub struct Reached(BTreeSet<String>);

impl Reached {
    pub fn add(&mut self, class: u8, what: &str) {
        self.0.insert(name(class, what));
    }

    /// What was not, of all that has to be in each class, and of the classes that are not there.
    pub fn missing(&self, in_each: &[String]) -> Vec<String> {
        let mut wanted: Vec<String> = [0, 4].map(|class| name(class, NO_CLASS)).into();
        for class in CLASSES {
            wanted.extend(in_each.iter().map(|what| name(class, what)));
        }
        wanted.retain(|name| !self.0.contains(name));
        wanted
    }
}

fn name(class: u8, what: &str) -> String {
    format!("  class {class}: {what}")
}

/// A difference in what is expected of a usage or a sum of a class, in words.
pub fn differs<T: PartialEq + Debug>(
    class: u8,
    of: Arguments,
    expected: T,
    found: T,
) -> Option<String> {
    let words =
        || format!("  class {class}, {of}\n    expected: {expected:?}\n    found: {found:?}\n");
    (expected != found).then(words)
}

#[cfg(test)]
mod tests {
    use super::*;

    #[test]
    fn a_part_of_a_run_has_fewer() {
        let tried = |part| (0..=LARGEST_USAGE).filter(|&u| is_close(u, part)).count();
        assert_eq!((tried(false), tried(true)), (10_039, 109));
    }

    #[test]
    fn what_was_reached_in_one_class_is_missing_in_the_others() {
        let mut reached = Reached::default();
        let wanted = [String::from("a bound")];
        assert_eq!(reached.missing(&wanted).len(), 2 + 3);
        reached.add(2, "a bound");
        reached.add(4, NO_CLASS);
        let missing = [
            "  class 0: no such class",
            "  class 1: a bound",
            "  class 3: a bound",
        ];
        assert_eq!(reached.missing(&wanted), missing);
    }

    #[test]
    fn a_difference_says_of_what_it_is() {
        assert_eq!(differs(1, format_args!("5 kWh"), 7, 7), None);
        let words = "  class 1, 5 kWh\n    expected: 7\n    found: 8\n";
        let found = differs(1, format_args!("5 kWh"), 7, 8);
        assert_eq!(found.as_deref(), Some(words));
    }
}
