//! The checks that passed and failed, and what a failed one shows.
use crate::show;

/// More differences than this are not shown: they mostly have one cause.
const SHOWN: usize = 3;

#[derive(Default)]
pub struct Tally {
    passed: usize,
    failed: usize,
    /// Whether this is a part of a run, of which nothing is demanded.
    part: bool,
}

impl Tally {
    /// The tally of a part of a run: what it did not reach is told, and is no check.
    pub fn of_part() -> Tally {
        Tally {
            part: true,
            ..Tally::default()
        }
    }

    /// What a whole run has to reach, and what of it was not.
    pub fn reached(&mut self, demand: &str, missing: &[String]) {
        let name = format!("reached: {demand}");
        if !self.part || missing.is_empty() {
            return self.check(&name, missing);
        }
        let count = show::count(missing.len());
        println!("in part: {name}, but for {count}");
    }

    /// Prints one check: what it asked, and what spoke against it.
    pub fn check(&mut self, name: &str, against: &[String]) {
        if against.is_empty() {
            self.passed += 1;
            println!("ok: {name}");
            return;
        }
        self.failed += 1;
        println!("FAILED: {name}, {} times", show::count(against.len()));
        for (at, text) in against.iter().enumerate().take(SHOWN) {
            // Two may have been shrunk to the same.
            if !against[..at].contains(text) {
                println!("{text}");
            }
        }
    }

    /// Prints the last line and says whether all is well.
    pub fn finish(self) -> bool {
        println!("{} passed, {} failed", self.passed, self.failed);
        self.failed == 0
    }
}

/// How often something was tried, and what spoke against it.
#[derive(Default)]
pub struct Group {
    tried: usize,
    against: Vec<String>,
}

impl Group {
    /// Tries once more, unless it failed so often already that more would only take time.
    pub fn try_one(&mut self, difference: impl FnOnce() -> Option<String>) {
        if self.against.len() < SHOWN {
            self.tried += 1;
            self.against.extend(difference());
        }
    }

    /// Something that was never tried has not passed.
    pub fn tell(&self, tally: &mut Tally, what: &str) {
        let name = format!("{} {what}", show::count(self.tried));
        if self.tried == 0 {
            tally.check(&name, &[String::from("  never tried")]);
        } else {
            tally.check(&name, &self.against);
        }
    }
}

#[cfg(test)]
mod tests {
    use super::*;

    fn counts(tally: &Tally) -> (usize, usize) {
        (tally.passed, tally.failed)
    }

    #[test]
    fn what_speaks_against_a_check_fails_it() {
        let mut tally = Tally::default();
        tally.check("fine", &[]);
        assert_eq!(counts(&tally), (1, 0));
        tally.check("not fine", &[String::from("  so")]);
        assert_eq!(counts(&tally), (1, 1));
        assert!(!tally.finish());
        assert!(Tally::default().finish());
    }

    #[test]
    fn what_is_not_reached_fails_a_whole_run_alone() {
        let missing = [String::from("an edge")];
        for (mut tally, expected) in [(Tally::default(), (1, 1)), (Tally::of_part(), (1, 0))] {
            tally.reached("every edge", &[]);
            tally.reached("every edge", &missing);
            assert_eq!(counts(&tally), expected);
        }
        let mut part = Tally::of_part();
        part.check("not fine", &missing);
        assert_eq!(counts(&part), (0, 1));
    }

    #[test]
    fn a_group_passes_only_where_it_was_tried() {
        let (mut fine, mut wrong) = (Group::default(), Group::default());
        fine.try_one(|| None);
        wrong.try_one(|| None);
        wrong.try_one(|| Some(String::from("  so")));
        let mut tally = Tally::default();
        for (group, expected) in [(fine, (1, 0)), (wrong, (1, 1)), (Group::default(), (1, 2))] {
            group.tell(&mut tally, "things");
            assert_eq!(counts(&tally), expected);
        }
    }

    #[test]
    fn a_group_that_failed_often_is_not_tried_again() {
        let mut group = Group::default();
        for at in 0..SHOWN + 2 {
            group.try_one(|| Some(at.to_string()));
        }
        assert_eq!((group.tried, group.against.len()), (SHOWN, SHOWN));
    }
}
