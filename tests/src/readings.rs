//! Bills of readings by the library, against the peer: every usage of every class, the lines of some, and what is turned away.
use crate::peer::tariff::{self, Reading, CLASSES, LARGEST_USAGE};
use crate::random::Random;
use crate::seeds::Share;
use crate::tally::{Group, Tally};
use crate::usages::{self, Reached, BOUNDS, NO_CLASS};
use std::fmt::Debug;
use tools::core::bills::{self, Line};
use tools::core::{Account, Answer};
use tools::event::Event;

/// Beside the last line of a bill.
const MORE_LINES: [usize; 3] = [3, 4, usize::MAX];

/// Usages that are turned away, or, in a class that is not there, are not what turns it away.
const ODD_USAGES: [u64; 8] = [
    0,
    1,
    LARGEST_USAGE,
    LARGEST_USAGE + 1,
    u32::MAX as u64,
    1 << 32,
    u64::MAX - 1,
    u64::MAX,
];

const ODD_READINGS: u64 = 1_000;

/// What the readings showed.
#[derive(Default)]
pub struct Readings {
    bills: Group,
    lines: Group,
    posted: Group,
    refused: Group,
    reached: Reached,
}

impl Readings {
    pub fn compared(shares: &[Share], part: bool) -> Readings {
        let mut all = Readings::default();
        for class in CLASSES {
            all.class(class, part);
        }
        for (class, usage) in (0..=u8::MAX).flat_map(|class| ODD_USAGES.map(|usage| (class, usage)))
        {
            all.odd(class, usage);
        }
        for share in shares {
            let mut random = Random::new(share.seed);
            for _ in 0..ODD_READINGS {
                let class = random.draw() as u8;
                let usage = random.draw() >> random.below(64);
                all.odd(class, usage);
            }
        }
        all
    }

    /// Every usage, in its order, so that the first difference is the smallest.
    fn class(&mut self, class: u8, part: bool) {
        for reading in tariff::readings(class) {
            let close = usages::is_close(reading.usage, part);
            if close || !part {
                self.bills.try_one(|| bill(class, &reading));
            }
            if close {
                self.closely(class, &reading);
            }
        }
    }

    /// A reading whose lines are looked at, and whose bill is posted.
    fn closely(&mut self, class: u8, reading: &Reading) {
        self.lines.try_one(|| lines(class, reading));
        self.posted.try_one(|| posted(class, reading));
        if BOUNDS.contains(&reading.usage) {
            self.reached.add(class, &format!("{} kWh", reading.usage));
        }
        match reading.energy % 100 {
            49 => self.reached.add(class, "49 hundredths down"),
            50 => self.reached.add(class, "half a cent up"),
            _ => {}
        }
    }

    /// Numbers that are mostly no reading.
    fn odd(&mut self, class: u8, usage: u64) {
        let Some(number) = tariff::refusal(class, usage) else {
            return;
        };
        self.refused.try_one(|| refused(class, usage, number));
        let known = CLASSES.contains(&class);
        if known && usage == LARGEST_USAGE + 1 {
            self.reached.add(class, "one kWh too many");
        }
        if !known && usage <= LARGEST_USAGE {
            self.reached.add(class, NO_CLASS);
        }
    }

    pub fn tell(&self, tally: &mut Tally) {
        tally.reached("both sides of every bound of a reading", &self.missing());
        self.bills.tell(tally, "readings, their bills");
        self.lines.tell(tally, "readings, the lines of their bills");
        self.posted.tell(tally, "readings, their bills posted");
        self.refused.tell(tally, "readings refused, no lines");
    }

    fn missing(&self) -> Vec<String> {
        let mut wanted: Vec<String> = BOUNDS.map(|usage| format!("{usage} kWh")).into();
        let others = ["49 hundredths down", "half a cent up", "one kWh too many"];
        wanted.extend(others.map(String::from));
        self.reached.missing(&wanted)
    }
}

fn differs<T: PartialEq + Debug>(class: u8, usage: u64, expected: T, found: T) -> Option<String> {
    usages::differs(class, format_args!("{usage} kWh"), expected, found)
}

fn bill(class: u8, reading: &Reading) -> Option<String> {
    let found = bills::bill(class, reading.usage);
    differs(class, reading.usage, Ok(reading.bill), found)
}

fn lines(class: u8, reading: &Reading) -> Option<String> {
    let line = |block: usize| Line {
        used: reading.used[block],
        price: tariff::price(class, block),
    };
    let expected = [line(0), line(1), line(2)];
    let found = [0, 1, 2].map(|at| bills::line(class, reading.usage, at));
    differs(class, reading.usage, expected, found)
        .or_else(|| no_lines(class, reading.usage, &MORE_LINES))
}

fn no_lines(class: u8, usage: u64, at: &[usize]) -> Option<String> {
    let none = Line { used: 0, price: 0 };
    at.iter()
        .find_map(|&at| differs(class, usage, none, bills::line(class, usage, at)))
}

/// The bill goes into a fresh account, as any other does.
fn posted(class: u8, reading: &Reading) -> Option<String> {
    let mut account = Account::fresh();
    let answer = account.post(Event::of(1, 0, reading.bill));
    let expected = (Answer::Accepted(0), reading.bill as i64);
    differs(class, reading.usage, expected, (answer, account.owed()))
}

fn refused(class: u8, usage: u64, number: u8) -> Option<String> {
    differs(class, usage, Err(number), bills::bill(class, usage))
        .or_else(|| no_lines(class, usage, &[0, 1, 2]))
}

#[cfg(test)]
mod tests {
    use super::*;

    #[test]
    fn a_bill_that_differs_is_seen() {
        let reading = tariff::readings(3).nth(15_001).unwrap();
        assert_eq!(bill(3, &reading), None);
        assert_eq!(lines(3, &reading), None);
        assert_eq!(posted(3, &reading), None);
        assert!(bill(2, &reading).is_some());
        let cent = Reading {
            bill: reading.bill + 1,
            ..reading
        };
        assert!(bill(3, &cent).is_some());
        let moved = Reading {
            used: [15_001, 0, 0],
            ..reading
        };
        assert!(lines(3, &moved).is_some());
    }

    #[test]
    fn a_refusal_that_differs_is_seen() {
        assert_eq!(refused(4, 0, 23), None);
        assert!(refused(4, 0, 22).is_some());
        assert!(refused(1, 0, 23).is_some());
    }

    #[test]
    fn what_is_not_reached_is_missing() {
        let none = Readings::default();
        assert_eq!(none.missing().len(), 2 + 3 * (BOUNDS.len() + 3));
        let mut some = Readings::default();
        some.closely(1, &tariff::readings(1).nth(50).unwrap());
        some.odd(4, 0);
        some.odd(2, LARGEST_USAGE + 1);
        some.odd(3, 0);
        assert_eq!(some.missing().len(), none.missing().len() - 3);
    }
}
