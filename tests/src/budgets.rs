//! The usage that a sum pays for by the library, against the peer: for some usages of each class every sum that pays for that usage
//! and not for the next, some sums for which the peer looks at all its bills, and what is turned away.
use crate::peer::tariff::{self, Reading, CLASSES, LARGEST_USAGE};
use crate::random::Random;
use crate::seeds::Share;
use crate::tally::{Group, Tally};
use crate::usages::{self, Reached, BOUNDS, NO_CLASS};
use std::collections::BTreeSet;
use tools::core::bills;

/// Usages drawn of each seed, the same in every class.
const DRAWN: usize = 300;

/// Sums that are asked of every class that is not there, the basic charges of the others among them, and so many drawn of each seed.
const ODD_SUMS: [u64; 7] = [0, 1, 1_031, 1_229, 2_218, 10_000, u64::MAX];
const ODD_DRAWN: usize = 4;

/// Sums for which the peer looks at all its bills. They are few, since that takes its time.
const SEARCHED: usize = 10;
const SEARCHED_IN_PART: usize = 3;

/// More than the largest bill, in cents.
const LARGE_SUM: u64 = 80_000_000;

/// Sums over every bill, and so many drawn of each seed: the low half of some would pay for less, or for nothing.
const LARGE_SUMS: [u64; 6] = [
    u32::MAX as u64,
    1 << 32,
    (1 << 32) + 1_030,
    1 << 63,
    u64::MAX - 1,
    u64::MAX,
];
const LARGE_DRAWN: usize = 100;
const THE_LARGEST: &str = "the largest sum";
const PAST_32_BITS: &str = "a sum of more than 32 bits";

/// What the budgets showed.
#[derive(Default)]
pub struct Budgets {
    paid: Group,
    searched: Group,
    nothing: Group,
    refused: Group,
    reached: Reached,
}

impl Budgets {
    pub fn compared(shares: &[Share], part: bool) -> Budgets {
        let mut all = Budgets::default();
        let (chosen, large) = (chosen(shares, part), large_sums(shares));
        for class in CLASSES {
            all.class(class, &chosen);
            all.most(class, &large);
        }
        let sums = odd_sums(shares);
        for class in (0..=u8::MAX).filter(|class| !CLASSES.contains(class)) {
            all.no_class(class, &sums);
        }
        for (class, sum) in searched(shares, part) {
            all.searched.try_one(|| as_the_peer(class, sum));
        }
        all
    }

    /// The chosen usages in their order, in one walk over all bills of the class.
    fn class(&mut self, class: u8, chosen: &BTreeSet<u64>) {
        let mut readings = tariff::readings(class).peekable();
        self.too_little(class, readings.peek().expect("the bill of no usage").bill);
        for &usage in chosen {
            let reading = readings.find(|reading| reading.usage == usage);
            let reading = reading.expect("a usage in range");
            self.between(class, &reading, readings.peek());
        }
    }

    /// Sums under the basic charge, which usage 0 costs.
    fn too_little(&mut self, class: u8, basic: u64) {
        for sum in [0, 1, basic - 1] {
            self.nothing.try_one(|| pays(class, sum, Ok(None)));
            if sum + 1 == basic {
                self.reached.add(class, &one_cent_under(0));
            }
        }
    }

    /// Every sum that pays for a reading and not for the next. Behind the last bill there is no end to them.
    fn between(&mut self, class: u8, reading: &Reading, next: Option<&Reading>) {
        let [first, last] = ends(reading.usage);
        let end = next.map_or(reading.bill + 2, |next| next.bill);
        for sum in reading.bill..end {
            self.pays_for(class, sum, reading.usage);
            if sum == reading.bill {
                self.reached.add(class, &first);
            }
            if next.is_some() && sum + 1 == end {
                self.reached.add(class, &last);
            }
        }
    }

    /// Sums that pay for the largest usage.
    fn most(&mut self, class: u8, sums: &[u64]) {
        for &sum in sums {
            self.pays_for(class, sum, LARGEST_USAGE);
            if sum == u64::MAX {
                self.reached.add(class, THE_LARGEST);
            } else if sum > u32::MAX.into() {
                self.reached.add(class, PAST_32_BITS);
            }
        }
    }

    fn pays_for(&mut self, class: u8, sum: u64, usage: u64) {
        self.paid.try_one(|| pays(class, sum, Ok(Some(usage))));
    }

    fn no_class(&mut self, class: u8, sums: &[u64]) {
        for &sum in sums {
            self.refused.try_one(|| as_the_peer(class, sum));
        }
        self.reached.add(class, NO_CLASS);
    }

    pub fn tell(&self, tally: &mut Tally) {
        let demand = "the first and the last sum that pay for every bound of a reading";
        tally.reached(demand, &self.missing());
        for (group, words) in [
            (&self.paid, "sums and the usages that they pay for"),
            (&self.searched, "sums held against all bills of the peer"),
            (&self.nothing, "sums that pay for nothing"),
            (&self.refused, "budgets of no class"),
        ] {
            group.tell(tally, words);
        }
    }

    fn missing(&self) -> Vec<String> {
        let mut wanted: Vec<String> = BOUNDS.into_iter().flat_map(ends).collect();
        wanted.extend([one_cent_under(0), PAST_32_BITS.into()]);
        self.reached.missing(&wanted)
    }
}

/// The usages whose sums are tried.
fn chosen(shares: &[Share], part: bool) -> BTreeSet<u64> {
    let close = (0..=LARGEST_USAGE).filter(|&usage| usages::is_close(usage, part));
    let mut chosen: BTreeSet<u64> = close.collect();
    for share in shares {
        let mut random = Random::new(share.seed);
        // Small ones too, so that some lie in each block.
        chosen.extend((0..DRAWN).map(|_| random.below(LARGEST_USAGE + 1) >> random.below(16)));
    }
    chosen
}

fn odd_sums(shares: &[Share]) -> Vec<u64> {
    let mut sums = ODD_SUMS.to_vec();
    for share in shares {
        let mut random = Random::new(share.seed);
        sums.extend((0..ODD_DRAWN).map(|_| random.draw() >> random.below(64)));
    }
    sums
}

fn large_sums(shares: &[Share]) -> Vec<u64> {
    let mut sums = LARGE_SUMS.to_vec();
    for share in shares {
        let mut random = Random::new(share.seed);
        sums.extend((0..LARGE_DRAWN).map(|_| (random.draw() >> random.below(36)).max(LARGE_SUM)));
    }
    sums
}

/// The classes in turn, and sums of the last seed, which is the day's where none is named.
fn searched(shares: &[Share], part: bool) -> Vec<(u8, u64)> {
    let mut random = Random::new(shares.last().expect("a seed").seed);
    let count = if part { SEARCHED_IN_PART } else { SEARCHED };
    let classes = CLASSES.into_iter().cycle().take(count);
    let sum = |class| (class, random.below(LARGE_SUM) >> random.below(16));
    classes.map(sum).collect()
}

/// The first and the last sum that pay for a usage, in words.
fn ends(usage: u64) -> [String; 2] {
    let last = match usage {
        LARGEST_USAGE => THE_LARGEST.into(),
        _ => one_cent_under(usage + 1),
    };
    [bill_of(usage), last]
}

fn one_cent_under(usage: u64) -> String {
    format!("one cent under {}", bill_of(usage))
}

fn bill_of(usage: u64) -> String {
    match usage {
        0 => String::from("the basic charge"),
        _ => format!("the bill of {usage} kWh"),
    }
}

fn as_the_peer(class: u8, sum: u64) -> Option<String> {
    pays(class, sum, tariff::reading_for(class, sum))
}

fn pays(class: u8, sum: u64, expected: Result<Option<u64>, u8>) -> Option<String> {
    let found = bills::reading(class, sum);
    usages::differs(class, format_args!("{sum} cents"), expected, found)
}

#[cfg(test)]
mod tests {
    use super::*;

    /// A kilowatt-hour less or more, none for usage 0, usage 0 for none, another number: of all answers one is no difference.
    #[test]
    fn an_answer_that_differs_is_seen() {
        let usages = [0, 999, 1_000, 1_001].map(|usage| Ok(Some(usage)));
        let others = [Ok(None), Err(22), Err(23)];
        for (class, sum, right) in [
            (1, 8_341, usages[2]),
            (1, 1_031, usages[0]),
            (1, 1_030, others[0]),
            (4, 1_031, others[2]),
        ] {
            for answer in usages.into_iter().chain(others) {
                let differs = pays(class, sum, answer).is_some();
                assert_eq!(differs, answer != right, "{class} {sum} {answer:?}");
            }
        }
    }

    #[test]
    fn what_is_not_reached_is_missing() {
        let none = Budgets::default().missing().len();
        assert_eq!(none, 2 + 3 * (2 * BOUNDS.len() + 2));
        let mut some = Budgets::default();
        some.class(1, &BTreeSet::from([0, 7, LARGEST_USAGE]));
        some.no_class(4, &[0]);
        some.no_class(5, &[0]);
        // One cent under the basic charge, both ends of usage 0, the bill of the largest usage, and class 4.
        assert_eq!(some.missing().len(), none - 5);
        some.most(1, &[u64::MAX]);
        assert_eq!(some.missing().len(), none - 6);
        some.most(1, &[1 << 32]);
        assert_eq!(some.missing().len(), none - 7);
    }

    #[test]
    fn large_sums_pay_for_the_largest_usage() {
        let sums = large_sums(&crate::seeds::shares(Some(1), 20_773, 0, 0));
        assert!(sums.iter().all(|&sum| sum >= LARGE_SUM));
        let past = sums.iter().filter(|&&sum| sum > u32::MAX.into()).count();
        assert!(past > LARGE_DRAWN / 2, "{past}");
    }

    #[test]
    fn a_part_of_a_run_has_fewer() {
        let shares = crate::seeds::shares(None, 20_773, 0, 0);
        let tried = |part| (chosen(&shares, part).len(), searched(&shares, part).len());
        let (whole, part) = (tried(false), tried(true));
        assert!(whole.0 > 10_000 && part.0 < 1_000, "{whole:?} {part:?}");
        assert_eq!((whole.1, part.1), (10, 3));
    }
}
