//! The bill of a reading, kilowatt-hour by kilowatt-hour; and the reading that a sum pays for, bill by bill.

/// The largest usage that a bill is worked out for.
pub const LARGEST_USAGE: u64 = 10_000_000;

pub const CLASSES: [u8; 3] = [1, 2, 3];

/// The number that turns away a class that is not there, or too large a usage.
pub const NO_READING: u8 = 23;

/// The basic charge, in cents.
fn basic(class: u8) -> u64 {
    match class {
        1 => 1_031,
        2 => 1_229,
        _ => 2_218,
    }
}

/// The block in which a kilowatt-hour lies, the first one of a usage being 1: the first 15,000, the next 35,000, those above.
pub fn block(kilowatt_hour: u64) -> usize {
    match kilowatt_hour {
        0..=15_000 => 0,
        15_001..=50_000 => 1,
        _ => 2,
    }
}

/// The price of a kilowatt-hour of a block, in hundredths of a cent.
pub fn price(class: u8, block: usize) -> u64 {
    match (class, block) {
        (1, _) => 731,
        (2, _) => 767,
        (_, 0) => 767,
        (_, 1) => 647,
        _ => 467,
    }
}

/// Hundredths of a cent in whole cents, from half a cent on up.
fn rounded(hundredths: u64) -> u64 {
    let whole = hundredths / 100;
    match hundredths % 100 {
        0..=49 => whole,
        _ => whole + 1,
    }
}

/// A usage of a class, with what it costs.
#[derive(Clone, Copy, Debug, PartialEq, Eq)]
pub struct Reading {
    pub usage: u64,
    /// The kilowatt-hours in each block.
    pub used: [u64; 3],
    /// What they cost, in hundredths of a cent.
    pub energy: u64,
    /// With the basic charge, in cents.
    pub bill: u64,
}

/// Every reading of a class, from no usage on, each with one kilowatt-hour more than the one before.
pub fn readings(class: u8) -> impl Iterator<Item = Reading> {
    let (mut used, mut energy) = ([0; 3], 0);
    (0..=LARGEST_USAGE).map(move |usage| {
        if usage > 0 {
            used[block(usage)] += 1;
            energy += price(class, block(usage));
        }
        Reading {
            usage,
            used,
            energy,
            bill: basic(class) + rounded(energy),
        }
    })
}

/// The number that turns a class or a usage away, where one does.
pub fn refusal(class: u8, usage: u64) -> Option<u8> {
    let known = CLASSES.contains(&class);
    (!known || usage > LARGEST_USAGE).then_some(NO_READING)
}

/// The cents of a bill, or the number that turns it away.
pub fn bill(class: u8, usage: u64) -> Result<u64, u8> {
    match refusal(class, usage) {
        Some(number) => Err(number),
        None => {
            let mut readings = readings(class).skip(usage as usize);
            Ok(readings.next().expect("a usage in range").bill)
        }
    }
}

/// The largest usage whose bill is at most a sum, none where no bill is; or the number that turns the class away. All bills are
/// looked at, as if one could be less than the bill before it.
pub fn reading_for(class: u8, sum: u64) -> Result<Option<u64>, u8> {
    match refusal(class, 0) {
        Some(number) => Err(number),
        None => {
            let paid = readings(class).filter(|reading| reading.bill <= sum);
            Ok(paid.last().map(|reading| reading.usage))
        }
    }
}

#[cfg(test)]
mod tests {
    use super::*;

    /// Document 02's examples.
    #[test]
    fn the_worked_examples() {
        assert_eq!(bill(1, 1_000), Ok(8_341));
        assert_eq!(bill(3, 60_000), Ok(390_418));
    }

    #[test]
    fn a_class_or_a_usage_that_is_turned_away() {
        for class in [0, 4, 255] {
            assert_eq!(bill(class, 0), Err(23));
        }
        for class in CLASSES {
            assert!(bill(class, LARGEST_USAGE).is_ok());
            assert_eq!(bill(class, LARGEST_USAGE + 1), Err(23));
            assert_eq!(bill(class, u64::MAX), Err(23));
        }
    }

    /// The same examples, turned round.
    #[test]
    fn a_sum_pays_for_the_largest_usage_whose_bill_it_covers() {
        for (class, sum, usage) in [(1, 8_341, 1_000), (3, 390_418, 60_000)] {
            assert_eq!(reading_for(class, sum), Ok(Some(usage)));
            assert_eq!(reading_for(class, sum - 1), Ok(Some(usage - 1)));
        }
        for class in CLASSES {
            assert_eq!(reading_for(class, basic(class) - 1), Ok(None));
            assert_eq!(reading_for(class, basic(class)), Ok(Some(0)));
            assert_eq!(reading_for(class, u64::MAX), Ok(Some(LARGEST_USAGE)));
        }
    }

    #[test]
    fn a_sum_pays_for_nothing_in_a_class_that_is_not_there() {
        for class in [0, 4, 255] {
            for sum in [0, 1_031, u64::MAX] {
                assert_eq!(reading_for(class, sum), Err(23));
            }
        }
    }

    /// So a sum from one bill on and under the next pays for the first of the two and for no other, which budgets.rs rests on.
    #[test]
    fn each_kilowatt_hour_costs_more() {
        for class in CLASSES {
            let next = readings(class).skip(1);
            assert!(readings(class)
                .zip(next)
                .all(|(one, next)| one.bill < next.bill));
        }
    }

    #[test]
    fn blocks_are_15_000_wide_then_35_000_then_the_rest() {
        let last = readings(3).nth(60_000).unwrap();
        assert_eq!(last.used, [15_000, 35_000, 10_000]);
        assert_eq!(last.energy, 38_820_000);
    }

    #[test]
    fn half_a_cent_is_a_cent() {
        assert_eq!((rounded(49), rounded(50), rounded(149)), (0, 1, 1));
        assert_eq!((bill(1, 50), bill(1, 79)), (Ok(1_397), Ok(1_608)));
    }
}
