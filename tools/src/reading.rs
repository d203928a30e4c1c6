//! The reading for a budget in words for the support desk: the largest usage that a sum pays for, and what one kilowatt-hour more would
//! cost. Usage and bills are the core's.
use crate::bill::of_class;
use crate::core::bills::{bill, reading};
use crate::table::{table, Row, Side};
use crate::words::{self, money};

/// The largest usage of a class that the sum pays for, or why there is none.
pub fn tell(class: u64, sum: u64) -> String {
    let what = format!("{} to spend", money(sum.into()));
    of_class(class, &what, |class| told(class, sum), words::no_reading)
}

/// The usage with its bill and that of one more, or the number that refuses the class.
fn told(class: u8, sum: u64) -> Result<String, u8> {
    let Some(usage) = reading(class, sum)? else {
        let basic = money(bill(class, 0)?.into());
        let words = format!("It pays for nothing: the basic charge alone is {basic}.\n");
        return Ok(words);
    };
    let head = Row::of(["", "kWh", "bill"].map(String::from).into());
    let mut rows = vec![head, row("pays for", usage, bill(class, usage)?)];
    let mut after = String::new();
    match bill(class, usage + 1) {
        Ok(more) => rows.push(row("one more", usage + 1, more)),
        Err(_) => after += "That is the most usage that a bill is worked out for.\n",
    }
    // What no kilowatt-hours cost has no blocks.
    if usage > 0 {
        after += &format!("The bill by its blocks: hollupaq bill {class} {usage}\n");
    }
    let sides = [Side::Left, Side::Right, Side::Right];
    let text = format!("{}\n{after}", table(&sides, &rows));
    Ok(text.trim_end().to_string() + "\n")
}

fn row(name: &str, usage: u64, cents: u64) -> Row {
    Row::of(vec![name.into(), usage.to_string(), money(cents.into())])
}

#[cfg(test)]
mod tests {
    use super::*;

    #[test]
    fn a_sum_is_told_with_the_usage_that_it_pays_for() {
        let expected = "\
Class 3 (three phase), 3904.20 to spend. Sums are in dollars.

            kWh     bill
pays for  60000  3904.18
one more  60001  3904.23

The bill by its blocks: hollupaq bill 3 60000
";
        assert_eq!(tell(3, 390_420), expected);
    }

    #[test]
    fn the_basic_charge_pays_for_no_kilowatt_hours_and_a_cent_less_for_nothing() {
        let told = tell(1, 1_031);
        assert!(
            told.ends_with("\npays for    0  10.31\none more    1  10.38\n"),
            "{told}"
        );
        let expected = "\
Class 1 (residential), 10.30 to spend. Sums are in dollars.

It pays for nothing: the basic charge alone is 10.31.
";
        assert_eq!(tell(1, 1_030), expected);
    }

    #[test]
    fn past_the_most_usage_no_bill_is_told() {
        let told = tell(2, u64::MAX);
        let expected = "\
pays for  10000000  767012.29

That is the most usage that a bill is worked out for.
The bill by its blocks: hollupaq bill 2 10000000
";
        assert!(told.ends_with(expected), "{told}");
        assert!(!told.contains("one more"), "{told}");
    }

    #[test]
    fn a_refusal_is_told_in_words() {
        for class in [0, 4, 255, 256, u64::MAX] {
            let expected = format!(
                "Class {class}, 50.00 to spend. Sums are in dollars.\n\nrefused 23: the class is not 1 to 3\n"
            );
            assert_eq!(tell(class, 5_000), expected);
        }
    }
}
