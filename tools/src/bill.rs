//! The bill of a reading in words for the support desk, with its blocks as lines. The kilowatt-hours and the price of each line, the
//! basic charge and the bill are the core's; a line is only multiplied out here, so that the bill can be followed.
use crate::core::bills::{bill, lines};
use crate::table::{table, Row, Side};
use crate::words::{self, money};

/// The bill of a class and a usage, or why there is none.
pub fn tell(class: u64, usage: u64) -> String {
    let table = |class| told(class, usage);
    of_class(class, &format!("{usage} kWh"), table, words::meaning)
}

/// What is told of a class under its heading, or why it is refused: the meaning of the number.
pub fn of_class(
    class: u64,
    what: &str,
    told: impl Fn(u8) -> Result<String, u8>,
    meaning: fn(u8) -> &'static str,
) -> String {
    // The core takes classes up to 255, and refuses that one as it would any larger.
    let asked = u8::try_from(class).unwrap_or(u8::MAX);
    let whose = words::class(asked).map_or(String::new(), |words| format!(" ({words})"));
    let told =
        told(asked).unwrap_or_else(|number| format!("refused {number}: {}\n", meaning(number)));
    format!("Class {class}{whose}, {what}. Sums are in dollars.\n\n{told}")
}

/// The table of a bill, or the number that refuses the class or the usage.
fn told(class: u8, usage: u64) -> Result<String, u8> {
    let cents = bill(class, usage)?;
    // What no kilowatt-hours cost.
    let basic = bill(class, 0)?;
    let head = ["", "kWh", "cents per kWh", "sum"].map(String::from);
    let mut rows = vec![Row::of(head.into()), sum("basic charge", basic)];
    rows.extend(lines(class, usage).zip(1..).map(|(line, number)| {
        Row::of(vec![
            format!("block {number}"),
            line.used.to_string(),
            money(line.price.into()),
            hundredths(line.used * line.price),
        ])
    }));
    rows.push(sum("bill, to the cent", cents));
    let sides = [Side::Left, Side::Right, Side::Right, Side::Right];
    let rows = table(&sides, &rows);
    Ok(format!(
        "{rows}\nIn the text of a book, where sums are in cents: DAY bill {cents}\n"
    ))
}

/// A row of a sum alone, its point under that of the lines, which have two places more.
fn sum(name: &str, cents: u64) -> Row {
    let cents = money(cents.into()) + "  ";
    Row::of(vec![name.into(), String::new(), String::new(), cents])
}

/// Hundredths of a cent as dollars, 3.6550 for 36550.
fn hundredths(sum: u64) -> String {
    format!("{}.{:04}", sum / 10_000, sum % 10_000)
}

#[cfg(test)]
mod tests {
    use super::*;

    #[test]
    fn a_bill_is_told_by_its_blocks() {
        let expected = "\
Class 3 (three phase), 60000 kWh. Sums are in dollars.

                     kWh  cents per kWh        sum
basic charge                               22.18
block 1            15000           7.67  1150.5000
block 2            35000           6.47  2264.5000
block 3            10000           4.67   467.0000
bill, to the cent                        3904.18

In the text of a book, where sums are in cents: DAY bill 390418
";
        assert_eq!(tell(3, 60_000), expected);
    }

    #[test]
    fn a_bill_is_rounded_at_its_end() {
        let expected = "\
                   kWh  cents per kWh      sum
basic charge                           10.31
block 1             50           7.31   3.6550
bill, to the cent                      13.97

In the text of a book, where sums are in cents: DAY bill 1397
";
        assert!(tell(1, 50).ends_with(expected), "{}", tell(1, 50));
    }

    #[test]
    fn no_usage_has_no_lines() {
        let told = tell(2, 0);
        assert!(told.starts_with("Class 2 (single phase), 0 kWh. "));
        assert!(!told.contains("block"), "{told}");
        assert!(told.ends_with(": DAY bill 1229\n"), "{told}");
    }

    #[test]
    fn a_refusal_is_told_in_words() {
        let words = "refused 23: the class is not 1 to 3, or the usage is over 10,000,000 kWh\n";
        for (class, usage, whose) in [
            (4, 100, "4"),
            (0, 0, "0"),
            (257, 100, "257"),
            (u64::MAX, 0, "18446744073709551615"),
            (1, 10_000_001, "1 (residential)"),
        ] {
            let heading = format!("Class {whose}, {usage} kWh. Sums are in dollars.\n\n");
            assert_eq!(tell(class, usage), heading + words);
        }
    }

    /// What is shown adds up: the basic charge and the lines, rounded, are the bill.
    #[test]
    fn the_lines_come_to_the_bill() {
        for class in 1..=3 {
            for usage in (0..=10_000_000).step_by(9_973) {
                let energy: u64 = lines(class, usage).map(|l| l.used * l.price).sum();
                let basic = bill(class, 0).unwrap();
                let rounded = (100 * basic + energy + 50) / 100;
                assert_eq!(bill(class, usage), Ok(rounded), "class {class}, {usage}");
                let used: u64 = lines(class, usage).map(|l| l.used).sum();
                assert_eq!(used, usage, "class {class}");
            }
        }
    }
}
