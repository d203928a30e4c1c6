//! The sixteen kinds of event: the words of each in a text, and the fields that it names.

/// The field that a kind's number stands for. Its other field is 0 in every event that the rules accept, unless that is an
/// option with a word of its own ([`Kind::beside`]).
#[derive(Clone, Copy, Debug, PartialEq, Eq)]
pub enum Named {
    Amount,
    Option,
    Nothing,
}

#[derive(Debug)]
pub struct Kind {
    /// What a text calls it that a book is unpacked to.
    pub word: &'static str,
    /// Other names that a text may have for it: the papers and the desk do not always use the same word.
    pub others: &'static [&'static str],
    pub named: Named,
    /// What the number is, for a reader who left it out or wrote it wrongly.
    pub number: &'static str,
    /// The word for its option, where the kind names one beside its number.
    pub beside: Option<&'static str>,
}

const fn kind(word: &'static str, named: Named, number: &'static str) -> Kind {
    Kind {
        word,
        others: &[],
        named,
        number,
        beside: None,
    }
}

impl Kind {
    const fn or(self, others: &'static [&'static str]) -> Kind {
        Kind { others, ..self }
    }

    const fn with(self, word: &'static str) -> Kind {
        Kind {
            beside: Some(word),
            ..self
        }
    }

    /// What a text calls an option that is not the kind's number.
    pub fn option_word(&self) -> &'static str {
        self.beside.unwrap_or("option")
    }

    fn is_called(&self, name: &str) -> bool {
        self.word == name || self.others.contains(&name)
    }
}

/// Kind k stands at k - 1.
pub const KINDS: [Kind; 16] = [
    kind("bill", Named::Amount, "its amount in cents"),
    kind("payment", Named::Amount, "its amount in cents").with("till"),
    kind("returned", Named::Amount, "the receipt of the payment")
        .or(&["returned-payment", "returned-check"])
        .with("till"),
    kind("fee", Named::Option, "the number of the fee, 1 to 3"),
    kind("deposit-asked", Named::Amount, "its amount in cents"),
    kind("deposit-paid", Named::Amount, "its amount in cents"),
    kind("deposit-moved", Named::Nothing, ""),
    kind("payout", Named::Amount, "its amount in cents"),
    kind(
        "certificate",
        Named::Amount,
        "its days, 1 to 180 (1 to 90 from day 9497, 2026-01-01, on)",
    )
    .or(&["medical-certificate"]),
    kind("approval", Named::Amount, "its days, 1 to 30"),
    kind("arrangement", Named::Option, "its parts, 2 to 6").or(&["payment-arrangement"]),
    kind("notice", Named::Nothing, "").or(&["final-notice"]),
    kind("call", Named::Nothing, ""),
    kind("cut", Named::Nothing, "").or(&["disconnection"]),
    kind("reconnection", Named::Option, "0 in hours or 1 after hours"),
    kind("close", Named::Nothing, "").or(&["closing"]),
];

/// The kind of a number, none where it is not 1 to 16.
pub fn of_number(number: u8) -> Option<&'static Kind> {
    KINDS.get(usize::from(number).checked_sub(1)?)
}

/// The number of the kind that a word names.
pub fn of_word(word: &str) -> Option<u8> {
    let at = KINDS.iter().position(|kind| kind.is_called(word))?;
    Some(at as u8 + 1)
}

/// The number of the kind that the first words name, and how many they are. Between the two parts of a name stands a hyphen
/// or a blank: `final-notice`, `final notice`.
pub fn of_words(words: &[&str]) -> Option<(u8, usize)> {
    // Of two names the longer: a payment arrangement is no payment.
    (1..=2.min(words.len()))
        .rev()
        .find_map(|count| Some((of_word(&words[..count].join("-"))?, count)))
}

/// All words, as a message lists them.
pub fn all_words() -> String {
    KINDS.map(|kind| kind.word).join(", ")
}

#[cfg(test)]
mod tests {
    use super::*;
    use crate::event::Event;
    use crate::words;

    #[test]
    fn every_name_leads_back_to_its_number_alone() {
        for number in 1..=16 {
            let kind = of_number(number).unwrap();
            for &name in kind.others.iter().chain(&[kind.word]) {
                assert_eq!(of_word(name), Some(number));
                let called = KINDS.iter().filter(|kind| kind.is_called(name));
                assert_eq!(called.count(), 1, "{name}");
                let words: Vec<&str> = name.split('-').collect();
                assert_eq!(of_words(&words), Some((number, words.len())), "{name}");
            }
        }
    }

    /// What the history shows of an event, without its sums, begins with a name that a text may have for it.
    #[test]
    fn the_words_of_a_history_are_names_too() {
        for number in 1..=16 {
            let told = words::event(&Event::new(number, 0, 0, 0));
            let told = told.replace(" of 0.00", "").replace(',', "");
            let words: Vec<&str> = told.split(' ').collect();
            assert_eq!(
                of_words(&words).map(|(kind, _)| kind),
                Some(number),
                "{told}"
            );
        }
    }

    #[test]
    fn an_option_beside_the_number_is_not_the_number_itself() {
        let with_a_word = KINDS.iter().filter(|kind| kind.beside.is_some());
        let told: Vec<(&str, Named, &str)> = with_a_word
            .map(|kind| (kind.word, kind.named, kind.option_word()))
            .collect();
        let expected = [("payment", "till"), ("returned", "till")];
        assert_eq!(
            told,
            expected.map(|(word, option)| (word, Named::Amount, option))
        );
    }

    #[test]
    fn the_longer_of_two_names_is_taken() {
        assert_eq!(of_words(&["payment", "arrangement", "3"]), Some((11, 2)));
        assert_eq!(of_words(&["payment", "4000"]), Some((2, 1)));
        assert_eq!(of_words(&["deposit"]), None);
        assert_eq!(of_words(&[]), None);
    }

    #[test]
    fn other_numbers_and_words_are_no_kind() {
        assert!(of_number(0).is_none());
        assert!(of_number(17).is_none());
        assert!(of_number(255).is_none());
        assert!(of_word("Bill").is_none());
        assert!(of_word("").is_none());
    }
}
