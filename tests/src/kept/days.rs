//! What an account tells for a day, by itself and by the peer, on the days next to each bound of its events.
use crate::peer::days;
use crate::peer::kind::*;
use crate::peer::money::Money;
use crate::peer::LAST_DAY;
use std::collections::BTreeSet;
use tools::core::lent::{self, ACCEPTED};
use tools::event::Event;

const QUESTIONS: [&str; 4] = [
    "arrears",
    "arrangement in force",
    "live notice",
    "live certificate",
];

/// A day and what is told for it, in the numbers of the library and the order of the questions.
pub type OnDay = (u32, [u64; 4]);

/// The days to ask for: both sides of the range that is not refused, and of each bound that an accepted event gives.
pub fn asked(accepted: &[Event]) -> BTreeSet<u32> {
    let last = accepted.last().map_or(0, |event| event.day);
    let mut days: BTreeSet<u32> = accepted.iter().flat_map(bounds).collect();
    days.retain(|&day| last <= day && day <= LAST_DAY);
    days.extend([0, last.saturating_sub(1), last, last + 1]);
    days.extend([LAST_DAY, LAST_DAY + 1, u32::MAX]);
    days
}

/// The last day before something changes by an event alone, and the day on which it does.
fn bounds(event: &Event) -> Vec<u32> {
    let steps: Vec<u32> = match event.kind {
        BILL | RETURNED | FEE | RECONNECTION => vec![20],
        NOTICE => vec![20, 21],
        CERTIFICATE => vec![event.amount as u32],
        ARRANGEMENT => (1..=event.option.into()).map(|part| 30 * part).collect(),
        _ => vec![],
    };
    let both = |step| [event.day + step - 1, event.day + step];
    steps.into_iter().flat_map(both).collect()
}

pub fn by_account(account: &[u64], days: &BTreeSet<u32>) -> Vec<OnDay> {
    let ask = [
        lent::arrears,
        lent::in_force,
        lent::notice_live,
        lent::certified,
    ];
    let told = |&day| (day, ask.map(|ask| ask(account, day)));
    days.iter().map(told).collect()
}

/// After the first `after` of the accepted events.
pub fn by_peer(accepted: &[Event], money: &Money, after: usize) -> Vec<OnDay> {
    let told = |day| match days::told(accepted, money, after, day) {
        Err(number) => [number.into(); 4],
        Ok(told) => [
            told.arrears as u64,
            told.in_force.into(),
            told.notice_live.into(),
            told.certified.into(),
        ]
        .map(|told| ACCEPTED + told),
    };
    let days = asked(&accepted[..after]);
    days.into_iter().map(|day| (day, told(day))).collect()
}

/// Memory that is no account tells nothing for any day.
pub fn by_no_account(days: &BTreeSet<u32>) -> Vec<OnDay> {
    days.iter().map(|&day| (day, [0; 4])).collect()
}

/// Which answers there were to which questions.
#[derive(Default)]
pub struct Reached(BTreeSet<(usize, Outcome)>);

#[derive(Clone, Copy, Debug, PartialEq, Eq, PartialOrd, Ord)]
enum Outcome {
    Refused(u64),
    /// Nothing in arrears, or no.
    Nothing,
    /// Some cents, or yes.
    Something,
    /// More or fewer than on the day before.
    Changed,
}

const OUTCOMES: [Outcome; 5] = [
    Outcome::Refused(1),
    Outcome::Refused(2),
    Outcome::Nothing,
    Outcome::Something,
    Outcome::Changed,
];

impl Reached {
    pub fn note(&mut self, told: &[OnDay]) {
        for (_, numbers) in told {
            let outcome = |number: u64| match number.checked_sub(ACCEPTED) {
                None => Outcome::Refused(number),
                Some(0) => Outcome::Nothing,
                Some(_) => Outcome::Something,
            };
            self.0.extend(numbers.map(outcome).into_iter().enumerate());
        }
        for two in told.windows(2) {
            let (before, after) = (two[0], two[1]);
            let follows = before.0.checked_add(1) == Some(after.0);
            for question in 0..QUESTIONS.len() {
                let (before, after) = (before.1[question], after.1[question]);
                if follows && before.min(after) >= ACCEPTED && before != after {
                    self.0.insert((question, Outcome::Changed));
                }
            }
        }
    }

    pub fn missing(&self) -> Vec<String> {
        let all = (0..QUESTIONS.len()).flat_map(|at| OUTCOMES.map(|outcome| (at, outcome)));
        all.filter(|one| !self.0.contains(one))
            .map(|(at, outcome)| format!("  {}: {outcome:?}", QUESTIONS[at]))
            .collect()
    }
}

#[cfg(test)]
mod tests {
    use super::*;
    use crate::make::{arrangement, bill, certificate, notice, payment};
    use crate::peer::post_all;
    use tools::core::Account;

    fn events() -> [Event; 5] {
        [
            bill(0, 6_000),
            certificate(19, 180),
            arrangement(20, 2),
            notice(20),
            payment(21, 500),
        ]
    }

    #[test]
    fn the_days_next_to_each_bound_are_asked_for() {
        let days: Vec<u32> = asked(&events()).into_iter().collect();
        let near = [0, 20, 21, 22, 39, 40, 41, 49, 50, 79, 80, 198, 199];
        let far = [73_048, 73_049, u32::MAX];
        assert_eq!(days, [&near[..], &far].concat());
        let none: Vec<u32> = asked(&[]).into_iter().collect();
        assert_eq!(none, [0, 1, 73_048, 73_049, u32::MAX]);
    }

    #[test]
    fn both_tell_the_same_and_a_change_is_seen() {
        let mut account = Account::fresh();
        for event in events() {
            account.post(event);
        }
        let accepted = post_all(&events()).accepted;
        let money = Money::of(&accepted);
        let told = by_account(account.words(), &asked(&accepted));
        assert_eq!(told, by_peer(&accepted, &money, accepted.len()));
        assert_eq!(told[1], (20, [2; 4]));
        assert_eq!(told[2], (21, [256 + 5_500, 257, 257, 257]));
        assert_eq!(told[7], (49, [256 + 7_000, 257, 256, 257]));
        assert_eq!(told[8], (50, [256 + 7_000, 256, 256, 257]));
        assert_eq!(told[14], (73_049, [1; 4]));
        let mut reached = Reached::default();
        assert_eq!(reached.missing().len(), 20);
        // Without events there is nothing on any day, and no change.
        reached.note(&by_peer(&[], &Money::of(&[]), 0));
        assert_eq!(reached.missing().len(), 12);
        reached.note(&told);
        assert_eq!(reached.missing(), [""; 0]);
    }
}
