//! What an account tells of the working days between two days, by itself and by the peer, on the days next to the ends of its
//! calendar, of the calendar's words, and of what a notice waits for.
use crate::peer::calendar::{working_days, Calendar, DAYS};
use crate::peer::kind::NOTICE;
use crate::peer::LAST_DAY;
use std::collections::BTreeSet;
use tools::core::lent::{self, ACCEPTED};
use tools::event::Event;

/// Two days, and what is told of the working days after the one and up to the other, in the number of the library.
#[derive(Clone, Copy, Debug, PartialEq, Eq)]
pub struct Worked {
    pub after: u32,
    pub to: u32,
    pub told: u64,
}

/// Places of days next to the ends of a calendar and of some of its words. The days of the last few may come round to 0.
const PLACES: [u32; 12] = [
    0,
    1,
    63,
    64,
    1_087,
    1_088,
    1_983,
    1_984,
    2_046,
    2_047,
    2_048,
    u32::MAX,
];

/// The pairs to ask for: each of some days with the next both ways, and with both ends of all numbers.
pub fn asked(calendar: Option<&Calendar>, accepted: &[Event]) -> Vec<(u32, u32)> {
    let mut days = BTreeSet::from([0, u32::MAX]);
    if let Some(calendar) = calendar {
        days.extend(PLACES.map(|place| calendar.first.wrapping_add(place)));
    }
    let notice = accepted.iter().rfind(|e| e.kind == NOTICE);
    days.extend(
        notice
            .iter()
            .flat_map(|e| [e.day, e.day.saturating_add(20)]),
    );
    let days: Vec<u32> = days.into_iter().collect();
    let near = days
        .windows(2)
        .flat_map(|two| [(two[0], two[1]), (two[1], two[0])]);
    let far = days.iter().flat_map(|&day| [(0, day), (day, u32::MAX)]);
    near.chain(far).collect()
}

pub fn by_account(account: &[u64], pairs: &[(u32, u32)]) -> Vec<Worked> {
    let told = |(after, to)| lent::working_days(account, after, to);
    all(pairs, told)
}

pub fn by_peer(calendar: Option<&Calendar>, accepted: &[Event]) -> Vec<Worked> {
    let told = |(after, to)| match calendar {
        Some(calendar) => ACCEPTED + working_days(calendar, after, to),
        None => 0,
    };
    all(&asked(calendar, accepted), told)
}

/// Memory that is no account tells of no calendar.
pub fn by_no_account(pairs: &[(u32, u32)]) -> Vec<Worked> {
    all(pairs, |_| 0)
}

fn all(pairs: &[(u32, u32)], told: impl Fn((u32, u32)) -> u64) -> Vec<Worked> {
    let one = |&(after, to): &(u32, u32)| Worked {
        after,
        to,
        told: told((after, to)),
    };
    pairs.iter().map(one).collect()
}

/// What was told of a calendar.
struct Case<'a> {
    calendar: &'a Calendar,
    worked: Worked,
}

type Outcome = (&'static str, fn(&Case) -> bool);

const OUTCOMES: [Outcome; 10] = [
    ("all days, from the first number to the last", |c| {
        c.worked.after == 0 && c.worked.to == u32::MAX && c.count() == DAYS
    }),
    ("none, from the first number to the last", |c| {
        c.worked.after == 0 && c.worked.to == u32::MAX && c.count() == 0
    }),
    ("the first day alone", |c| {
        c.is_from(-1, 0) && c.count() == 1
    }),
    ("the last day alone", |c| {
        c.is_from(2_046, 2_047) && c.count() == 1
    }),
    ("the first day of a word alone", |c| {
        c.is_from(63, 64) && c.count() == 1
    }),
    ("some over many words, and not all", |c| {
        c.is_from(64, 1_087) && (1..1_023).contains(&c.count())
    }),
    ("none up to the day before the calendar", |c| {
        c.place(c.worked.to) == -1 && c.worked.after < c.worked.to
    }),
    ("none after the last day, up to the last number", |c| {
        c.place(c.worked.after) == 2_047 && c.worked.to > c.worked.after
    }),
    ("none up to an earlier day, and some the other way", |c| {
        c.count() == 0 && working_days(c.calendar, c.worked.to, c.worked.after) > 0
    }),
    ("some that no event can have", |c| {
        c.worked.after > LAST_DAY && c.count() > 0
    }),
];

impl Case<'_> {
    fn count(&self) -> u64 {
        self.worked.told.saturating_sub(ACCEPTED)
    }

    /// The place that a day has, or would have, in the calendar.
    fn place(&self, day: u32) -> i64 {
        i64::from(day) - i64::from(self.calendar.first)
    }

    fn is_from(&self, after: i64, to: i64) -> bool {
        (self.place(self.worked.after), self.place(self.worked.to)) == (after, to)
    }
}

/// Which of the outcomes there were, and whether an account without a calendar was asked.
#[derive(Default)]
pub struct Reached {
    outcomes: [bool; OUTCOMES.len()],
    no_calendar: bool,
}

impl Reached {
    pub fn note(&mut self, calendar: Option<&Calendar>, told: &[Worked]) {
        let Some(calendar) = calendar else {
            self.no_calendar |= !told.is_empty();
            return;
        };
        for &worked in told {
            let case = Case { calendar, worked };
            for (reached, (_, met)) in self.outcomes.iter_mut().zip(OUTCOMES) {
                *reached |= met(&case);
            }
        }
    }

    pub fn missing(&self) -> Vec<String> {
        let outcomes = self.outcomes.iter().zip(OUTCOMES.map(|(name, _)| name));
        let all = outcomes.chain([(&self.no_calendar, "no calendar")]);
        all.filter(|(reached, _)| !**reached)
            .map(|(_, name)| format!("  {name}"))
            .collect()
    }
}

#[cfg(test)]
mod tests {
    use super::*;
    use crate::make::{bill, calendar, notice};
    use tools::core::Account;

    #[test]
    fn the_ends_are_asked_for_and_what_a_notice_waits_for() {
        let events = [bill(3_000, 6_000), notice(3_020)];
        let from_3_000 = calendar(3_000, |_| true);
        let pairs = asked(Some(&from_3_000), &events);
        for wanted in [
            (2_999, 3_000),
            (3_000, 2_999),
            (3_020, 3_040),
            (3_063, 3_064),
            (3_064, 4_087),
            (5_046, 5_047),
            (5_048, u32::MAX),
            (0, u32::MAX),
            (u32::MAX, u32::MAX),
        ] {
            assert!(pairs.contains(&wanted), "{wanted:?}");
        }
        assert!(asked(None, &[]).contains(&(0, u32::MAX)));
    }

    #[test]
    fn both_tell_the_same() {
        for first in [0, 3_000, u32::MAX - 2_047, u32::MAX] {
            let third = calendar(first, |place| place % 3 == 0);
            let account = Account::begin(&third);
            let pairs = asked(Some(&third), &[]);
            let told = by_account(account.words(), &pairs);
            assert_eq!(told, by_peer(Some(&third), &[]), "first {first}");
        }
        let fresh = Account::fresh();
        let pairs = asked(None, &[]);
        assert_eq!(by_account(fresh.words(), &pairs), by_peer(None, &[]));
        assert_eq!(by_peer(None, &[]), by_no_account(&pairs));
    }

    #[test]
    fn what_is_not_reached_is_missing() {
        let mut reached = Reached::default();
        assert_eq!(reached.missing().len(), OUTCOMES.len() + 1);
        reached.note(None, &by_peer(None, &[]));
        assert_eq!(reached.missing().len(), OUTCOMES.len());
        let note = |reached: &mut Reached, calendar: &Calendar| {
            reached.note(Some(calendar), &by_peer(Some(calendar), &[]));
        };
        // Without working days: none in all, before the calendar and behind it.
        note(&mut reached, &calendar(3_000, |_| false));
        assert_eq!(reached.missing().len(), OUTCOMES.len() - 3);
        note(&mut reached, &calendar(3_000, |_| true));
        let left = [
            "  some over many words, and not all",
            "  some that no event can have",
        ];
        assert_eq!(reached.missing(), left);
        note(&mut reached, &calendar(80_000, |place| place % 2 == 0));
        assert_eq!(reached.missing(), [""; 0]);
    }
}
