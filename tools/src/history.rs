//! An account of a book, posted event by event to an account that the core keeps. Every answer and every sum is the core's;
//! what an event added is the difference of what the core says is owed before and after it.
use crate::core::{Account, Answer, Calendar};
use crate::event::Event;
use crate::hints::{self, Before};
use std::collections::HashMap;

const BILL: u8 = 1;
const PAYMENT: u8 = 2;
const RETURNED: u8 = 3;
const PAYOUT: u8 = 8;

/// One event and what came of it.
#[derive(Clone, Debug, PartialEq, Eq)]
pub struct Step {
    pub event: Event,
    pub answer: Answer,
    /// What is owed after it in cents, negative where there is credit.
    pub owed: i64,
    /// The payment that came back, where the event is a returned one.
    pub again: Option<u64>,
    /// What the event changed of what is owed, beyond the sum that it speaks of itself: a late charge or a fee above 0, a
    /// deposit that became a credit below.
    pub added: i128,
    /// The line under its answer: what to look for where it is refused, the working days that a disconnection counted.
    pub note: Option<String>,
}

impl Step {
    /// The number that refuses the event, 0 where it is accepted.
    pub fn number(&self) -> u8 {
        match self.answer {
            Answer::Accepted(_) => 0,
            Answer::Refused(number) => number,
        }
    }

    /// The receipt of an accepted payment, as its till counts them.
    pub fn receipt(&self) -> Option<u64> {
        match self.answer {
            Answer::Accepted(receipt) if receipt > 0 => Some(receipt),
            _ => None,
        }
    }
}

/// An account after some of its events.
#[derive(Clone, Default)]
pub struct History {
    before: Before,
    /// The amounts of the accepted payments by till and receipt: two tills may have given the same one.
    payments: HashMap<(u8, u64), u64>,
    pub refused: usize,
}

impl History {
    /// Posts all events, one after another.
    pub fn of(events: &[Event]) -> (History, Vec<Step>) {
        History::begun(None, events)
    }

    /// The same to an account that is begun with a calendar, where one is given.
    pub fn begun(calendar: Option<&Calendar>, events: &[Event]) -> (History, Vec<Step>) {
        let mut history = History {
            before: Before::begun(calendar),
            ..History::default()
        };
        let steps = events.iter().map(|&event| history.post(event)).collect();
        (history, steps)
    }

    pub fn account(&self) -> &Account {
        self.before.account()
    }

    /// The account and its accepted events, as a hint looks at them.
    pub fn before(&self) -> &Before {
        &self.before
    }

    pub fn post(&mut self, event: Event) -> Step {
        let owed = self.account().owed();
        let again = self.payment_returned(&event);
        let foretold = self.account().would_answer(event);
        let note = hints::under(foretold, &event, &self.before);
        let answer = self.before.post(event);
        match answer {
            Answer::Accepted(0) => {}
            Answer::Accepted(receipt) => {
                self.payments.insert((event.option, receipt), event.amount);
            }
            Answer::Refused(_) => self.refused += 1,
        }
        let accepted = matches!(answer, Answer::Accepted(_));
        let again = again.filter(|_| accepted);
        let change = i128::from(self.account().owed()) - i128::from(owed);
        Step {
            event,
            answer,
            owed: self.account().owed(),
            again,
            added: if accepted {
                change - own(&event, again)
            } else {
                0
            },
            note,
        }
    }

    /// What would come of an event, with nothing changed. The answer is the one that the core gives beforehand; what would be
    /// owed then, a copy of the account says.
    pub fn tried(&self, event: Event) -> Step {
        let answer = self.account().would_answer(event);
        let step = self.clone().post(event);
        Step { answer, ..step }
    }

    /// The payment that an event says came back.
    fn payment_returned(&self, event: &Event) -> Option<u64> {
        if event.kind != RETURNED {
            return None;
        }
        self.payments.get(&(event.option, event.amount)).copied()
    }
}

/// The sum that an event speaks of itself, as it changes what is owed.
fn own(event: &Event, again: Option<u64>) -> i128 {
    match event.kind {
        BILL | PAYOUT => event.amount.into(),
        PAYMENT => -i128::from(event.amount),
        _ => again.unwrap_or(0).into(),
    }
}

#[cfg(test)]
mod tests {
    use super::*;
    use crate::text;

    /// The steps of a history, its events written one after another.
    fn steps(events: &str) -> Vec<Step> {
        let events: Vec<Event> = events
            .split("; ")
            .map(|e| text::event(e).unwrap())
            .collect();
        History::of(&events).1
    }

    /// What each event added.
    fn added(events: &str) -> Vec<i128> {
        let steps = steps(events);
        assert!(steps.iter().all(|step| step.number() == 0), "{steps:?}");
        steps.iter().map(|step| step.added).collect()
    }

    #[test]
    fn a_bill_adds_its_late_charge_alone() {
        // Document 01's case l: 1.33 owed make no late charge, 1.34 one cent.
        assert_eq!(added("0 bill 133; 0 bill 500"), [0, 0]);
        assert_eq!(added("0 bill 134; 0 bill 500"), [0, 1]);
        // Both sides of the next cents.
        for (owed, late) in [(266, 1), (267, 2), (399, 2), (400, 3)] {
            assert_eq!(added(&format!("0 bill {owed}; 0 bill 500")), [0, late]);
        }
        assert_eq!(
            added("100 bill 10000; 130 bill 5000; 131 payment 4000"),
            [0, 75, 0]
        );
        assert_eq!(added("0 payment 500; 1 payout 500; 2 bill 100"), [0, 0, 0]);
    }

    #[test]
    fn fees_are_what_is_owed_more() {
        assert_eq!(added("0 fee 1; 0 fee 2; 0 fee 3"), [7_500, 15_000, 3_000]);
        let cut = "0 bill 6000; 20 notice; 22 call; 25 cut; 26 payment 7500; 26 reconnection ";
        for (hours, fee) in [("0", 2_000), ("1", 7_500)] {
            assert_eq!(added(&format!("{cut}{hours}")), [0, 1_500, 0, 0, 0, fee]);
        }
    }

    #[test]
    fn a_returned_payment_is_charged_again_with_a_fee() {
        let steps = steps("0 payment 400; 0 payment 300; 1 returned 1; 1 returned 1; 1 returned 2");
        let told: Vec<(Option<u64>, i128)> = steps.iter().map(|s| (s.again, s.added)).collect();
        assert_eq!(
            told,
            [
                (None, 0),
                (None, 0),
                (Some(400), 2_500),
                (None, 0),
                (Some(300), 2_500)
            ]
        );
        assert_eq!(steps[3].number(), 6);
        assert_eq!(steps[1].receipt(), Some(2));
        assert_eq!(steps[4].receipt(), None);
    }

    #[test]
    fn a_payment_is_returned_at_its_own_till() {
        let paid = "0 payment 400; 0 payment 300 till=1; 0 payment 200 till=1; ";
        let told = |events: &str| -> Vec<(u8, Option<u64>)> {
            let steps = steps(&format!("{paid}{events}"));
            steps[3..].iter().map(|s| (s.number(), s.again)).collect()
        };
        assert_eq!(
            told("1 returned 1 till=1; 1 returned 1; 1 returned 2; 1 returned 2 till=1"),
            [(0, Some(300)), (0, Some(400)), (6, None), (0, Some(200))]
        );
        assert_eq!(
            told("1 returned 1 till=2; 1 returned 1 till=5"),
            [(6, None), (3, None)]
        );
        let receipts: Vec<Option<u64>> = steps(paid.trim_end_matches("; "))
            .iter()
            .map(Step::receipt)
            .collect();
        assert_eq!(receipts, [Some(1), Some(1), Some(2)]);
        assert_eq!(
            added(&format!("{paid}1 returned 1 till=1; 1 returned 1")),
            [0, 0, 0, 2_500, 2_500]
        );
    }

    #[test]
    fn a_deposit_that_is_moved_is_a_credit() {
        let deposit = "0 deposit-asked 900; 0 deposit-paid 900; ";
        assert_eq!(added(&format!("{deposit}366 deposit-moved")), [0, 0, -900]);
        assert_eq!(added(&format!("{deposit}1 close")), [0, 0, -900]);
        assert_eq!(added("1 close"), [0]);
    }

    #[test]
    fn what_is_tried_is_what_would_come_and_changes_nothing() {
        let (history, _) = History::of(&[Event::of(1, 0, 6_000), Event::of(14, 25, 0)]);
        let account = history.account().clone();
        for event in [
            "19 notice",
            "20 notice",
            "20 payment 7",
            "20 payment 0",
            "73049 call",
        ] {
            let event = text::event(event).unwrap();
            assert_eq!(history.tried(event), history.clone().post(event));
            assert_eq!(*history.account(), account);
        }
        assert_eq!((history.refused, history.account().owed()), (1, 6_000));
    }
}
